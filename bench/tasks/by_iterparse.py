#!/usr/bin/env python3
"""Do a task of this folder with iterparse: by_iterparse.py TASK lxml|ElementTree < DOCUMENT > RESULT"""

import sys
from itertools import groupby
from xml.sax.saxutils import escape

RECORDS = {"table": "product", "filter": "e", "neighbours": "e", "merge": "item"}


def lxml_records(source, name):
    from lxml import etree

    for _, element in etree.iterparse(source, tag=name, remove_blank_text=True):
        yield element
        element.clear()
        while element.getprevious() is not None:
            del element.getparent()[0]


def standard_records(source, name):
    from xml.etree import ElementTree

    events = ElementTree.iterparse(source, events=("start", "end"))
    _, root = next(events)
    for event, element in events:
        if event == "end" and element.tag == name:
            yield element
            root.clear()


def value(text):
    return escape(text, {'"': "&quot;"})


def table(products, write):
    write("<table>")
    for number, product in enumerate(products, 1):
        price = product.find("price")
        write(
            f'<tr class="r{number % 2}"><td>{escape(product.findtext("name"))}</td>'
            f"<td>{escape(price.get('cur'))} {int(price.text) // 100}</td></tr>"
        )
    write("</table>")


def filter(entries, write):
    write("<log>")
    for entry in entries:
        if entry.get("level") == "error":
            attributes = "".join(f' {name}="{value(text)}"' for name, text in entry.items())
            children = "".join(f"<{child.tag}>{escape(child.text)}</{child.tag}>" for child in entry)
            write(f"<e{attributes}>{children}</e>")
    write("</log>")


def neighbours(entries, write):
    write("<log>")
    for day, of_day in groupby(entries, key=lambda entry: entry.get("day")):
        write(f'<day n="{value(day)}">')
        for entry in of_day:
            write(f"<e>{escape(entry.text)}</e>")
        write("</day>")
    write("</log>")


def merge(items, write):
    with open("prices.xml", "rb") as source:
        prices = {price.get("sku"): price.text for price in standard_records(source, "price")}
    write("<order>")
    for item in items:
        sku = item.get("sku")
        price = f' price="{value(prices[sku])}"' if sku in prices else ""
        write(f'<item sku="{value(sku)}"{price}><count>{escape(item.findtext("count"))}</count></item>')
    write("</order>")


TASKS = {"table": table, "filter": filter, "neighbours": neighbours, "merge": merge}


def main(task, library):
    records = lxml_records if library == "lxml" else standard_records
    with open(1, "w", encoding="utf-8", closefd=False) as target:
        TASKS[task](records(sys.stdin.buffer, RECORDS[task]), target.write)
        target.write("\n")


if __name__ == "__main__":
    main(*sys.argv[1:])
