#!/usr/bin/env python3
"""Write a document of a given shape and size; the same one every time.

Usage: make_documents.py SHAPE MEGABYTES > DOCUMENT

A document is one root element and a line feed. It holds start tags, end tags,
attributes and text in ASCII, so that every program under comparison can read
it. Only the shape `references` has references, and only `feed` and `namespaces`
have declarations and prefixed names.
It ends with the first unit that reaches MEGABYTES (of 1,000,000 bytes).
"""

import sys

PIECE_UNITS = 256
DEPTH = 200
PARAGRAPH_BYTES = 2000
BETWEEN_REFERENCES = 100
REFERENCES = ("&amp;", "&#65;", "&lt;", "&#x7a;", "&quot;")

WORDS = (
    "a stream of events passes through the rules in the order of the document "
    "and every rule sees only what has gone by so memory stays small however "
    "long the input grows while output follows close behind"
).split()
COLOURS = ("red", "green", "blue", "white", "black")


def make_sentences(count):
    sentences = []
    state = 1
    for number in range(count):
        words = []
        for _ in range(8 + number % 13):
            # A generator of our own keeps the documents the same whatever the
            # version of Python.
            state = (state * 1103515245 + 12345) % 2**31
            words.append(WORDS[(state >> 16) % len(WORDS)])
        sentences.append(" ".join(words).capitalize() + ".\n")
    return sentences


SENTENCES = make_sentences(211)
OPENING = "".join(f'<level{depth} depth="{depth}">down {depth} ' for depth in range(1, DEPTH))
CLOSING = "".join(f" up {depth}</level{depth}>" for depth in range(DEPTH - 1, 0, -1))


def records(number):
    return (
        f'<rec id="{number}"><name>item {number}</name>'
        f"<qty>{number * 7 % 100}</qty></rec>\n"
    )


def attributes(number):
    return (
        f'<entry id="{number}" name="item {number}" colour="{COLOURS[number % 5]}" '
        f'width="{number * 7 % 1000}" height="{number * 13 % 1000}" '
        f'price="{number * 31 % 500}.95" updated="2024-03-17T08:{number % 60:02}:00" '
        f'link="http://example.org/items/{number}"></entry>\n'
    )


def text(number):
    parts = [f"<p>Paragraph {number}.\n"]
    size = 0
    choice = number * 37
    while size < PARAGRAPH_BYTES:
        sentence = SENTENCES[choice % len(SENTENCES)]
        parts.append(sentence)
        size += len(sentence)
        choice += 17
    parts.append("</p>\n")
    return "".join(parts)


def references(number):
    # A paragraph of `text` in which one character in a hundred is a reference.
    words = text(number)[len("<p>") : -len("</p>\n")]
    parts = ["<p>"]
    for start in range(0, len(words), BETWEEN_REFERENCES):
        parts.append(REFERENCES[(number + start // BETWEEN_REFERENCES) % len(REFERENCES)])
        parts.append(words[start + 1 : start + BETWEEN_REFERENCES])
    parts.append("</p>\n")
    return "".join(parts)


def deep(number):
    # The root is one level more, so the depth is DEPTH in all.
    return f"{OPENING}bottom {number}{CLOSING}\n"


def feed(number):
    # All prefixes are declared by the root.
    return entry(number, "")


def namespaces(number):
    # A feed in which some entries have a note, whose prefix it declares itself.
    note = ""
    if number % 10 == 0:
        note = f'<x:note xmlns:x="urn:example:notes:{number % 7}">note {number}</x:note>'
    return entry(number, note)


def entry(number, note):
    return (
        f"<entry><title>item {number}</title><dc:creator>maker {number % 97}</dc:creator>"
        f'<media:thumbnail url="http://example.org/{number}.png" media:width="{number * 7 % 1000}"></media:thumbnail>'
        f'<geo:point geo:lat="{number * 13 % 90}">point {number}</geo:point>{note}</entry>\n'
    )


def one_text(number):
    return SENTENCES[number * 37 % len(SENTENCES)]


def products(number):
    return f'<product><name>item {number}</name><price cur="EUR">{number * 31 % 50000}</price></product>\n'


def log(number):
    level = "error" if number % 100 == 0 else ("info", "debug", "warning")[number % 3]
    return (
        f'<e time="2024-03-17T08:{number // 60 % 60:02}:{number % 60:02}" level="{level}">'
        f"<from>part {number % 17}</from><text>{SENTENCES[number % len(SENTENCES)].strip()}</text></e>\n"
    )


def days(number):
    # Ten neighbours have one day.
    return f'<e day="{number // 10}" user="u{number % 97}">entry {number}</e>\n'


def order(number):
    # There are prices for 100 of 101 articles.
    return f'<item sku="A{number * 37 % 101}"><count>{number % 9 + 1}</count></item>\n'


SHAPES = {
    "records": records,
    "attributes": attributes,
    "text": text,
    "references": references,
    "deep": deep,
    "feed": feed,
    "namespaces": namespaces,
    "one_text": one_text,
    "products": products,
    "log": log,
    "days": days,
    "order": order,
}

# Shapes whose root isn't called `doc`.
ROOTS = {"products": "products", "log": "log", "days": "log", "order": "order"}

# Shapes whose root declares these. They stand as a copy writes them: the default namespace and then prefixes in order.
DECLARING = ("feed", "namespaces")
DECLARATIONS = (
    ' xmlns="http://www.w3.org/2005/Atom" xmlns:dc="http://purl.org/dc/elements/1.1/" '
    'xmlns:geo="http://www.georss.org/georss" xmlns:media="http://search.yahoo.com/mrss/"'
)


def document(shape, size):
    """Yield the document in pieces of bytes."""
    unit = SHAPES[shape]
    number = 1
    root = ROOTS.get(shape, "doc")
    end = f"</{root}>\n".encode("ascii")
    piece = [f"<{root}{DECLARATIONS if shape in DECLARING else ''}>\n"]
    remaining = size - len(end) - len(piece[0])
    while remaining > 0:
        part = unit(number)
        piece.append(part)
        remaining -= len(part)
        number += 1
        if number % PIECE_UNITS == 0:
            yield "".join(piece).encode("ascii")
            piece.clear()
    yield "".join(piece).encode("ascii") + end


def main(arguments):
    if len(arguments) != 2 or arguments[0] not in SHAPES or not arguments[1].isdecimal():
        sys.exit(f"usage: make_documents.py {'|'.join(SHAPES)} MEGABYTES > DOCUMENT")
    for piece in document(arguments[0], int(arguments[1]) * 1_000_000):
        sys.stdout.buffer.write(piece)


if __name__ == "__main__":
    main(sys.argv[1:])
