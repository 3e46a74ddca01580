#!/usr/bin/env python3
"""Copy the elements, attributes and text of a document, by expat.

Usage: expat_copy.py < DOCUMENT > COPY

A streaming filter as one would write it in Python. Two documents that differ
only in how they are written down have the same copy.
"""

import sys
from xml.parsers import expat


def escape(text):
    return text.replace("&", "&amp;").replace("<", "&lt;").replace(">", "&gt;")


def escape_text(text):
    return escape(text).replace("\r", "&#13;")


def escape_value(text):
    # White space is written as references because a parser would otherwise
    # turn it into spaces.
    return (
        escape(text)
        .replace('"', "&quot;")
        .replace("\t", "&#9;")
        .replace("\n", "&#10;")
        .replace("\r", "&#13;")
    )


def copy(source, target):
    parts = []

    def start(name, attributes):
        parts.append("<" + name)
        for index in range(0, len(attributes), 2):
            parts.append(f' {attributes[index]}="{escape_value(attributes[index + 1])}"')
        parts.append(">")

    def end(name):
        parts.append(f"</{name}>")

    def characters(text):
        parts.append(escape_text(text))

    parser = expat.ParserCreate()
    parser.ordered_attributes = True
    parser.buffer_text = True
    parser.StartElementHandler = start
    parser.EndElementHandler = end
    parser.CharacterDataHandler = characters
    while piece := source.read(4096):
        parser.Parse(piece, False)
        target.write("".join(parts).encode())
        parts.clear()
    parser.Parse(b"", True)
    parts.append("\n")
    target.write("".join(parts).encode())


if __name__ == "__main__":
    try:
        with open(0, "rb", buffering=0) as source, open(1, "wb") as target:
            copy(source, target)
    except expat.ExpatError as error:
        sys.exit(f"expat_copy.py: {error}")
