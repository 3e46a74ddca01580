#!/usr/bin/env python3
"""Read the writer's results back, by expat.

Usage: read_results.py ROWS...

ROWS are the files of rows with the parts and the bytes of results that are
compared with what the writer writes. The bytes of each result that leaves no
element open have to be well-formed between a start and an end tag, and to be
read as the parts that were taken: the same expanded names, attributes, texts,
comments and processing instructions.
"""

import re
import sys
from xml.parsers import expat

from rows import rows, text_of

# No Char, so no namespace URI holds it.
SEPARATOR = "\x1f"


def expanded_name(written):
    """`prefix{URI}local` as expat names it."""
    uri, brace, local = written.partition("{")[2].rpartition("}")
    local, uri = text_of(local if brace else written), text_of(uri)
    return uri + SEPARATOR + local if uri else local


def part(written):
    """A part as its form and its texts."""
    form, rest = written[0], written[1:]
    first, _, second = rest.partition(" ")
    if form == "<":
        return "start", expanded_name(first.removeprefix("<"))
    if form == "@":
        return "attribute", expanded_name(first), text_of(second)
    if form == "/":
        return "end", expanded_name(rest)
    if form == "?":
        return "instruction", text_of(first), text_of(second)
    return {'"': "text", "[": "section", "!": "comment"}[form], text_of(rest)


def taken(given, refusals):
    refused = {int(place) for place in re.findall(r" at (\d+)", refusals)}
    parts = given.split(" | ") if given else []
    return [part(written) for place, written in enumerate(parts) if place not in refused]


def events_of_parts(parts):
    events = []
    attributes = {}
    open_names = []
    for form, *texts in parts:
        if form == "start":
            attributes = {}
            open_names.append(texts[0])
            events.append(("start", texts[0], attributes))
        elif form == "attribute":
            attributes[texts[0]] = texts[1]
        elif form == "end":
            # An end may be written without the name of what it ends.
            events.append(("end", open_names.pop()))
        elif form in ("text", "section"):
            add_text(events, texts[0])
        else:
            events.append((form, *texts))
    return events


def add_text(events, text):
    """Neighbouring texts are one, and an empty one is none."""
    if events and events[-1][0] == "text":
        events[-1] = ("text", events[-1][1] + text)
    elif text:
        events.append(("text", text))


def events_of_bytes(written):
    events = []
    parser = expat.ParserCreate(namespace_separator=SEPARATOR)
    parser.StartElementHandler = lambda name, attributes: events.append(("start", name, attributes))
    parser.EndElementHandler = lambda name: events.append(("end", name))
    parser.CharacterDataHandler = lambda text: add_text(events, text)
    parser.CommentHandler = lambda text: events.append(("comment", text))
    parser.ProcessingInstructionHandler = lambda *texts: events.append(("instruction", *texts))
    parser.Parse(f"<r>{written}</r>".encode(), True)
    return events[1:-1]


def in_order(events):
    """Attributes in a list, since the order of a dictionary doesn't count."""
    return [(*event[:2], list(event[2].items())) if event[0] == "start" else event for event in events]


def results(path):
    """What is given, the bytes and the refusals of each result."""
    for table, _, given, wanted in rows(path):
        if table == "results":
            written, _, refusals = text_of(wanted).rpartition("!! ") if "!! " in wanted else (text_of(wanted), "", "")
            yield given, written.removesuffix(" ") if refusals else written, refusals


def main():
    passed = failed = 0
    for path in sys.argv[1:]:
        for given, written, refusals in results(path):
            if "UnclosedResult" in refusals:
                continue
            wanted = in_order(events_of_parts(taken(given, refusals)))
            try:
                found = in_order(events_of_bytes(written))
            except expat.ExpatError as error:
                found = error
            if found == wanted:
                passed += 1
            else:
                failed += 1
                print(f"{written!r} is read as {found}, not as {wanted}", file=sys.stderr)
    print(f"results read back: {passed} passed, {failed} failed")
    return failed > 0 or passed == 0


if __name__ == "__main__":
    sys.exit(main())
