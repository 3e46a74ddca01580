#!/usr/bin/env python3
"""Give a program one text of 10 MB through a pipe, in large and small writes.

Usage: one_text.py PROGRAM SHEET

Prints a table of throughput and peak memory, with cat as the reader that does
no work, and checks that the output has the content of the input and that the
memory is that of a text which is held whole, however it arrives.
"""

import io
import sys
import tempfile

import expat_copy
import make_documents
import measure

MEGABYTES = 10
PIECE_SIZES = (65536, 7)
RUNS = 3
# In KiB. A text is held as its bytes, as a node, as the first child of its element
# and as output; the rest is as elsewhere.
PEAK_LIMIT = 16 * 1024 + 4 * MEGABYTES * 1_000_000 // 1024


def content(document):
    """The document in the one form that a copy gives it."""
    copy = io.BytesIO()
    expat_copy.copy(io.BytesIO(document), copy)
    return copy.getvalue()


def check(holds, words):
    print(f"- {'ok' if holds else 'NOT ok'}: {words}")


def main(arguments):
    if len(arguments) != 2:
        sys.exit("usage: one_text.py PROGRAM SHEET")
    text = b"".join(make_documents.document("one_text", MEGABYTES * 1_000_000))
    readers = {"stx": arguments, "cat": ["cat"]}

    print("| bytes in a write | reader | MB/s | peak MiB |")
    print("| ---: | --- | ---: | ---: |")
    highest = 0
    same = True
    for size in PIECE_SIZES:
        pieces = [text[start : start + size] for start in range(0, len(text), size)]
        for name, command in readers.items():
            seconds, peak = measure.best(RUNS, command, None, pieces=pieces)
            rate = len(text) / 1e6 / seconds
            print(f"| {size} | {name} | {rate:.1f} | {peak / 1024:.1f} |", flush=True)
            if name == "stx":
                highest = max(highest, peak)
        with tempfile.NamedTemporaryFile() as output:
            measure.run(arguments, None, output=output.name, pieces=pieces)
            same = same and content(output.read()) == content(text)

    print()
    check(same, "one text: the output has the content of the input for every size of write")
    check(
        highest < PEAK_LIMIT,
        f"one text: peak memory of stx = {highest / 1024:.1f} MiB, "
        f"to be under {PEAK_LIMIT / 1024:.1f}",
    )


if __name__ == "__main__":
    try:
        main(sys.argv[1:])
    except (measure.CommandFailed, expat_copy.expat.ExpatError, OSError) as error:
        print()
        check(False, f"one text: {error}")
