#!/usr/bin/env python3
"""Compare what the schema of sheets says with what the loader is tested to say.

Usage: check_schema.py ROWS SCHEMA

ROWS is the file of rows with sheets. Each that is accepted has to be valid by the
schema, and each that is refused for its elements, their places, their attributes or
its version mustn't be. What the schema doesn't say is left out: values of
expressions and patterns, names that aren't there, and what stands in other files.
"""

import collections
import subprocess
import sys
import tempfile
from pathlib import Path

from rows import bytes_of, rows, text_of

REFUSED = {"UnknownElement", "Misplaced", "UnknownAttribute", "MissingAttribute", "Version"}


def sheets(path):
    """Each sheet of the rows, put into what is set around it, with what is told of it."""
    for table, settings, given, wanted in rows(path):
        around = [value.partition(" =>")[0] for key, value in settings if key == "inside"] or ["|"]
        for front, bar, back in (it.partition("|") for it in around):
            if table == "loads":
                yield bytes_of(front + given + back if bar else front), text_of(wanted).split(" || ")[0].split()


def verdict(told):
    """Whether a sheet has to be valid, or mustn't be; nothing where the schema doesn't say it."""
    if told[0] == "accepted":
        return True
    return False if told[0] == "s.stx:" and told[1] in REFUSED else None


def main(path, schema):
    asked = [(sheet, told) for sheet, told in sheets(path) if verdict(told) is not None]
    with tempfile.TemporaryDirectory() as folder:
        files = [Path(folder, f"{number}.stx") for number in range(len(asked))]
        for file, (sheet, _) in zip(files, asked):
            file.write_bytes(sheet)
        words = ["xmllint", "--huge", "--noout", "--relaxng", schema, *files]
        said = subprocess.run(words, capture_output=True, check=False).stderr.decode(errors="replace")
    valid = {line.removesuffix(" validates") for line in said.splitlines() if line.endswith(" validates")}
    counts = collections.Counter()
    for file, (sheet, told) in zip(files, asked):
        if verdict(told) == (str(file) in valid):
            counts["valid" if verdict(told) else "invalid"] += 1
        else:
            counts["failed"] += 1
            found = "valid" if str(file) in valid else "invalid"
            print(f"{sheet[:300]!r}: told {' '.join(told)}, by the schema {found}", file=sys.stderr)
    kinds = ", ".join(f"{counts[kind]} {kind}" for kind in ("valid", "invalid"))
    print(f"sheets of rows by the schema ({kinds}): {counts['valid'] + counts['invalid']} passed, {counts['failed']} failed")
    return counts["failed"] > 0 or min(counts["valid"], counts["invalid"]) < 100


if __name__ == "__main__":
    sys.exit(main(*sys.argv[1:]))
