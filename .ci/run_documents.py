#!/usr/bin/env python3
"""Run the program on documents of each kind, and compare output, note and status.

Usage: run_documents.py ROWS PROGRAM...

ROWS is the file of rows with the documents that whole runs are tested on: those
that are read to their end and those with a fault, each with what copying and
stripping it gives. PROGRAM is the command, without the name of a sheet. Three
more documents, which only their size makes faulty, are made here. Each is run
under sheets that only pass it through, and under the same sheets with a template
that fits none of its nodes: these are run in another way, and give the same.
"""

import subprocess
import sys
import tempfile
from pathlib import Path

from rows import bytes_of, rows, text_of

SHEET = '<stx:transform version="1.0" xmlns:stx="http://stx.sourceforge.net/2002/ns"{}>{}</stx:transform>'
TEMPLATE = '<stx:template match="no-such-node"><never/></stx:template>'
HEAD = '<?xml version="1.0" encoding="UTF-8"?>\n'
# The limits of a lexeme's bytes and of a text's characters.
LIMIT = 64 * 1024 * 1024


def documents(path):
    """The bytes of each document, what copying and stripping it writes behind the head, and its fault, if it has one."""
    for table, _, given, wanted in rows(path):
        if table == "copies":
            copied, _, rest = text_of(wanted).partition("||")
            stripped, end, fault = rest.removeprefix(" ").partition("!! 4 stx: -: ")
            stripped = stripped.removesuffix(" ") if end else stripped
            yield bytes_of(given), copied.removesuffix(" "), stripped, fault.removesuffix("\n") or None
    yield b"<a>" * 513, "<a>" * 510, "", "TooDeep at 1536"
    yield b"<a>" + b"x" * (LIMIT + 1), "", "", "LexemeTooLong at 3"
    half = b"<![CDATA[" + b"x" * (LIMIT // 2) + b"]]>"
    yield b"<a>" + half + half + b"x</a>", "", "", f"TextTooLong at {3 + 2 * len(half)}"


def main(path, *program):
    sheets = {"all": ' pass-through="all"', "text": ' pass-through="text"', "none": ' pass-through="none"'}
    ran = failed = 0
    with tempfile.TemporaryDirectory() as folder:
        for name, attribute in sheets.items():
            Path(folder, name).write_text(SHEET.format(attribute, ""), encoding="ascii")
            Path(folder, f"{name} with a template").write_text(SHEET.format(attribute, TEMPLATE), encoding="ascii")
        for document, copied, stripped, fault in documents(path):
            content = {"all": copied, "text": stripped, "none": ""}
            wanted_note = f"stx: -: {fault}\n" if fault else ""
            for name in (it + way for it in sheets for way in ("", " with a template")):
                run = subprocess.run([*program, name], input=document, cwd=folder, capture_output=True, check=False)
                wanted = (4 if fault else 0, (HEAD + content[name.split()[0]]).encode(), wanted_note.encode())
                ran += 1
                if (run.returncode, run.stdout, run.stderr) != wanted:
                    failed += 1
                    print(f"{document[:80]!r} under {name}: {run.returncode} {run.stdout[:200]!r} {run.stderr!r}, not {wanted[0]} {wanted[1][:200]!r} {wanted[2]!r}")
    print(f"runs of the program on documents: {ran - failed} passed, {failed} failed")
    return 1 if failed else 0


if __name__ == "__main__":
    sys.exit(main(*sys.argv[1:]))
