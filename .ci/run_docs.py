#!/usr/bin/env python3
"""Run the examples of the documentation by the program, and compare what comes.

Usage: run_docs.py PROGRAM PAGE...

PROGRAM is the command, without words; PAGE a file of Markdown. An example is a
row of fenced blocks, each with these words behind the fence:

    stx sheet            the sheet; what has no stx:transform is put into one
    stx file NAME        another sheet, under that name
    xml file NAME        another document, under that name
    text words           words behind the sheet's name
    xml document         the document, without the last line feed
    xml result           what is written behind the head, without the last line feed
    text note STATUS     what is written to standard error, and the status

A sheet begins an example. A result or a note has to follow it; without a note
the status is 0 and nothing is noted. The block `xml expressions` is a document
for the tables beneath it with the head `| Expression | Value |`: each expression
is evaluated at its element that has the attribute `here`, and the items of the
value are written with `, ` between them. `empty` stands for nothing, and a code
in italics for the fault that comes. Each sheet that isn't refused is checked by
the schema too, where there is xmllint. Every fenced block whose first word is
stx, xml or text has to be of this form, so none is left out unseen.
"""

import html
import re
import shutil
import subprocess
import sys
import tempfile
from pathlib import Path

SCHEMA = Path(__file__).resolve().parent.parent / "schema" / "stx.rng"
HEAD = '<?xml version="1.0" encoding="UTF-8"?>\n'
NAMESPACE = "http://stx.sourceforge.net/2002/ns"
ROOT = f'<stx:transform version="1.0" xmlns:stx="{NAMESPACE}">'
ASK = '<stx:template match="*[exists(@here)]"><stx:value-of select="{}" separator=", "/></stx:template>'


def blocks(text):
    """Each fenced block: its line, the words behind its fence, and its text; and each row of a table of expressions."""
    words, kept, begun, table = None, [], 0, False
    for number, line in enumerate(text.split("\n"), 1):
        if words is not None:
            if line == "```":
                yield begun, words, "\n".join(kept)
                words = None
            else:
                kept.append(line)
        elif line.startswith("```"):
            words, kept, begun, table = line[3:].split(), [], number, False
        elif line.startswith("| Expression"):
            table = True
            if line != "| Expression | Value |":
                yield number, ["open"], ""
        elif not line.startswith("|"):
            table = False
        elif table and not line.startswith("|---"):
            cells = re.split(r"(?<!\\)\|", line)[1:3]
            yield number, ["row"], [cell.strip().replace("\\|", "|") for cell in cells]
    if words is not None:
        yield begun, ["open"], ""


def whole(sheet):
    return sheet if "<stx:transform" in sheet else f"{ROOT}\n{sheet}\n</stx:transform>"


def run(program, example):
    """What the program writes, notes and answers, in a folder that holds the example's files."""
    with tempfile.TemporaryDirectory() as folder:
        for name, content in example["files"].items():
            Path(folder, name).write_text(content, encoding="utf-8")
        Path(folder, "sheet.stx").write_text(whole(example["sheet"]), encoding="utf-8")
        words = [program, "sheet.stx", *example.get("words", "").split()]
        document = example.get("document", "").encode()
        ran = subprocess.run(words, input=document, cwd=folder, capture_output=True, check=False)
    return ran.stdout.decode(), ran.stderr.decode(), ran.returncode


def by_schema(example):
    """What is wrong by the schema with the sheets of an example, or nothing."""
    sheets = [text for name, text in example["files"].items() if name.endswith(".stx")]
    for sheet in [whole(example["sheet"]), *sheets]:
        words = ["xmllint", "--noout", "--relaxng", SCHEMA, "-"]
        ran = subprocess.run(words, input=sheet.encode(), capture_output=True, check=False)
        if ran.returncode:
            return f"not valid by the schema: {ran.stderr.decode().splitlines()[0]}"
    return None


def wanted(example):
    note, status = example.get("note", ("", 0))
    result = "" if status == 3 else HEAD + example.get("result", "")
    return result, note and note + "\n", status


def expression(document, row):
    """The example that a row of a table of expressions stands for."""
    asked, value = row
    asked = html.escape(asked.strip("`"))
    example = {"sheet": ASK.format(asked), "files": {}, "document": document}
    if value.startswith("*"):
        return example, value.strip("*`")
    example["result"] = "" if value == "empty" else html.escape(value.strip("`"), quote=False)
    return example, None


def examples(page):
    """Each example with its line and the fault that it wants, if it wants one; or the line and what is wrong with it."""
    example, document, begun = None, None, 0
    for line, words, text in blocks(Path(page).read_text(encoding="utf-8")):
        kind = " ".join(words[:2])
        if words == ["row"]:
            yield (line, *expression(document, text)) if document is not None else (line, None, "a row without a document")
            continue
        if not words or words[0] not in ("stx", "xml", "text", "open"):
            continue
        if kind in ("stx sheet", "xml expressions"):
            if example is not None:
                yield begun, example, None
            example = None
        if kind == "xml expressions":
            document = text
        elif kind == "stx sheet":
            example, begun = {"sheet": text, "files": {}}, line
        elif example is None:
            yield line, None, f"a block {' '.join(words)!r} without a sheet"
        elif kind in ("stx file", "xml file") and len(words) == 3:
            example["files"][words[2]] = text
        elif kind == "text note" and len(words) == 3:
            example["note"] = (text, int(words[2]))
        elif kind in ("text words", "xml document", "xml result"):
            example[words[1]] = text
        else:
            yield line, None, f"a block {' '.join(words)!r}"
    if example is not None:
        yield begun, example, None


def main(program, *pages):
    program = shutil.which(program) or program
    program = str(Path(program).resolve())
    good = bad = 0
    schema = shutil.which("xmllint") is not None
    if not schema:
        print("sheets of the documentation by the schema: skipped, as there is no xmllint")
    for page in pages:
        for line, example, fault in examples(page):
            if example is None:
                said = fault
            elif fault is None and "result" not in example and "note" not in example:
                said = "neither a result nor a note"
            else:
                came = run(program, example)
                if fault is not None:
                    said = None if came[2] == 1 and f": {fault} at " in came[1] else f"came {came}, not {fault}"
                else:
                    said = None if came == wanted(example) else f"came {came},\n    not {wanted(example)}"
                if said is None and schema and wanted(example)[2] != 3:
                    said = by_schema(example)
            if said is None:
                good += 1
            else:
                bad += 1
                print(f"{page}:{line}: {said}")
    print(f"examples of the documentation: {good} passed, {bad} failed")
    return 1 if bad else 0


if __name__ == "__main__":
    sys.exit(main(*sys.argv[1:]))
