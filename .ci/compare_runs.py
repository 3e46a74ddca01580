#!/usr/bin/env python3
"""Compare runs of sheets with those of a slow interpreter over whole trees.

Usage: compare_runs.py PROGRAM [NUMBER [SEED]]

So many sheets are made by chance, each with a document. PROGRAM is run on them,
and what it writes, its messages, its last line and its status are compared with
what slow_runs.py comes to. Runs that are too deep for the interpreter are set
aside.
"""

import collections
import subprocess
import sys
import tempfile
from pathlib import Path

from made_sheets import DOCUMENTS, Maker
from slow_runs import Run

HEAD = '<?xml version="1.0" encoding="UTF-8"?>\n'
FUEL, INSTANCES = (3, 10, 30, 3_000), (2, 4, 256)
# The interpreter may call so deep.
CALLS = 8_000
CUT = "stx: cut.xml: Mismatch at 14\n"


def by_program(program, folder, sheet, document, fuel, instances):
    """Output, what is noted, and the status."""
    Path(folder, "s.stx").write_text(sheet, encoding="ascii")
    words = [program, "s.stx", "--fuel", str(fuel), "--instances", str(instances)]
    ran = subprocess.run(words, input=document.encode(), cwd=folder, capture_output=True, check=False)
    return ran.stdout.decode(), ran.stderr.decode(), ran.returncode


def by_interpreter(sheet, document, fuel, instances):
    """The same; or nothing, where that is too deep."""
    try:
        written, notes, end = Run(sheet, DOCUMENTS, fuel, instances).on(document)
    except RecursionError:
        return None
    said = "".join(note + "\n" for note in notes)
    if end is None:
        return HEAD + written, said, 0
    if end == ("cut",):
        return HEAD + written, said + CUT, 4
    return HEAD + written, f"{said}stx: s.stx: {end[0]} at {end[1]}\n", 6 if end[0] == "Fuel" else 1


def main(program, number="1500", seed="1"):
    sys.setrecursionlimit(CALLS)
    program, maker = str(Path(program).resolve()), Maker(int(seed))
    counts = collections.Counter()
    with tempfile.TemporaryDirectory() as folder:
        for name, document in DOCUMENTS.items():
            Path(folder, name).write_text(document, encoding="ascii")
        for _ in range(int(number)):
            given = maker.sheet(), maker.document(), maker.one(*FUEL), maker.one(*INSTANCES)
            came, wanted = by_program(program, folder, *given), by_interpreter(*given)
            if wanted is None:
                counts["set aside"] += 1
            elif came == wanted:
                counts[{0: "done", 6: "out of fuel"}.get(came[2], "stopped")] += 1
            else:
                counts["failed"] += 1
                print("{}\n  on {} with fuel {}, instances {}:".format(*given), file=sys.stderr)
                print(f"  came {came},\n  not {wanted}", file=sys.stderr)
    kinds = ", ".join(f"{counts[kind]} {kind}" for kind in ("done", "stopped", "out of fuel", "set aside"))
    passed = counts["done"] + counts["stopped"] + counts["out of fuel"]
    print(f"runs of made sheets ({kinds}): {passed} passed, {counts['failed']} failed")
    return counts["failed"] > 0 or min(counts["done"], counts["stopped"], counts["out of fuel"]) < int(number) // 20


if __name__ == "__main__":
    sys.exit(main(*sys.argv[1:]))
