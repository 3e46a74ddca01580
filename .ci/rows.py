"""Read files of rows; docs/TESTS.md has their format."""

import re
from pathlib import Path

REPEAT = re.compile(r"\\(\d+)\{([^}]*)\}|\\.", re.S)
ESCAPE = re.compile(r"\\(?:x(..)|u\{([^}]*)\}|(.))", re.S)
PLAIN = {"n": b"\n", "r": b"\r", "t": b"\t", "s": b" ", "\\": b"\\"}


def expanded(line):
    """A line with its repetitions written out."""

    def write(found):
        if found[1] is None:
            return found[0]
        return "".join(found[2].replace("\\#", str(number)) for number in range(int(found[1])))

    return REPEAT.sub(write, line)


def bytes_of(written):
    """The bytes that a text of a row stands for."""
    made, last = b"", 0
    for found in ESCAPE.finditer(written):
        made += written[last : found.start()].encode()
        last = found.end()
        byte, character, plain = found.groups()
        if byte is not None:
            made += bytes([int(byte, 16)])
        elif character is not None:
            made += chr(int(character, 16)).encode()
        else:
            made += PLAIN[plain]
    return made + written[last:].encode()


def text_of(written):
    return bytes_of(written).decode()


def sides(line):
    """What is given and what is wanted, as they are written."""
    given, arrow, wanted = ("", "=>", line[2:]) if line.startswith("=>") else line.partition(" =>")
    return given, wanted.removeprefix(" ") if arrow else None


def lines(path):
    made = []
    for line in Path(path).read_text(encoding="utf-8").split("\n"):
        if line == "" or line == "#" or line.startswith("# "):
            continue
        if line.startswith(" ") and made:
            made[-1] += "\n" + line[1:]
        else:
            made.append(line)
    return [expanded(line) for line in made]


def rows(path):
    """Each row: its table, the settings in force, what is given and what is wanted."""
    table, shared, settings = None, [], []
    for line in lines(path):
        if line.startswith("== "):
            table, settings = line[3:], list(shared)
        elif line.startswith(": "):
            key, _, value = line[2:].partition(" ")
            (shared if table is None else settings).append((key, value))
        else:
            given, wanted = sides(line)
            if wanted is None:
                wanted = dict(settings).get("wanted", given)
            yield table, list(settings), given, wanted
