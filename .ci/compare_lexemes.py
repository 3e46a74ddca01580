#!/usr/bin/env python3
"""Compare what the lexer takes, and what it reads, with expat.

Usage: compare_lexemes.py PROGRAM...

PROGRAM is the command, with its words, that writes the lexemes of the documents
on its standard input (crates/xml_check). The documents are made here, always the
same ones: some that are well-formed, and the same with small edits. They have no
internal subset, and declare neither another version nor another encoding.

The lexer doesn't ask how lexemes nest. So this is asked here, and a document
counts as taken where both are satisfied; it then has to be read as expat reads
it, with the same names, values of attributes, texts, comments and instructions.
"""

import collections
import random
import re
import subprocess
import sys
from xml.parsers import expat

WELL_FORMED = 1000
EDITED = 3000

DECLARATIONS = [
    "<?xml version='1.0'?>",
    '<?xml version="1.0" ?>',
    "<?xml\tversion = '1.0'\r\n?>",
    "<?xml version='1.0' encoding='UTF-8'?>",
    "<?xml version='1.0' encoding=\"utf-8\" standalone='no' ?>",
    "<?xml version='1.0' standalone='yes'?>",
]
BAD_DECLARATIONS = [
    "<?xml?>",
    "<?xml ?>",
    "<?xml version?>",
    "<?xml version='1.0\"?>",
    "<?xml version=1.0?>",
    "<?xml version '1.0'?>",
    "<?xml Version='1.0'?>",
    "<?xml version='1.0' x='y'?>",
    "<?xml version='1.0' version='1.0'?>",
    "<?xml version='1.0'encoding='UTF-8'?>",
    "<?xml version='1.0' standalone='maybe'?>",
    "<?xml version='1.0' standalone='yes' encoding='UTF-8'?>",
    "<?xml encoding='UTF-8' version='1.0'?>",
    "<?XML version='1.0'?>",
    " <?xml version='1.0'?>",
    "<!---->\n<?xml version='1.0'?>",
]
DOCTYPES = [
    "<!DOCTYPE a>",
    "<!DOCTYPE  b\n>",
    "<!DOCTYPE a:b:c>",
    "<!DOCTYPE SYSTEM>",
    "<!DOCTYPE a SYSTEM 'u'>",
    "<!DOCTYPE a\tSYSTEM\r\n\"u>['\" >",
    "<!DOCTYPE a SYSTEM ''>",
    "<!DOCTYPE a PUBLIC '-//p//EN' \"s\">",
    "<!DOCTYPE a  PUBLIC \"p\"\n's' >",
]
BAD_DOCTYPES = [
    "<!DOCTYPE>",
    "<!DOCTYPE >",
    "<!DOCTYPEa>",
    "<!DOCTYPE 1>",
    "<!DOCTYPE a b>",
    "<!DOCTYPE a SYSTEM>",
    "<!DOCTYPE a SYSTEM'u'>",
    "<!DOCTYPE aSYSTEM 'u'>",
    "<!DOCTYPE a SYSTEM 'u' 'v'>",
    "<!DOCTYPE a SYSTEM 'u'x>",
    "<!DOCTYPE a system 'u'>",
    "<!DOCTYPE a PUBLIC 'p'>",
    "<!DOCTYPE a PUBLIC 'p''s'>",
    "<!DOCTYPE a PUBLIC 'p' 's' 't'>",
    "<!doctype a>",
    "<!DOCTYPE a><!DOCTYPE a>",
    "<!ELEMENT a ANY>",
]

# The names hold characters alone of which all editions of XML 1.0 say the same: expat knows the fourth.
NAMES = ["a", "b", "ab", "a-1.x", "_a", "é", "a\u0300", "a\u00b7b", "中", "a:b", ":c", "xml-a"]
KNOWN = {chr(code) for code in range(0x80)}.union(*NAMES)
TARGETS = ["p", "xml-p", "é", "_.1"]
TEXTS = ["a", "bc", " ", "  ", "\n", "\r\n", "\r", "\t", "é", "😀", "\u2028", "\x7f", ">", "]", "] ]>", "--"]
TEXTS += ["?>", "=", "/", "!", "&lt;", "&gt;", "&amp;", "&apos;", "&quot;", "&#65;", "&#x41;", "&#0065;"]
TEXTS += ["&#9;", "&#10;", "&#13;", "&#32;", "&#x1F600;", "&#x10FFFF;", "&#xD7FF;", "&#xFFFD;"]
PLAIN = ["a", "b ", "\n", "\r\n", "\r", "\t", "é", "😀", "&lt;", "&", "<", "<b>", "'", '"', ">", "]", "-", "=", "&#0;"]
SPACES = [" ", "\n", "\t", "\r\n", "  "]

TOKENS = ["<", ">", "&", ";", "'", '"', "/", "=", "!", "?", "-", "--", "]]>", "]]", "\r", "\n", "\t", " ", "0", ".", "#"]
TOKENS += ["&#0;", "&#x0;", "&#8;", "&#x1F;", "&#xD800;", "&#xDFFF;", "&#xFFFE;", "&#xFFFF;", "&#x110000;", "&#1114112;"]
TOKENS += ["&#4294967361;", "&#18446744073709551681;", "&#;", "&#x;", "&#X41;", "&#+1;", "&#1", "&lt", "&LT;", "&nbsp;"]
TOKENS += ["&a:b;", "& ;", "&&amp;", "&#x1FFFE;", "\x01", "\x0b", "\x1f", "\x7f", "\x85", "\ufffe", "\uffff", "×", "\xa0"]
TOKENS += ["\u037e", "\u3000", "<!--", "-->", "<![CDATA[", "<![", "<!", "<?", "?>", "</", "/>", "<a>", "</a>", "<a/>"]
TOKENS += ["<!DOCTYPE a>", "<?xml?>", "<?xml version='1.0'?>", "<?XML?>", "xml", " a='1'", " a=\"1\"", "a='1'", "=''"]
BYTES = [b"\xff", b"\x80", b"\xbf", b"\xc3", b"\xc0\x80", b"\xe0\x9f\xbf", b"\xe2\x82", b"\xed\xa0\x80", b"\xed\xbf\xbf"]
BYTES += [b"\xf0\x8f\xbf\xbf", b"\xf4\x90\x80\x80", b"\xf5\x80\x80\x80", b"\xf0\x9f\x98", b"\xef\xbf\xbe", b"\xef\xbb\xbf"]
EDITS = [token.encode() for token in TOKENS] + BYTES


class Maker:
    """Makes documents, each in two parts: what comes before its first element isn't edited."""

    def __init__(self):
        self.random = random.Random(1)

    def some(self, words, most):
        return "".join(self.random.choices(words, k=self.random.randrange(most + 1)))

    def space(self, least=0):
        return self.random.choice(SPACES) if least or self.random.random() < 0.2 else ""

    def attributes(self):
        names = self.random.sample(NAMES, self.random.choice([0, 0, 1, 1, 2, 3]))
        return "".join(self.space(1) + self.attribute(name) for name in names)

    def attribute(self, name):
        quote = self.random.choice("'\"")
        value = self.some(TEXTS + ["'\""[quote == "'"]], 4)
        return f"{name}{self.space()}={self.space()}{quote}{value}{quote}"

    def element(self, depth):
        name = self.random.choice(NAMES)
        start = name + self.attributes() + self.space()
        if self.random.random() < 0.3:
            return f"<{start}/>"
        return f"<{start}>{self.content(depth - 1)}</{name}{self.space()}>"

    def content(self, depth):
        forms = [self.text, self.text, self.comment, self.section, self.instruction]
        if depth > 0:
            forms += [lambda: self.element(depth)] * 3
        return "".join(self.random.choice(forms)() for _ in range(self.random.randrange(5)))

    def text(self):
        return self.some(TEXTS, 5)

    def comment(self):
        return f"<!--{self.some(PLAIN, 4).replace('--', '-').removesuffix('-')}-->"

    def section(self):
        return f"<![CDATA[{self.some(PLAIN, 5).replace(']>', ']')}]]>"

    def instruction(self):
        return f"<?{self.random.choice(TARGETS)}{self.random.choice(['', ' ' + self.some(PLAIN, 4)])}?>"

    def outside(self):
        forms = [self.comment, self.instruction, lambda: self.space(1)]
        return "".join(self.random.choice(forms)() for _ in range(self.random.randrange(3)))

    def prolog(self):
        mark = "\ufeff" if self.random.random() < 0.1 else ""
        declaration = self.random.choice(DECLARATIONS + [""] * 6)
        doctype = self.random.choice(DOCTYPES + [""] * 18)
        return mark + declaration + self.outside() + doctype

    def document(self):
        body = self.outside() + self.element(3) + self.outside()
        return self.prolog().encode(), body.encode()

    def edited(self):
        prolog, body = self.document()
        for _ in range(self.random.choice([1, 1, 1, 2])):
            body = self.edit(body)
        return prolog, body

    def edit(self, body):
        start, end = sorted(self.random.choices(range(len(body) + 1), k=2))
        near = min(end, start + self.random.randrange(1, 4))
        form = self.random.randrange(10)
        if form < 5:
            return body[:start] + self.random.choice(EDITS) + body[start:]
        if form < 7:
            return body[:start] + body[near:]
        if form < 8:
            return body[:start] + self.random.choice(EDITS) + body[near:]
        if form < 9:
            return body[:near] + body[start:]
        return body[:end]

    def documents(self):
        made = [self.document() for _ in range(WELL_FORMED)] + [self.edited() for _ in range(EDITED)]
        for words in (BAD_DECLARATIONS, BAD_DOCTYPES):
            made += [(word.encode(), self.document()[1]) for word in words]
        return [prolog + body for prolog, body in made]


def lexemes(program, documents):
    """For each document its lexemes, each with its form, and what ends them."""
    given = b"".join(document + b"\0" for document in documents)
    written = subprocess.run(program, input=given, stdout=subprocess.PIPE, check=True).stdout.decode()
    answers = written.split("\x1d")
    if answers.pop() or len(answers) != len(documents):
        raise ValueError(f"{len(answers)} answers to {len(documents)} documents")
    for answer in answers:
        *words, ending = answer.split("\x1e")
        yield [word.split("\x1f") for word in words], ending


def nested(words):
    """What the lexemes say, or None where they aren't the lexemes of a document."""
    events, opened = [], []
    rooted = doctype = False
    for form, *texts in words:
        if form in ("start", "empty"):
            name, attributes = texts[0], list(zip(texts[1::2], texts[2::2]))
            if (rooted and not opened) or len(dict(attributes)) < len(attributes):
                return None
            rooted = True
            events.append(("start", name, attributes))
            if form == "start":
                opened.append(name)
            else:
                events.append(("end", name))
        elif form == "end":
            if not opened or opened.pop() != texts[0]:
                return None
            events.append(("end", texts[0]))
        elif form == "doctype":
            if rooted or doctype:
                return None
            doctype = True
        elif form in ("comment", "pi"):
            events.append((form, *texts))
        elif form in ("text", "space", "cdata") and opened:
            add_text(events, texts[0])
        elif form not in ("space", "declaration"):
            return None
    return events if rooted and not opened else None


def add_text(events, text):
    """Neighbouring texts are one, and an empty one is none."""
    if events and events[-1][0] == "text":
        events[-1] = ("text", events[-1][1] + text)
    elif text:
        events.append(("text", text))


def by_expat(document):
    events = []
    parser = expat.ParserCreate()
    parser.ordered_attributes = True
    parser.StartElementHandler = lambda name, flat: events.append(("start", name, list(zip(flat[::2], flat[1::2]))))
    parser.EndElementHandler = lambda name: events.append(("end", name))
    parser.CharacterDataHandler = lambda text: add_text(events, text)
    parser.CommentHandler = lambda text: events.append(("comment", text))
    parser.ProcessingInstructionHandler = lambda *texts: events.append(("pi", *texts))
    try:
        parser.Parse(document, True)
    except expat.ExpatError as error:
        return None, str(error)
    return events, "taken"


def is_beyond(document, words, ending):
    """Whether the two differ by what isn't compared.

    Here a target holds no colon, as Namespaces in XML wants it; an entity may be
    declared in an external subset, which expat doesn't read; and expat refuses
    names that the fourth edition doesn't have.
    """
    if ending == "InternalSubset":
        return True
    if ending == "BadPi":
        return re.search(rb"<\?[^\s?]*:", document) is not None
    if ending == "UnknownEntity":
        return re.search(rb"<!DOCTYPE[^>]*(SYSTEM|PUBLIC)", document) is not None
    names = [name for form, *texts in words if form in ("start", "empty", "end") for name in texts[:1] + texts[1::2]]
    return not KNOWN.issuperset("".join(names))


def main():
    documents = Maker().documents()
    counts = collections.Counter()
    for document, (words, ending) in zip(documents, lexemes(sys.argv[1:], documents)):
        ours = nested(words) if ending == "end" else None
        theirs, why = by_expat(document)
        if ours == theirs:
            counts["refused" if ours is None else "taken"] += 1
        elif (ours is None or theirs is None) and is_beyond(document, words, ending):
            counts["set aside"] += 1
        else:
            counts["failed"] += 1
            print(f"{document!r}: here {ending}, {ours}; by expat {why}, {theirs}", file=sys.stderr)
    kinds = ", ".join(f"{counts[word]} {word}" for word in ("taken", "refused", "set aside"))
    passed = counts["taken"] + counts["refused"]
    print(f"lexemes compared with expat ({kinds}): {passed} passed, {counts['failed']} failed")
    return counts["failed"] > 0 or min(counts["taken"], counts["refused"]) < 1000


if __name__ == "__main__":
    sys.exit(main())
