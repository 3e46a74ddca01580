"""Documents as trees, and patterns and expressions over them: what the slow runs of sheets stand on."""

import re
from xml.parsers import expat

KINDS = {"*": "element", "cdata()": "section", "comment()": "comment", "processing-instruction()": "instruction"}
KINDS |= {"@*": "attribute", "/": "document"}


class Node:
    """A node; the nodes in it; and those beside it, in a list that is read once from its front."""

    def __init__(self, kind, name="", attributes=(), text=""):
        self.kind, self.name, self.attributes, self.text = kind, name, list(attributes), text
        self.nodes, self.parent, self.beside, self.place, self.level = [], None, None, 0, 0
        # Whether its nodes were asked for or skipped, whether they are cut by a fault, and which templates run on it.
        self.gone, self.cut, self.active = False, False, []

    def settle(self, level=0):
        """Ties the nodes of a tree to one another."""
        self.level, self.inside = level, Siblings(self.nodes)
        self.beside = self.beside or Siblings([self])
        for place, node in enumerate(self.nodes):
            node.parent, node.beside, node.place = self, self.inside, place
            node.settle(level + 1)
        return self

    def add_text(self, text):
        if self.nodes and self.nodes[-1].kind == "text":
            self.nodes[-1].text += text
        else:
            self.nodes.append(Node("text", text=text))

    def strip(self):
        self.nodes = [node for node in self.nodes if node.kind != "text" or node.text.strip(" \t\n\r")]
        for node in self.nodes:
            node.strip()

    def is_cut(self):
        return self.cut or any(node.is_cut() for node in self.nodes)

    def has_nodes(self):
        return bool(self.nodes)

    def string(self):
        """The string value: of an element the text that its content begins with."""
        if self.kind in ("element", "document"):
            return self.nodes[0].text if self.nodes and passes("text()", self.nodes[0]) else ""
        return self.text

    def values(self, name=None):
        return [value for key, value in self.attributes if self.kind == "element" and name in (None, key)]

    def attribute_nodes(self):
        """The attributes as nodes, in a list of their own."""
        found = [Node("attribute", name, text=value) for name, value in self.attributes]
        beside = Siblings(found)
        for place, node in enumerate(found):
            node.settle(self.level)
            node.parent, node.beside, node.place = self, beside, place
        return found

    def path(self):
        return (self.parent.path() if self.parent else []) + [self]

    def position(self, test):
        return 1 + sum(passes(test, node) for node in self.beside.nodes[: self.place])


class Siblings:
    """The nodes of a list, and how far it is read.

    How many nodes were looked at and taken, and whether the end was; the conditions under
    which they are taken, the outermost first; how many templates and procedures run on them.
    """

    def __init__(self, nodes):
        self.nodes, self.looked, self.taken, self.is_over = nodes, 0, 0, False
        self.conditions, self.instances = [], 0


def tree(text, strips=False, sections=False):
    """The tree of a document; where it has a fault, of what stands before that."""
    root = Node("document")
    opened = [root]

    def put(node):
        opened[-1].nodes.append(node)

    def start(name, flat):
        put(Node("element", name, zip(flat[::2], flat[1::2])))
        opened.append(opened[-1].nodes[-1])

    def start_section():
        put(Node("section"))
        opened.append(opened[-1].nodes[-1])

    def add_text(text):
        if opened[-1].kind == "section":
            opened[-1].text += text
        else:
            opened[-1].add_text(text)

    parser = expat.ParserCreate()
    parser.ordered_attributes = parser.buffer_text = True
    parser.StartElementHandler, parser.EndElementHandler = start, lambda name: opened.pop()
    parser.CharacterDataHandler = add_text
    parser.CommentHandler = lambda text: put(Node("comment", text=text))
    parser.ProcessingInstructionHandler = lambda name, text: put(Node("instruction", name, text=text))
    if sections:
        parser.StartCdataSectionHandler, parser.EndCdataSectionHandler = start_section, opened.pop
    try:
        parser.Parse(text.encode(), True)
    except expat.ExpatError:
        opened[-1].cut = True
    if strips:
        root.strip()
    return root.settle()


def tree_of_parts(parts):
    """What was put into a buffer, as a tree."""
    root = Node("document")
    opened = [root]
    for form, *said in parts:
        if form == "start":
            opened[-1].nodes.append(Node("element", *said))
            opened.append(opened[-1].nodes[-1])
        elif form == "end":
            opened.pop()
        elif form == "text":
            opened[-1].add_text(said[0])
        else:
            name, text = said if form == "instruction" else ("", said[0])
            opened[-1].nodes.append(Node(form, name, text=text))
    return root.settle()


def passes(test, node):
    if test == "node()":
        return node.kind not in ("document", "attribute")
    if test == "text()":
        return node.kind in ("text", "section")
    if test in KINDS:
        return node.kind == KINDS[test]
    kind, name = ("attribute", test[1:]) if test.startswith("@") else ("element", test)
    return (node.kind, node.name) == (kind, name)


class Alternative:
    """One alternative of a pattern."""

    def __init__(self, text):
        self.lead = re.match("/*", text)[0]
        steps = text[len(self.lead) :]
        self.steps = [re.fullmatch(r"([^[]*)(?:\[(.*)\])?", step).groups() for step in re.split("//?", steps)]
        self.joints = re.findall("//?", steps)
        if text == "/":
            self.steps = [("/", None)]
        self.test, predicate = self.steps[-1]
        alone = not self.lead and len(self.steps) == 1 and predicate is None
        self.priority = (-50 if self.test in (*KINDS, "node()", "text()") else 0) if alone else 50

    def fits(self, node, variable):
        return self.fits_from(len(self.steps) - 1, node, variable)

    def fits_from(self, step, node, variable):
        """Whether the steps up to this one lead to a node."""
        test, predicate = self.steps[step]
        if not passes(test, node) or not holds(predicate, node, test, variable):
            return False
        if step == 0:
            return self.lead != "/" or test == "/" or node.parent.kind == "document"
        above = node.path()[:-1]
        above = above[-1:] if self.joints[step - 1] == "/" else above
        return any(self.fits_from(step - 1, each, variable) for each in above)


def alternatives(pattern):
    return [Alternative(text.strip()) for text in pattern.split("|")]


def holds(predicate, node, test, variable):
    if predicate is None:
        return True
    if predicate.isdigit():
        return node.position(test) == int(predicate)
    return {
        "@x": lambda: bool(node.values("x")),
        "@x=1": lambda: "1" in node.values("x"),
        "$v=1": lambda: variable == 1,
    }[predicate]()


class View:
    """What an expression sees: a node, the test by which its template was chosen, the variable `v` and the parameter `p`."""

    def __init__(self, node, test, variable, parameter):
        self.node, self.test, self.variable, self.parameter = node, test, variable, parameter

    def name(self):
        return self.node.name if self.node.kind in ("element", "attribute", "instruction") else ""

    def position(self):
        return self.node.position(self.test)

    def items(self, expression):
        """The items of an expression's value."""
        node = self.node
        return {
            ".": lambda: [node.string()],
            "@x": lambda: node.values("x"),
            "@*": lambda: node.values(),
            "../@x": lambda: node.parent.values("x") if node.parent else [],
            "//a/@x": lambda: [value for each in node.path() if each.name == "a" for value in each.values("x")],
            "count(@*)": lambda: [len(node.values())],
            "position()": lambda: [self.position()],
            "level()": lambda: [node.level],
            "name()": lambda: [self.name()],
            "concat(name(), position())": lambda: [f"{self.name()}{self.position()}"],
            "string-length(.)": lambda: [len(node.string())],
            "has-child-nodes()": lambda: [node.has_nodes()],
            "$v": lambda: [self.variable],
            "$v + 1": lambda: [self.variable + 1],
            "$p": lambda: self.parameter,
            "count($p)": lambda: [len(self.parameter)],
            "(1, 2)": lambda: [1, 2],
            "()": lambda: [],
            "0": lambda: [0],
            "1": lambda: [1],
            "'t'": lambda: ["t"],
        }[expression]()

    def text(self, expression):
        return " ".join(str(item).lower() if isinstance(item, bool) else str(item) for item in self.items(expression))

    def filled(self, template):
        """A template with its expressions in braces."""
        return re.sub(r"\{(.*?)\}", lambda found: self.text(found[1]), template)

    def truth(self, test):
        return {
            "@x": lambda: bool(self.node.values("x")),
            "position() = 1": lambda: self.position() == 1,
            "$v": lambda: self.variable != 0,
            "$v < 2": lambda: self.variable < 2,
            "exists($p)": lambda: bool(self.parameter),
            "has-child-nodes()": lambda: self.node.has_nodes(),
            "name() = 'a'": lambda: self.name() == "a",
            "level() < 3": lambda: self.node.level < 3,
        }[test]()
