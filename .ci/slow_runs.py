"""Runs of sheets by a slow interpreter over whole trees.

It is written from docs/LANGUAGE.md and shares nothing with the program, which
holds no tree and no recursion. It knows both versions, all instructions, groups,
visibility and scopes, one variable `v`, one parameter `p`, two buffers and two
procedures of the root, and the expressions and patterns that are made. It counts
fuel, and how many templates and procedures run in a list.
"""

from xml.parsers import expat
from xml.sax.saxutils import escape

from slow_nodes import View, alternatives, tree, tree_of_parts

NAMESPACE = "http://stx.sourceforge.net/2002/ns"
MOST_SOURCES = 16
# The kinds of nodes, and which of them the three words pass through.
KIND_WORDS = {"element": "elements", "text": "text", "section": "cdata", "comment": "comments", "document": "documents"}
KIND_WORDS |= {"instruction": "processing-instructions", "attribute": "attributes"}
KINDS_OF = {None: set(), "none": set(), "text": {"text"}, "all": set(KIND_WORDS.values())}


class Stop(Exception):
    """A run stops by a code, at a place in the sheet, once that is known."""

    def __init__(self, code, place=None):
        super().__init__(code)
        self.code, self.place = code, place


class Cut(Exception):
    """A document goes no further."""


class Words(str):
    """A text of a sheet, with its place."""

    place = 0


class Element:
    """An element of a sheet, with the place of its start tag."""

    def __init__(self, name, attributes, place):
        self.own, self.name = name.startswith(NAMESPACE), name.rpartition(" ")[2]
        self.attributes, self.place, self.content = attributes, place, []


def sheet_of(text):
    opened = [Element("", {}, 0)]
    parser = expat.ParserCreate(namespace_separator=" ")

    def add_text(text):
        before = opened[-1].content
        words = Words((before.pop() if before and isinstance(before[-1], str) else "") + text)
        words.place = parser.CurrentByteIndex - len(words) + len(text)
        before.append(words)

    def start(name, attributes):
        opened[-1].content.append(Element(name, attributes, parser.CurrentByteIndex))
        opened.append(opened[-1].content[-1])

    parser.StartElementHandler = start
    parser.EndElementHandler = lambda name: opened.pop()
    parser.CharacterDataHandler = add_text
    parser.Parse(text.encode(), True)
    return opened[0].content[0]


class Group:
    def __init__(self, element, parent):
        self.parent, self.place, self.name = parent, element.place, element.attributes.get("name")
        passes = element.attributes.get("pass-through")
        self.passes = KINDS_OF.get(passes, set((passes or "").split())) if passes or not parent else parent.passes

    def copies(self, kind):
        """Whether nodes of a kind are passed through."""
        return KIND_WORDS[kind] in self.passes or (kind == "section" and "text" in self.passes)

    def is_around(self, other):
        return other.parent is not None and (other.parent is self or self.is_around(other.parent))


class Template:
    def __init__(self, element, group):
        self.element, self.group, self.alternatives = element, group, alternatives(element.attributes["match"])
        self.visibility = element.attributes.get("visibility", "local")
        self.is_public = element.attributes.get("public") == "yes"
        self.has_scope = element.attributes.get("new-scope") == "yes" and group.parent is None
        priority = element.attributes.get("priority")
        self.priority = None if priority is None else round(100 * float(priority))

    def category(self, base):
        if self.group is base or (self.is_public and self.group.parent is base):
            return 1
        if self.visibility == "group" and self.group.is_around(base):
            return 2
        return 3 if self.visibility == "global" else None


class Result:
    """Parts that were put, and the names of the elements that are open."""

    def __init__(self):
        self.parts, self.opened, self.is_held, self.is_busy = [], [], False, False

    def start(self, name, attributes):
        self.parts.append(("start", name, list(attributes)))
        self.opened.append(name)
        self.is_held = True

    def end(self, name):
        if not self.opened:
            raise Stop("UnmatchedEnd")
        if self.opened[-1] != name:
            raise Stop("WrongEnd")
        self.opened.pop()
        self.put("end", name)

    def attribute(self, name, value):
        if not self.is_held:
            raise Stop("LateAttribute")
        attributes = dict(self.parts[-1][2])
        attributes[name] = value
        self.parts[-1] = ("start", self.opened[-1], list(attributes.items()))

    def put(self, form, *said):
        if (form, *said) != ("text", ""):
            self.parts.append((form, *said))
            self.is_held = False

    def written(self, is_whole):
        """The text; of a run that stopped without the start tag that is still held."""
        parts = self.parts if is_whole or not self.is_held else self.parts[:-1]
        rows = zip([("",), *parts], parts, [*parts[1:], ("",)])
        return "".join(written(before[0], part, behind[0]) for before, part, behind in rows)


def written(before, part, behind):
    """A part as text, between parts of two forms: an end directly behind its start stands in that tag."""
    form, *said = part
    if form == "start":
        attributes = "".join(f' {name}="{value}"' for name, value in said[1])
        return f"<{said[0]}{attributes}{'/' if behind == 'end' else ''}>"
    if form == "end":
        return "" if before == "start" else f"</{said[0]}>"
    marks = {"text": ("", ""), "section": ("<![CDATA[", "]]>"), "comment": ("<!--", "-->"), "instruction": ("<?", "?>")}
    text = escape(said[0]) if form == "text" else " ".join(said)
    return text.join(marks[form])


class Scope:
    """A copy of the root's variable and buffers."""

    def __init__(self, variable, buffers):
        self.variable, self.buffers = variable, {}
        for name, element in buffers.items():
            self.buffers[name] = Result()
            put_content(element, self.buffers[name])


def put_content(element, result):
    for item in element.content:
        if isinstance(item, str):
            result.put("text", item)
        else:
            result.start(item.name, item.attributes.items())
            put_content(item, result)
            result.end(item.name)


class Run:
    """A run of a sheet; documents are given by their names."""

    def __init__(self, text, documents, fuel, instances):
        sheet = sheet_of(text)
        self.documents, self.strips = documents, sheet.attributes.get("strip-space") == "yes"
        self.sections = sheet.attributes.get("recognize-cdata") == "yes"
        self.groups, self.templates, self.procedures, self.buffers, self.keeps = [], [], {}, {}, False
        self.root = self.declare(sheet, None)
        self.scopes = [Scope(0, self.buffers)]
        # Where results go, the messages, and the places of the instructions whose buffers and documents are read.
        self.results, self.notes, self.sources = [Result()], [], []
        self.most_fuel, self.fuel, self.most_instances = fuel, fuel, instances

    def declare(self, element, parent):
        group = Group(element, parent)
        self.groups.append(group)
        for item in element.content:
            if item.name == "group":
                self.declare(item, group)
            elif item.name == "template":
                self.templates.append(Template(item, group))
            elif item.name == "procedure":
                self.procedures[item.attributes["name"]] = item
            elif item.name == "buffer":
                self.buffers[item.attributes["name"]] = item
            elif item.name == "variable":
                self.keeps = item.attributes.get("keep-value") == "yes"
        return group

    def on(self, document):
        """What is written, the messages, and how the run ends: none, a code with its place, or a cut."""
        end = None
        try:
            root = tree(document, self.strips, self.sections)
            self.process(root, self.root)
            if self.result.opened:
                end = ("UnclosedResult", 0)
        except Stop as stop:
            end = (stop.code, stop.place)
        except Cut:
            end = ("cut",)
        return self.results[0].written(end is None), self.notes, end

    @property
    def scope(self):
        return self.scopes[-1]

    @property
    def result(self):
        return self.results[-1]

    # Nodes.

    def process(self, node, base, given=None):
        found = self.choice(node, base)
        if found is None:
            self.pass_through(node, base)
        else:
            self.run_template(node, *found, given)

    def choice(self, node, base):
        """The template for a node and the test by which it was chosen; the last of those that are equally good."""
        best = None
        for template in self.templates:
            category = template.category(base)
            if category is None or template in node.active:
                continue
            for it in template.alternatives:
                rank = (-category, it.priority if template.priority is None else template.priority)
                if it.fits(node, self.scope.variable) and (best is None or rank >= best[0]):
                    best = (rank, template, it.test)
        return best and best[1:]

    def run_template(self, node, template, test, given):
        node.active.append(template)
        if template.has_scope:
            self.scopes.append(Scope(self.scope.variable if self.keeps else 0, self.buffers))
        self.run_with(template.element, node, template.group, test, given)
        if template.has_scope:
            self.scopes.pop()
        node.active.pop()
        if not node.active:
            self.skip(node)

    def skip(self, node):
        """Passes over the nodes of a node, if they weren't asked for."""
        if node.gone:
            return
        node.gone = True
        while inner := self.next(node.inside):
            self.skip(inner)
        self.leave(node)

    def next(self, nodes):
        """Takes the next node of a list, if there is one."""
        node = self.ahead(nodes)
        nodes.taken += node is not None
        return node

    def ahead(self, nodes):
        """Looks at the next node. The first look costs fuel, or fills it where the node is one of the main document."""
        if nodes.taken == len(nodes.nodes):
            return None
        if nodes.looked == nodes.taken:
            nodes.looked += 1
            self.fill_or_spend()
        return nodes.nodes[nodes.taken]

    def fill_or_spend(self):
        if self.sources:
            self.spend(self.sources[-1])
        else:
            self.fuel = self.most_fuel

    def spend(self, place):
        if self.fuel == 0:
            raise Stop("Fuel", place)
        self.fuel -= 1

    def leave(self, node):
        """The nodes of a node are at their end. The first look at that fills the fuel, in the main document."""
        if node.cut:
            raise Cut()
        if not self.sources and not node.inside.is_over and node.kind in ("document", "element"):
            self.fuel = self.most_fuel
        node.inside.is_over = True

    def pass_through(self, node, base):
        copies = base.copies(node.kind)
        if node.kind in ("document", "element"):
            if copies and node.kind == "element":
                attributes = node.attributes if base.copies("attribute") else []
                self.at(base.place, lambda: self.result.start(node.name, attributes))
            self.children(node, base)
            if copies and node.kind == "element":
                self.at(base.place, lambda: self.result.end(node.name))
        elif copies:
            self.at(base.place, lambda: self.put(node))

    def put(self, node):
        if node.kind == "attribute":
            self.result.attribute(node.name, node.text)
        else:
            self.result.put(node.kind, *([node.name] if node.kind == "instruction" else []), node.text)

    @staticmethod
    def at(place, action):
        """Does what stops at this place, if it stops and no place is known."""
        try:
            return action()
        except Stop as stop:
            stop.place = place if stop.place is None else stop.place
            raise

    def children(self, node, base, given=None):
        if node.kind not in ("document", "element"):
            return
        if node.gone:
            raise Stop("ChildrenTwice")
        node.gone = True
        while inner := self.next(node.inside):
            self.process(inner, base, given)
        self.leave(node)

    def siblings(self, node, base, conditions, given):
        if node.kind in ("document", "attribute"):
            return
        self.skip(node)
        beside = node.beside
        beside.conditions.append(conditions)
        while (ahead := self.ahead(beside)) and not self.is_ended(beside, ahead):
            self.process(self.next(beside), base, given)
        if ahead is None:
            self.leave(node.parent)
        beside.conditions.pop()

    def is_ended(self, beside, node):
        """Whether a node ends a region of its list, the innermost or one around it."""

        def fits(pattern):
            return any(it.fits(node, self.scope.variable) for it in pattern)

        return any((take and not fits(take)) or (leave and fits(leave)) for take, leave in beside.conditions)

    def read(self, root, item, frame):
        """Processes the nodes of a buffer or of another document."""
        self.sources.append(item.place)
        self.children(root, self.base(item, frame), self.given(item, frame))
        self.sources.pop()

    # Instructions.

    def run_with(self, element, node, group, test, given):
        """Runs a template or a procedure with the parameter that is given, or the default."""
        if node.beside.instances == self.most_instances:
            raise Stop("Instances")
        node.beside.instances += 1
        parameter = []
        for item in element.content:
            if not isinstance(item, str) and item.own and item.name == "param":
                view = View(node, test, self.scope.variable, [])
                parameter = view.items(item.attributes["select"]) if given is None else given
        self.run_body(element.content, (node, group, test, parameter))
        node.beside.instances -= 1

    def run_body(self, content, frame):
        held = None
        for item in content:
            if isinstance(item, str):
                self.spend(item.place)
                self.result.put("text", item)
            elif not item.own or item.name not in ("else", "param"):
                self.spend(item.place)
                held = self.at(item.place, lambda item=item: self.run_item(item, frame))
            elif item.name == "else" and not held:
                self.run_body(item.content, frame)

    def view(self, frame):
        node, _, test, parameter = frame
        return View(node, test, self.scope.variable, parameter)

    def run_item(self, item, frame):
        """Runs an element of a body. An `if` answers whether it held."""
        if item.own:
            return getattr(self, "do_" + item.name.replace("-", "_"))(item, frame)
        filled = [(name, self.view(frame).filled(value)) for name, value in item.attributes.items()]
        return self.put_element(item.name, filled, item, frame)

    def put_element(self, name, attributes, item, frame):
        self.result.start(name, attributes)
        self.run_body(item.content, frame)
        self.result.end(name)

    def base(self, item, frame):
        name = item.attributes.get("group")
        return next(it for it in self.groups if it.name == name) if name else frame[1]

    def given(self, item, frame):
        """The parameter that is handed on."""
        for inner in item.content:
            return self.view(frame).items(inner.attributes["select"])
        return None

    def do_text(self, item, frame):
        self.result.put("text", "".join(item.content))

    def do_value_of(self, item, frame):
        self.result.put("text", self.view(frame).text(item.attributes["select"]))

    def do_comment(self, item, frame):
        self.result.put("comment", "".join(item.content))

    def do_message(self, item, frame):
        self.notes.append(self.view(frame).text(item.attributes["select"]))

    def do_attribute(self, item, frame):
        self.result.attribute(item.attributes["name"], self.view(frame).text(item.attributes["select"]))

    def do_assign(self, item, frame):
        self.scope.variable = self.view(frame).items(item.attributes["select"])[0]

    def do_start_element(self, item, frame):
        self.result.start(item.attributes["name"], [])

    def do_end_element(self, item, frame):
        self.result.end(item.attributes["name"])

    def do_element(self, item, frame):
        name = self.view(frame).filled(item.attributes["name"])
        if not name:
            raise Stop("BadName")
        self.put_element(name, [], item, frame)

    def do_copy(self, item, frame):
        node = frame[0]
        if node.kind == "element":
            self.put_element(node.name, node.attributes if "attributes" in item.attributes else [], item, frame)
        elif node.kind == "document":
            self.run_body(item.content, frame)
        else:
            self.put(node)

    def do_if(self, item, frame):
        holds = self.view(frame).truth(item.attributes["test"])
        if holds:
            self.run_body(item.content, frame)
        return holds

    def do_choose(self, item, frame):
        for inner in item.content:
            if inner.name == "otherwise" or self.view(frame).truth(inner.attributes["test"]):
                self.run_body(inner.content, frame)
                return

    def do_for_each_item(self, item, frame):
        for _ in self.view(frame).items(item.attributes["select"]):
            self.spend(item.place)
            self.run_body(item.content, frame)

    def do_while(self, item, frame):
        while self.view(frame).truth(item.attributes["test"]):
            self.spend(item.place)
            self.run_body(item.content, frame)

    def do_call_procedure(self, item, frame):
        node, _, test, _ = frame
        self.run_with(self.procedures[item.attributes["name"]], node, self.root, test, self.given(item, frame))

    def do_process_children(self, item, frame):
        self.children(frame[0], self.base(item, frame), self.given(item, frame))

    def do_process_siblings(self, item, frame):
        conditions = [alternatives(item.attributes[name]) if name in item.attributes else None for name in ("while", "until")]
        self.siblings(frame[0], self.base(item, frame), conditions, self.given(item, frame))

    def do_process_self(self, item, frame):
        self.process(frame[0], self.base(item, frame), self.given(item, frame))

    def do_process_attributes(self, item, frame):
        for node in frame[0].attribute_nodes():
            self.process(node, self.base(item, frame), self.given(item, frame))

    def do_process_document(self, item, frame):
        name = item.attributes["href"]
        if len(self.sources) == MOST_SOURCES:
            raise Stop("TooManySources")
        if name not in self.documents:
            raise Stop("NoDocument")
        self.read(tree(self.documents[name], self.strips, self.sections), item, frame)

    def do_process_buffer(self, item, frame):
        if len(self.sources) == MOST_SOURCES:
            raise Stop("TooManySources")
        buffer = self.opened_buffer(item)
        self.read(tree_of_parts(buffer.parts), item, frame)
        buffer.is_busy = False

    def do_result_buffer(self, item, frame):
        buffer = self.opened_buffer(item)
        if item.attributes.get("clear") == "yes":
            buffer.parts = []
        buffer.is_held = False
        self.results.append(buffer)
        self.run_body(item.content, frame)
        self.results.pop()
        if buffer.opened:
            raise Stop("UnclosedResult")
        buffer.is_busy = False

    def opened_buffer(self, item):
        """The newest copy of a buffer, which is open from now on."""
        buffer = self.scope.buffers[item.attributes["name"]]
        if buffer.is_busy:
            raise Stop("BufferBusy")
        buffer.is_busy = True
        return buffer
