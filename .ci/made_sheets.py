"""Sheets and documents that are made by chance, of what slow_runs.py knows."""

import random

NAMESPACE = "http://stx.sourceforge.net/2002/ns"
DOCUMENTS = {
    "o.xml": '<a x="1"><b/>t<c><a/></c></a>',
    "p.xml": '<c>u<b x="2"/></c>',
    "cut.xml": '<c>u<b x="2"/></d>',
}
STEPS = ["a", "b", "c", "*", "text()", "node()", "comment()", "processing-instruction()", "a[1]", "b[2]", "*[@x]", "a[@x=1]"]
LEADS = ["", "", "", "a/", "a//", "/", "//"]
EXPRESSIONS = [".", "@x", "@*", "../@x", "//a/@x", "count(@*)", "position()", "level()", "name()"]
EXPRESSIONS += ["concat(name(), position())", "string-length(.)", "has-child-nodes()", "$v", "$v + 1"]
EXPRESSIONS += ["(1, 2)", "()", "1", "'t'"]
KINDS = ["elements", "text", "cdata", "comments", "processing-instructions", "attributes"]
TESTS = ["@x", "position() = 1", "$v", "has-child-nodes()", "name() = 'a'", "level() &lt; 3"]


class Maker:
    def __init__(self, seed):
        self.random, self.has_parameter, self.is_newer = random.Random(seed), False, False

    def one(self, *words):
        return self.random.choice(words)

    def maybe(self, part, text):
        return text if self.random.random() < part else ""

    def several(self, make, *numbers):
        return "".join(make() for _ in range(self.one(*numbers)))

    # Documents.

    def document(self):
        return self.one(lambda: self.element(3, 1, 2, 3, 4, 5), lambda: self.element(1, 6, 9, 12))()

    def element(self, depth, *numbers):
        name, attributes = self.one("a", "b", "c"), self.one("", "", ' x="1"', ' x="2" z="3"')
        return f"<{name}{attributes}>{self.several(lambda: self.node(depth), *numbers)}</{name}>"

    def node(self, depth):
        if self.random.random() < 0.3:
            return self.one("x", "y ", " ", "<!--c-->", "<?p d?>", "<![CDATA[z]]>")
        return self.element(depth - 1, *([0, 1, 2, 3, 4] if depth > 0 else [0]))

    # Sheets.

    def sheet(self):
        self.is_newer = self.random.random() < 0.3
        version, passes = ("1.1", self.passes_kinds()) if self.is_newer else ("1.0", self.passes())
        keeps = self.maybe(0.5, ' keep-value="yes"')
        declared = [f'<stx:variable name="v" select="0"{keeps}/><stx:buffer name="q"/>']
        declared += ['<stx:buffer name="w"><a x="1"/>t<b/></stx:buffer>', self.procedure("f"), self.procedure("k")]
        declared += [self.several(self.template, 1, 2, 3, 4), self.several(self.section, 0, 0, 2), self.group()]
        return f'<stx:transform version="{version}" xmlns:stx="{NAMESPACE}"{passes}>{"".join(declared)}</stx:transform>'

    def passes(self):
        return self.one("", ' pass-through="all"', ' pass-through="text"', ' pass-through="all" strip-space="yes"')

    def passes_kinds(self):
        kinds = " ".join(kind for kind in KINDS if self.random.random() < 0.5)
        strips, sections = self.maybe(0.3, ' strip-space="yes"'), self.maybe(0.7, ' recognize-cdata="yes"')
        return f' pass-through="{kinds or "none"}"{strips}{sections}'

    def group(self):
        passes = self.maybe(0.5, ' pass-through="all"')
        own = f'<stx:group name="g"{passes}>{self.several(self.template, 0, 1, 2)}</stx:group>'
        inner = f"<stx:group>{self.template()}</stx:group>"
        return f'{own}<stx:group name="h">{self.several(self.template, 0, 1)}{inner}</stx:group>'

    def procedure(self, name):
        return f'<stx:procedure name="{name}">{self.parameter()}{self.body(1)}</stx:procedure>'

    def template(self):
        attributes = self.maybe(0.2, f' priority="{self.one("1", "-1", "0.3")}"')
        attributes += self.maybe(0.3, f' visibility="{self.one("group", "global")}"')
        attributes += self.maybe(0.2, ' public="yes"') + self.maybe(0.15, ' new-scope="yes"')
        pattern = self.one(self.pattern(), self.pattern(), self.pattern(), "@x", "@*", "/", "b[$v=1]")
        return f'<stx:template match="{pattern}"{attributes}>{self.parameter()}{self.body(2)}</stx:template>'

    def section(self):
        """A template that takes the siblings up to some other node."""
        self.has_parameter = False
        name, other = self.one("a", "b", "c"), self.one("a", "b", "c", "a | b", "b | c", "text()")
        ends = self.one(f'until="{other}"', f'until="{name}"', f'while="{other}"')
        return f'<stx:template match="{name}"><s><stx:process-siblings {ends}/></s>{self.body(0)}</stx:template>'

    def parameter(self):
        self.has_parameter = self.random.random() < 0.3
        default = self.one("()", "1", "position()")
        return f'<stx:param name="p" select="{default}"/>' if self.has_parameter else ""

    def pattern(self):
        return self.one(*LEADS) + self.step() + self.maybe(0.2, " | " + self.step())

    def step(self):
        return self.one(*STEPS, *(["cdata()"] if self.is_newer else []))

    def expression(self):
        return self.one(*EXPRESSIONS, *(["$p", "count($p)", "$p"] if self.has_parameter else []))

    def test(self):
        return self.one(*TESTS, *(["exists($p)"] if self.has_parameter else []))

    def body(self, depth):
        return self.several(lambda: self.instruction(depth), 0, 1, 1, 2, 2, 3)

    def instruction(self, depth):
        return self.one(self.put, self.process, self.process, *([self.nested] * 2 if depth > 0 else []))(depth)

    def put(self, _):
        return self.one(
            "t",
            "<r/>",
            "<stx:text> </stx:text>",
            f'<stx:value-of select="{self.expression()}"/>',
            f'<stx:value-of select="{self.expression()}"/>',
            f'<stx:assign name="v" select="{self.one("$v + 1", "position()", "0", "count(@*)", "1")}"/>',
            '<stx:message select="name()"/>',
            '<stx:attribute name="y" select="position()"/>',
            "<stx:comment>c</stx:comment>",
            self.one('<stx:start-element name="s"/>', '<stx:end-element name="s"/>'),
        )

    def process(self, _):
        name = self.one(*["children"] * 3, *["siblings"] * 2, "self", "attributes", "buffer", "document", "")
        given = self.maybe(0.3, f'<stx:with-param name="p" select="{self.expression()}"/>')
        if not name:
            return f'<stx:call-procedure name="{self.one("f", "k")}">{given}</stx:call-procedure>'
        attributes = self.maybe(0.4, f' group="{self.one("g", "h")}"')
        if name == "siblings":
            attributes += self.one("", f' while="{self.pattern()}"', f' until="{self.pattern()}"')
        if name == "buffer":
            attributes += f' name="{self.one("q", "w")}"'
        if name == "document":
            attributes += f' href="{self.one("o.xml", "p.xml", "o.xml", "p.xml", "cut.xml", "absent.xml")}"'
        return f"<stx:process-{name}{attributes}>{given}</stx:process-{name}>"

    def nested(self, depth):
        inner, other, test = self.body(depth - 1), self.body(depth - 1), self.test()
        turn = '<stx:assign name="v" select="$v + 1"/>'
        clear, attributes = self.maybe(0.5, ' clear="yes"'), self.maybe(0.5, ' attributes="@*"')
        return self.one(
            f'<e n="{{position()}}">{inner}</e>',
            f'<e n="{{{self.expression()}}}">{inner}</e>',
            f"<stx:copy{attributes}>{inner}</stx:copy>",
            f'<stx:element name="{self.one("x", "{name()}")}">{inner}</stx:element>',
            f'<stx:if test="{test}">{inner}</stx:if>' + self.maybe(0.5, f"<stx:else>{other}</stx:else>"),
            f'<stx:choose><stx:when test="{test}">{inner}</stx:when><stx:otherwise>{other}</stx:otherwise></stx:choose>',
            f'<stx:result-buffer name="{self.one("q", "w")}"{clear}>{inner}</stx:result-buffer>',
            f'<stx:for-each-item name="i{self.random.random()}" select="{self.expression()}">{inner}</stx:for-each-item>',
            f'<stx:while test="$v &lt; 2">{turn}{inner}</stx:while>',
        )
