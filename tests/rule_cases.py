#!/usr/bin/env python3
"""The cases of the rules stage: writes crates/rule_cases/stdin and the output that is due for it, its stdout.

The judge here is a second one, written from document 01 and the decisions on it, by an author who had not read the crates of the
rules stage; what it knows of requests 1 and 2 was added by those who had. Its words come from the second lexer, tests/word_cases.py,
its sentences and numbers from the second readers, tests/sentence_cases.py and tests/expressions.py; it builds the tree of a text that
passes both, and collects the faults of that tree.
stdin: for each case a little-endian u32 length, then the text. stdout: for each case a line with the case's number and
` accepted` or ` refused=N at=P`, by the words, by the sentences if those pass, or by the rules (5 to 17, and 18 for definitions).
"""
from collections import namedtuple
from itertools import combinations, product
from random import Random

import sentence_cases
from expressions import OPERAND, Word, mark
from sentence_cases import KIND, NAME, Reader, each, keywords
from word_cases import PROPERTIES, all_tokens, write_cases

MOST_DEFINITIONS = 256

# --- the tree of a text ---

Definition = namedtuple("Definition", "kind name elements brace instances")
Statement = namedtuple("Statement", "type instances")
Setting = namedtuple("Setting", "default property value")
Instance = namedtuple("Instance", "name suffixes")
Suffix = namedtuple("Suffix", "place numbers")

SUFFIX_MARKS = mark(b"[") | mark(b"=") | mark(b"@") | mark(b"+=") | mark(b"%=")


class TreeReader(Reader):
    """Reads the tree of a text that keeps the grammar, so that no word needs to be checked."""

    def __init__(self, text, tokens):
        super().__init__(tokens)
        self.contents = [text[start:end] for _, start, end in tokens]

    def word(self):
        self.at += 1
        return Word(self.contents[self.at - 1], self.places[self.at - 1])

    def up_to(self, words, part):
        """The parts up to a word, which is passed too."""
        parts = []
        while not self.skip(words):
            parts.append(part())
        return parts

    def file(self):
        return self.up_to({b"end"}, self.definition)

    def definition(self):
        kind = self.word()
        name = self.word() if self.sees(NAME) else None
        self.take(mark(b"{"))
        elements = self.up_to(mark(b"}"), self.element)
        return Definition(kind, name, elements, self.places[self.at - 1], self.instances())

    def element(self):
        if self.sees(KIND):
            return self.definition()
        if self.sees(NAME) and self.sees(NAME, ahead=1):
            return Statement(self.word(), self.instances())
        return self.setting()

    def setting(self):
        default = self.skip(keywords(b"default"))
        word = self.word()
        value = self.value() if self.skip(mark(b"=")) else None
        self.take(mark(b";"))
        return Setting(default, word, value)

    def value(self):
        return self.expression() if self.sees(OPERAND) else self.word()

    def instances(self):
        return self.up_to(mark(b";"), self.instance)

    def instance(self):
        name, suffixes = self.word(), {}
        while self.sees(SUFFIX_MARKS):
            start, numbers = self.word(), [self.expression()]
            if self.skip(mark(b":")):
                numbers.append(self.expression())
            self.skip(mark(b"]"))
            suffixes[b"[:]" if len(numbers) == 2 else start.content] = Suffix(start.place, numbers)
        self.skip(mark(b","))
        return Instance(name, suffixes)


# --- the rules, as tables ---

ADDRMAP, REGFILE, REG, FIELD = KINDS = b"addrmap regfile reg field".split()
ROOT = b"root"

DEFINED_IN = {ROOT: KINDS, ADDRMAP: [REGFILE, REG, FIELD], REGFILE: [REGFILE, REG, FIELD], REG: [FIELD], FIELD: []}
HELD_IN = {ROOT: [], ADDRMAP: [REGFILE, REG], REGFILE: [REGFILE, REG], REG: [FIELD], FIELD: []}


def words(spellings):
    """Each of these words means itself."""
    return {word: word for word in spellings.split()}.get


def numbers_of(values):
    """Each of these numbers means itself."""
    return {value: value for value in values}.get


def any_number(content):
    return content if isinstance(content, int) else None


def any_string(content):
    return content if isinstance(content, bytes) and content.startswith(b'"') else None


def switch(effect):
    """The values of a short form."""
    return {b"true": effect, b"false": b"none"}.get


def access(content):
    return {b"wr": b"rw"}.get(content, words(b"na rw r w")(content))


WIDTHS = numbers_of([8, 16, 32, 64])
POWERS = numbers_of([2**n for n in range(17)])
READ_EFFECTS = words(b"rclr rset")
WRITE_EFFECTS = words(b"woset woclr wot wzs wzc wzt wclr wset")

# What a property sets, the components that it is for, and what each value means (nothing, if it is not a value for it).
Property = namedtuple("Property", "sets kinds meaning")
PROPERTY_TABLE = {
    b"sw": Property(b"sw", [FIELD], access),
    b"hw": Property(b"hw", [FIELD], access),
    b"reset": Property(b"reset", [FIELD], any_number),
    b"onread": Property(b"onread", [FIELD], READ_EFFECTS),
    b"onwrite": Property(b"onwrite", [FIELD], WRITE_EFFECTS),
    b"rclr": Property(b"onread", [FIELD], switch(b"rclr")),
    b"rset": Property(b"onread", [FIELD], switch(b"rset")),
    b"woclr": Property(b"onwrite", [FIELD], switch(b"woclr")),
    b"woset": Property(b"onwrite", [FIELD], switch(b"woset")),
    b"regwidth": Property(b"regwidth", [REG], WIDTHS),
    b"accesswidth": Property(b"accesswidth", [REG], WIDTHS),
    b"alignment": Property(b"alignment", [ADDRMAP, REGFILE], POWERS),
    b"addressing": Property(b"addressing", [ADDRMAP], words(b"compact regalign fullalign")),
    b"name": Property(b"name", KINDS, any_string),
    b"desc": Property(b"desc", KINDS, any_string),
}
DEFAULTED = b"sw hw reset onread onwrite regwidth accesswidth".split()
NUMERIC = b"reset regwidth accesswidth alignment".split()


def between(least, most):
    return lambda numbers: least <= numbers[0].content <= most


def lawful_range(numbers):
    left, right = numbers
    return right.content <= left.content <= 63


def lawful_step(numbers):
    return POWERS(numbers[0].content) is not None


ADDRESSED = {b"[": between(1, 1024), b"@": between(0, 2**32 - 1), b"+=": between(1, 2**32 - 1), b"%=": lawful_step}
SUFFIXES = {
    ADDRMAP: {},
    REGFILE: ADDRESSED,
    REG: ADDRESSED,
    FIELD: {b"[": between(1, 64), b"[:]": lawful_range, b"=": between(0, 2**64 - 1)},
}

# --- the judge ---

Component = namedtuple("Component", "kind sw onread reset")  # the last three for a field alone
Placed = namedtuple("Placed", "low high sw onread reset")  # a field in a register


class Body:
    """A body under judgement: what it declared and set so far."""

    def __init__(self, kind, outer):
        self.kind, self.outer = kind, outer
        self.type_names, self.instance_names = set(), set()
        self.types = {}
        self.settings = set()
        self.own, self.defaults = {}, {}
        self.fields = []

    def and_outer_ones(self):
        body = self
        while body:
            yield body
            body = body.outer

    def type(self, name):
        """The nearest type of a name that is closed."""
        return next((body.types[name] for body in self.and_outer_ones() if name in body.types), None)

    def value(self, name, otherwise):
        """The own setting, or else the nearest default of the bodies around this one."""
        nearest = [self.own] + [body.defaults for body in self.outer.and_outer_ones()]
        return next((settings[name] for settings in nearest if name in settings), otherwise)


def overlap(one, other):
    return one.low <= other.high and other.low <= one.high and {one.sw, other.sw} != {b"r", b"w"}


def halved(field, part):
    """Whether software changes the field, by a write or by a read, and an access has a part of it only."""
    return (field.sw in (b"w", b"rw") or field.onread != b"none") and field.low // part != field.high // part


class Judge:
    """Collects the faults of a tree, each a place and a number. A number that an operator refuses is a fault there, and counts as not
    given: whatever depends on it, but for its own kind and range, stands behind the operator."""

    def __init__(self):
        self.faults = []
        self.definitions = 0
        self.maps = 0

    def demand(self, kept, number, place):
        if not kept:
            self.faults.append((place, number))

    def file(self, definitions, end):
        root = Body(ROOT, None)
        for definition in definitions:
            self.definition(definition, root)
        self.demand(self.maps > 0, 10, end)

    def declare(self, name, names):
        self.demand(name.content not in names, 6, name.place)
        names.add(name.content)

    def definition(self, node, outer):
        kind = node.kind.content
        self.count(node)
        self.demand(kind in DEFINED_IN[outer.kind], 10, node.kind.place)
        if node.name:
            self.declare(node.name, outer.type_names)
        body = Body(kind, outer)
        for element in node.elements:
            self.element(element, body)
        component = Component(kind, body.value(b"sw", b"rw"), body.value(b"onread", b"none"), body.value(b"reset", 0))
        self.close(body, component, node.brace)
        if node.name:
            outer.types[node.name.content] = component
        self.instances(node.instances, component, outer)

    def count(self, node):
        self.definitions += 1
        self.demand(self.definitions <= MOST_DEFINITIONS, 18, node.kind.place)
        if node.kind.content == ADDRMAP:
            self.maps += 1
            self.demand(self.maps == 1 and node.name, 10, node.kind.place)

    def element(self, node, body):
        if isinstance(node, Definition):
            self.definition(node, body)
        elif isinstance(node, Setting):
            self.setting(node, body)
        else:
            component = body.type(node.type.content)
            self.demand(component, 5, node.type.place)
            self.instances(node.instances, component, body)

    def setting(self, node, body):
        word = node.property
        known = PROPERTY_TABLE.get(word.content)
        if not known or not (body.kind != FIELD and known.sets in DEFAULTED if node.default else body.kind in known.kinds):
            self.faults.append((word.place, 7))
            return
        self.demand((known.sets, node.default) not in body.settings, 8, word.place)
        body.settings.add((known.sets, node.default))
        value = node.value or Word(b"true", word.place)
        meaning = known.meaning(value.content)
        refused = value.content is None and known.sets in NUMERIC
        self.demand(meaning is not None, 9, value.refused_at if refused else value.place)
        if meaning is not None:
            (body.defaults if node.default else body.own)[known.sets] = meaning

    def instances(self, nodes, component, body):
        for node in nodes:
            self.declare(node.name, body.instance_names)
            if component:
                self.demand(component.kind in HELD_IN[body.kind], 10, node.name.place)
                self.suffixes(node.suffixes, SUFFIXES[component.kind])
                if component.kind == FIELD:
                    self.place(node.suffixes, component, body)

    def suffixes(self, suffixes, lawful):
        for start, suffix in suffixes.items():
            self.demand(start in lawful, 11, suffix.place)
            self.demand(start != b"+=" or b"[" in suffixes, 11, suffix.place)
            self.demand(start != b"%=" or b"@" not in suffixes, 11, suffix.place)
            if start in lawful:
                self.numbers(suffix.numbers, lawful[start])

    def numbers(self, numbers, are_lawful):
        """No range over a refused number is judged."""
        refused = [number.refused_at for number in numbers if number.content is None]
        if refused:
            self.faults.append((refused[0], 9))
        else:
            self.demand(are_lawful(numbers), 9, numbers[0].place)

    def place(self, suffixes, component, body):
        """Gives a field its bits, behind the previous one or by its range, and its reset."""
        def numbers(start, otherwise):
            given = [number.content for number in suffixes[start].numbers] if start in suffixes else [None]
            return otherwise if None in given else given

        low = body.fields[-1].high + 1 if body.fields else 0
        width, = numbers(b"[", [1])
        high, low = numbers(b"[:]", [low + width - 1, low])
        reset, = numbers(b"=", [component.reset])
        body.fields.append(Placed(low, high, component.sw, component.onread, reset))

    def close(self, body, component, brace):
        self.demand(body.kind == FIELD or body.instance_names, 10, brace)
        if body.kind == FIELD:
            self.demand(component.onread == b"none" or component.sw in (b"r", b"rw"), 12, brace)
            self.demand(body.value(b"onwrite", b"none") == b"none" or component.sw in (b"w", b"rw"), 12, brace)
        if body.kind == REG:
            self.register(body, brace)

    def register(self, body, brace):
        fields = body.fields
        width = body.value(b"regwidth", 32)
        part = body.value(b"accesswidth", width)
        self.demand(all(field.reset.bit_length() <= field.high - field.low + 1 for field in fields), 13, brace)
        self.demand(part <= width, 14, brace)
        self.demand(all(field.high < width for field in fields), 15, brace)
        self.demand(not any(overlap(one, other) for one, other in combinations(fields, 2)), 16, brace)
        self.demand(not any(halved(field, part) for field in fields), 17, brace)


def answer(text):
    """All of a case's line but the case's number."""
    earlier = sentence_cases.answer(text)
    if earlier != b" accepted":
        return earlier
    judge = Judge()
    judge.file(TreeReader(text, all_tokens(text)).file(), len(text))
    return b" refused=%d at=%d" % min(judge.faults)[::-1] if judge.faults else earlier


# --- the cases ---

# What makes a body of each kind lawful, and each kind of body in a text; `#` is the place of what a case is about.
INSIDE = {ADDRMAP: b"reg { field {} f; } z;", REGFILE: b"reg { field {} f; } z;", REG: b"field {} z;", FIELD: b""}
MAP = b"addrmap m { reg { field {} f; } k; };"
WITHIN = {
    ROOT: b"# " + MAP,
    ADDRMAP: b"addrmap m { # reg { field {} f; } z; };",
    REGFILE: b"addrmap m { regfile { # reg { field {} f; } z; } y; };",
    REG: b"addrmap m { reg { # field {} z; } y; };",
    FIELD: b"addrmap m { reg { field { # } z; } y; };",
}
REGISTER = b"addrmap m { reg { # } k; };"
ONE_FIELD = b"addrmap m { reg { field { # } f; } k; };"

# A lawful setting of each property.
SETTINGS = each(b"""sw = r | hw = na | reset = 1 | onread = rset | onwrite = wot | rclr | rset = false | woclr = true | woset |
    regwidth = 64 | accesswidth = 8 | alignment = 8 | addressing = compact | name = "n" | desc = "d" """)
VALUES = each(b"""true | false | na | rw | wr | r | w | rclr | rset | woset | woclr | wot | wzs | wzc | wzt | wclr | wset |
    compact | fullalign | "" | "8" | 0 | 1 | 2 | 3 | 4 | 8 | 9 | 16 | 24 | 0x20 | 64 | 65 | 128 | 65535 | 65536 | 65537 | 131072 |
    4294967304 | 18446744073709551615""")
LONG_NAMES = [b"n" * 31, b"m" + b"n" * 30, b"n" * 30 + b"m"]
NUMBERS = each(b"""0 | 1 | 2 | 3 | 63 | 64 | 65 | 1023 | 1024 | 1025 | 65535 | 65536 | 65537 | 131072 | 4294967295 | 4294967296 |
    4294967297 | 18446744073709551615""")


def fill(template, parts):
    """Each part at the place `#` of the template."""
    return [template.replace(b"#", part) for part in parts]


def in_all(parts):
    """Each part in a body of each kind."""
    return [text for kind in KINDS for text in fill(WITHIN[kind], parts)]


def joined(*choices):
    """Each way to take one text of each list, joined."""
    return [b" ".join(part for part in parts if part) for parts in product(*choices)]


def optional(template, values):
    """The template with each value, and nothing at all."""
    return [b""] + fill(template, values)


def classroom():
    """The listing of document 01, and the classroom sums that this stage decides."""
    sums = fill(REGISTER, each(b"""field {} a[4]; field {} b[9:8]; field {} c; | regwidth = 32; accesswidth = 64; field {} a; |
        regwidth = 64; accesswidth = 32; field {} a[32:31]; | regwidth = 64; accesswidth = 32; field {} a[31:0]; |
        regwidth = 64; accesswidth = 32; field { sw = r; } a[32:31]; | field {} a[4] = 4'd15; | field {} a[4] = 5'd16;"""))
    arrays = [b"addrmap m { reg { field {} f; } k[%d]; };" % length for length in (0, 1, 1024, 1025)]
    return [sentence_cases.LISTING, b""] + sums + arrays


def definition(kind, name, instances=b""):
    """A lawful definition of a kind."""
    return b"%s %s { %s } %s;" % (kind, name, INSIDE[kind], instances)


def kinds():
    """10 at a kind word: each kind in a body of each kind, named or not, with and without instances, empty or not."""
    forms = each(b"# t {}; | # {} a; | # t { nothing; }; | # t { # u {} a; }; | # t { sw = 5; } a; | # t { } t, t;")
    parts = [definition(kind, name, instances) for kind in KINDS for name, instances in ((b"t", b""), (b"t", b"a"), (b"", b"a"))]
    parts += [form.replace(b"#", kind) for form in forms for kind in KINDS]
    return in_all(parts) + fill(WITHIN[ROOT], parts) + fill(MAP + b" #", parts)


def held():
    """10 at an instance name, and 5: a type of each kind, or of none, in a body of each kind and behind the map."""
    types = b"regfile P { reg { field {} f; } k; }; reg R { field {} f; }; field F {}; "
    statements = each(b"""P a; | R a; | F a; | m a; | X a; | P a, a; | F b, a, a; | R a[2]; | F a[2]; | P a = 1; | F a @ 4; |
        R z; | F z; | P P; | a R;""")
    behind = [MAP + b" %s t { # %s };" % (kind, INSIDE[kind]) for kind in (REGFILE, REG, FIELD)]
    return [types + text for text in in_all(statements)] + [types + text for body in behind for text in fill(body, statements)]


def missing_instances():
    """10 at a brace: bodies with nothing, settings, types alone, and with an instance of either form."""
    lone = each(b""" | name = "n"; | default sw = r; | field F {}; | field F {}; field G { sw = r; }; | field {} f; |
        field F {} f; | field F {}; F f; | field F {}; F f, g; | name = "n"; field {} f; | field {} f; name = "n";""")
    registers = fill(b"reg R { # };", lone)
    bodies = [b"%s t { %s # };" % case for case in product((ADDRMAP, REGFILE), (b"", b'name = "n";'))]
    outer = [text for body in bodies for text in fill(body, registers + each(b""" | reg { field {} f; } k; |
        reg R { field {} f; } k; | reg R { field {} f; }; R k; | regfile {} k; | regfile P {}; |
        regfile P { reg { field {} f; } k; }; | reg {} k;"""))]
    return registers + outer + [text + b" " + MAP for text in registers + outer] + fill(WITHIN[FIELD], [b"", b'name = "n";'])


def maps():
    """10 for address maps: none (at the text's end), one, two, unnamed, nested, with root instances."""
    texts = each(b""" | # | # # | addrmap { reg { field {} f; } k; } a; | # addrmap n { reg { field {} f; } k; }; |
        # addrmap { reg { field {} f; } k; } a; | addrmap m { reg { field {} f; } k; } a; |
        addrmap m { reg { field {} f; } k; } a, b; | addrmap m { addrmap n { reg { field {} f; } k; }; }; |
        addrmap m { addrmap n {} a; }; | addrmap m {}; | addrmap {} a; | reg R { field {} f; }; | reg R { field {} f; } k; |
        reg { field {} f; } k; | field F {}; | field {} f; | field F {} f, f; | regfile P { reg { field {} f; } k; }; |
        regfile { reg { field {} f; } k; } p; | field F {}; # | field F {} f; # | # reg R { field {} f; }; |
        # reg R { field {} f; } k; | # field m {}; | field m {}; # | reg R { field F {}; F f; }; # |
        regfile P { addrmap m { reg { field {} f; } k; }; reg { field {} f; } k; }; | reg R { addrmap m {}; field {} f; }; |
        field F { addrmap m {}; }; | # regfile P { addrmap n {}; }; | regfile P { addrmap n {}; }; #""")
    gaps = [b"", b" ", b"\n\t", b"// addrmap m {};", b" /* addrmap */ "]
    return [text.replace(b"#", MAP) + gap for text in texts for gap in gaps]


def names():
    """6: types and instances have separate name spaces in each body, and the map's name is a type's."""
    at_root = each(b"""field t {}; field t {}; | field t {}; reg t { field {} f; }; | field m {}; | reg m { field {} f; }; |
        field k {}; | field t {}; reg u { field t {}; t t; }; | field t {}; field T {}; | field t {}; field tt {}; |
        field sw1 {}; field name {}; | field name {}; field name {}; | reg t { field t {}; t t; }; |
        reg t { field t {}; t t; }; field t {};""")
    lists = each(b"""a, a | a, b | a, b, a | a, b, b | a, A | a, aa | a[2], a | a, a[2] | name, desc | name, name | t, t | t, u |
        z | a, z | a_, a | a, a1, a10, a1""") + [LONG_NAMES[0] + b", " + name for name in LONG_NAMES]
    texts = fill(WITHIN[ROOT], at_root) + fill(MAP + b" #", at_root)
    for outer in (ADDRMAP, REGFILE, REG):
        for kind in HELD_IN[outer]:
            heads = [definition(kind, b"t", b"#"), definition(kind, b"", b"#")]
            heads += [definition(kind, b"t", instances) + b" t #;" for instances in (b"", b"b")]
            texts += [text for head in heads for text in fill(WITHIN[outer].replace(b"#", head), lists)]
        types = [definition(kind, name) for kind in DEFINED_IN[outer] for name in (b"t", b"u", b"z")]
        texts += fill(WITHIN[outer], joined(types[::3], types))
    return texts


def scopes():
    """5, and which type a name means: visible behind its closing brace, unknown in itself, inner hides outer, whatever its kind.
    One of two field types has a reset that takes two bits, so that a register shows by 13 which of them it got."""
    plain, bad = b"field F {};", b"field F { reset = 2; };"
    parts = each(b"""A addrmap m { reg { F f; } k; }; | A addrmap m { B reg { F f; } k; }; |
        A addrmap m { reg { F f; } k; B reg { F f; } s; }; | A addrmap m { reg { F f; B } k; }; |
        A addrmap m { reg { B F f; } k; }; | A addrmap m { reg { F f; B F g; } k; }; | addrmap m { reg { F f; A } k; }; |
        addrmap m { reg { A F f; } k; reg { F f; } s; }; | addrmap m { reg { F f; } k; A }; | addrmap m { reg { F f; } k; }; A |
        A addrmap m { regfile { B reg { F f; } k; } p; reg { F f; } s; }; |
        A addrmap m { regfile { reg { F f; } k; B } p; reg { F f; } s; }; |
        addrmap m { A regfile { reg { B F f; } k; reg { F f; } s; } p; }; | A addrmap m { reg F { F f; } k; }; |
        A addrmap m { reg F { F f; }; F k; }; | A addrmap m { reg F { F f; } k; reg { F g; } s; }; |
        A addrmap m { reg F { B F f; } k; F s; }; | A addrmap m { regfile F { reg { F f; } k; } p; F q; }; |
        A addrmap m { regfile F { reg { F f; } k; } p; reg { F g; } s; }; | A reg R { F f; B }; addrmap m { R k; }; |
        A reg R { F f; }; addrmap m { B R k; };""")
    texts = [part.replace(b"A", one).replace(b"B", two) for part in parts for one in (plain, bad) for two in (plain, bad)]
    others = each(b"""addrmap m { m a; }; | addrmap m { reg R { R a; } k; }; | addrmap m { regfile P { P p; } q; }; |
        reg R { field {} f; }; addrmap m { reg R { R f; } k; }; |
        regfile P { reg { field {} f; } k; }; addrmap m { regfile P { P p; } q; P s; }; |
        reg m { field {} f; }; addrmap n { m k; }; | reg R { field {} f; }; addrmap R { R k; }; |
        reg R { field {} f; }; addrmap m { field R {}; R k; }; |
        field F {}; addrmap m { reg F { field {} f; }; reg { F f; } k; }; |
        reg R { field {} f; }; addrmap m { R k; field R {}; R s; }; |
        reg R { field {} f; }; addrmap m { regfile { field R {}; reg { R f; } k; R s; } p; }; |
        addrmap m { reg { field F {}; F f; } k; F g; }; | addrmap m { reg { field {} F; F g; } k; }; |
        addrmap m { reg R { field {} f; } k; k s; }; | addrmap m { R k; reg R { field {} f; }; }; |
        addrmap m { reg R { field {} f; } a; R b; k c; }; | addrmap m { regfile P { reg Q { field {} f; } k; } p; Q q; }; |
        addrmap m { name x; }; | reg name { field {} f; }; addrmap m { name x; name = "x"; }; | addrmap m { T; }; |
        reg T { field {} f; }; addrmap m { T; T x; };""")
    return texts + others


def properties():
    """7: each property in each body, as a setting and as a default, with a value and without; words that are no property."""
    other = each(b"""nothing | Sw = r | sw_ = r | onreads = rclr | width = 8 | f | m | none = 1 | SW | resets = 0 | names = "n" |
        on = true""")
    alone = [name for name in PROPERTIES if name not in SETTINGS]
    return in_all([before + setting + b";" for before in (b"", b"default ") for setting in SETTINGS + alone + other])


def twice():
    """8: each two settings of a body, defaults counted apart, short forms with long ones."""
    def statements(before, settings):
        return [before + setting + b";" for setting in settings]

    texts = []
    for kind in KINDS:
        own = statements(b"", [setting for setting in SETTINGS if kind in PROPERTY_TABLE[setting.split()[0]].kinds])
        texts += fill(WITHIN[kind], joined(own, own))
    defaults = statements(b"default ", SETTINGS[:11])
    widths = statements(b"", SETTINGS[9:11])
    texts += fill(WITHIN[ADDRMAP], joined(defaults, defaults))
    texts += fill(WITHIN[REG], joined(defaults, defaults) + joined(defaults, widths) + joined(widths, defaults))
    in_field = each(b"""rclr | rclr; onread = rset | onread = rclr; rset = false | woset; hw = r; woclr | sw; sw | sw = r; sw |
        sw = r; sw = 5 | sw = 5; sw = r | foo; foo | rclr; rclr = 1 | rclr = 1; rclr | rclr = false; rset = false |
        reset = 1; reset = 1; reset = 1""")
    apart = each(b"""default sw = r; reg { field {} f; } a; default sw = r; |
        default rclr; reg { default rclr; field {} f; } a; default hw = r; |
        reg { default sw = r; field {} f; } a; default sw = r; reg { default sw = r; field {} f; } b; |
        default rclr; reg { field {} f; } a; default rset = false; |
        name = "a"; reg { name = "b"; field { name = "c"; } f; } a; name = "d";""")
    return texts + fill(WITHIN[FIELD], statements(b"", in_field)) + fill(WITHIN[ADDRMAP], apart)


def with_values(values):
    """Each property with each of the values, as a setting and as a default."""
    texts = []
    for name in PROPERTIES:
        kind = PROPERTY_TABLE[name].kinds[0]
        texts += fill(WITHIN[kind], [b"%s = %s;" % (name, value) for value in values])
        if PROPERTY_TABLE[name].sets in DEFAULTED:
            texts += fill(WITHIN[REG], [b"default %s = %s;" % (name, value) for value in values])
    return texts


def values():
    """9: each property with each value."""
    return with_values(VALUES)


def suffixed(kind, suffixes):
    """An instance of a kind with each of the suffixes."""
    if kind == FIELD:
        return fill(b"addrmap m { reg { regwidth = 64; field {} a #; } k; };", suffixes)
    return fill(b"%s T { %s }; addrmap m { T a #; };" % (kind, INSIDE[kind]), suffixes)


def suffix_sets():
    """11: each set of suffixes on each kind, with lawful numbers and with others; several instances."""
    choices = joined([b"", b"[2]", b"[3:1]"], [b"", b"= 0"], [b"", b"@ 64"], [b"", b"+= 8"], [b"", b"%= 8"])
    wrong = joined([b"", b"[0]", b"[1:3]"], [b"", b"= 2"], [b"", b"@ 4294967296"], [b"", b"+= 0"], [b"", b"%= 3"])
    several = each(b"""[2], b += 8 | @ 0, b[2] += 8 %= 8 | , b @ 8 %= 8 | += 8, b = 1 | [2] += 8, b[2] += 8, c[2:1] | , b[0] = 1 |
        [0], b += 1 | , a @ 8 %= 8""")
    return [text for kind in (REGFILE, REG, FIELD) for text in suffixed(kind, choices + wrong + several)]


def suffix_numbers():
    """9: the limits of each suffix on each kind, and the ranges of fields."""
    templates = each(b"[#] | [2] += # | %= # | @ # | += # | = # | [#:0] | [3:#] | [65] = # | [2] += # %= 3 | [2] %= #")
    limits = [text for kind in (REGFILE, REG, FIELD) for template in templates for text in suffixed(kind, fill(template, NUMBERS))]
    bits = (0, 1, 31, 32, 62, 63, 64, 65, 2**32, 2**64 - 1)
    ranges = [b"[%d:%d]" % pair for pair in product(bits, bits)]
    return limits + suffixed(FIELD, ranges)


def effects():
    """12: each access with each effect, set in the field or by a default of the register or the map."""
    sw = optional(b"sw = #;", each(b"na | rw | wr | r | w"))
    onread = each(b"| rclr; | rset = true; | onread = rset; | rclr = false;")
    onwrite = each(b"| woclr; | woset = false; | onwrite = wzs; | onwrite = wset;")
    default_effects = fill(b"default #;", each(b"rclr | rset = false | onread = rset | woclr | onwrite = wzt"))
    texts = fill(ONE_FIELD, joined(sw, onread, onwrite) + joined(onwrite[1:], sw[1:], onread))
    texts += fill(ONE_FIELD, joined(sw, fill(b"onwrite = #;", each(b"woset | woclr | wot | wzs | wzc | wzt | wclr | wset"))))
    texts += fill(REGISTER, joined(default_effects, fill(b"field { # } f;", joined(sw, onread))))
    texts += fill(b"addrmap m { default # reg { field { rclr; } f; } k; reg { field { woset; } f; } s; };", sw[1:])
    texts += fill(b"field F { # }; " + MAP, joined(sw, onread, onwrite[1::3]))
    return texts + fill(b"addrmap m { # };", joined(fill(b"default #", sw[1:]), fill(b"reg { field { # } f; } k;", onread + onwrite)))


def three_bodies(inner, choices, own):
    """A default of each choice, or none, in the map, the regfile and the register, around a component of each own setting."""
    levels = optional(b"default #", choices)
    return [b"addrmap m { %s regfile { %s reg { %s %s } k; } p; };" % (one, two, three, inner.replace(b"#", setting))
            for one, two, three, setting in product(levels, levels, levels, own)]


def defaults():
    """Which default reaches: the nearest of three bodies, beaten by an own setting; shown by 12 and 13."""
    return (three_bodies(b"field { sw = w; # } f;", [b"rclr;", b"rclr = false;"], [b"", b"rset;", b"rset = false;"])
            + three_bodies(b"field { rclr; # } f;", [b"sw = r;", b"sw = w;"], [b"", b"sw = r;", b"sw = na;"])
            + three_bodies(b"field { # } f;", [b"reset = 1;", b"reset = 0x2;"], [b"", b"reset = 1;", b"reset = 2;"])
            + three_bodies(b"field { sw = r; # } f;", [b"onwrite = wot;", b"woset = false;"], [b"", b"woclr = false;"]))


def reach():
    """Where a default stands: before the definition, in it, behind it, around the use of a type, in a body beside."""
    texts = each(b"""addrmap m { @ reg { field { # } f; } k; }; | addrmap m { reg { field { # } f; } k; @ }; |
        addrmap m { reg { @ field { # } f; } k; }; | addrmap m { reg { field { # } f; @ } k; }; |
        addrmap m { reg { field { # } f; } k; @ reg { field { # } f; } s; }; |
        addrmap m { reg { field { # } f; @ field {} g; } k; reg { field { # } f; } s; }; |
        field F { # }; addrmap m { @ reg { F f; } k; }; | addrmap m { field F { # }; @ reg { F f; } k; }; |
        addrmap m { @ field F { # }; reg { F f; } k; }; | addrmap m { @ field F { # }; reg { field {} f; } k; }; |
        reg R { field { # } f; }; addrmap m { @ R k; }; | reg R { @ field {} g; }; addrmap m { reg { field { # } f; } k; }; |
        addrmap m { regfile { @ reg { field {} f; } k; } p; reg { field { # } f; } k; }; | addrmap m { field { @ # } f; }; |
        regfile P { @ reg R { field { # } f; } k; }; addrmap m { P p; }; | reg R { @ field F { # }; F f; }; addrmap m { R k; }; |
        addrmap m { @ reg { field F { # } f; F g; } k; }; |
        addrmap m { @ regfile { regfile { reg { field { # } f; } k; } p; } q; };""")
    pairs = each(b"""default rclr; # sw = w; | default sw = w; # rclr; | default reset = 2; # | default onwrite = wot; # sw = r; |
        default sw = r; # woset; | default rclr; # sw = w; rclr = false; | default sw = na; # onread = rset; sw = wr; |
        default reset = 2; # reset = 0; | default sw = w; # rclr = false; | default hw = w; # rclr; |
        default rclr = false; # sw = w;""")
    cases = []
    for default, own in (pair.split(b"#") for pair in pairs):
        cases += [text.replace(b"@", default).replace(b"#", own) for text in texts]
    resets = fill(b"addrmap m { default reset = 4; # };", each(b"""reg { field {} f = 1; } k; | reg { field {} f[3]; } k; |
        reg { field {} f[2]; } k; | reg { field {} f[2] = 3; } k; | field F {}; reg { field { reset = 0; } f; } k; |
        field F {}; reg { F f[3], g = 1, h[2:0], i; } k; | field F {}; reg { F f[3], g = 1, h[6:4]; } k;"""))
    deepest = [b"addrmap m { %s reg { field { %s } f; } k; %s };" % (b"regfile { " * 5 + outer, own, b"} p; " * 5)
               for outer in (b"", b"default rclr;", b"default rclr = false;") for own in (b"", b"sw = w;", b"sw = w; rset;")]
    return cases + resets + deepest + [text.replace(b"addrmap m {", b"addrmap m { default rclr;") for text in deepest]


def widths():
    """14 and 17: register and access widths, own or by default, and a field that spans two bytes or two larger parts."""
    some = each(b"8 | 16 | 32 | 64")
    regwidth, accesswidth = optional(b"regwidth = #;", some), optional(b"accesswidth = #;", some)
    field = b"field { sw = r; } f;"
    texts = fill(REGISTER, joined(regwidth, accesswidth, [field]) + joined([field], accesswidth, regwidth))
    few = each(b"8 | 64")
    levels = joined(optional(b"default regwidth = #;", few), optional(b"default accesswidth = #;", few))
    own = joined(optional(b"regwidth = #;", few), optional(b"accesswidth = #;", few), [field])
    texts += fill(b"addrmap m { # };", joined(levels, fill(b"reg { # } k;", own)))
    texts += fill(b"addrmap m { # };", joined(optional(b"default regwidth = #;", few), fill(b"regfile { # } p;", joined(
        optional(b"default accesswidth = #;", each(b"16 | 32 | 64")), fill(b"reg { # } k;", own[::2])))))
    spans = [b"regwidth = %d; accesswidth = %d; field { %s } f[%d:%d];" % (width, part, sw, high, low)
             for width, part in ((64, 32), (64, 16), (64, 8), (64, 64), (32, 16), (16, 8))
             for sw in (b"", b"sw = r;", b"sw = w;", b"sw = na;")
             for high, low in ((part, part - 1), (part - 1, 0), (part, part), (2 * part - 1, part), (width - 1, 0))]
    own_body = each(b"""default regwidth = 8; field {} f[9]; | default regwidth = 64; field {} f[33]; |
        default accesswidth = 8; field {} f[9]; | default accesswidth = 64; field {} f; |
        default regwidth = 8; regwidth = 16; field {} f[9]; | field {} f[9]; default regwidth = 8;""")
    return texts + fill(REGISTER, spans + own_body)


def positions():
    """15 and 16 by where fields lie: behind the previous one, which need not be the highest, and up to the register's last bit."""
    lists = each(b"""a[4], b[9:8], c | a, b, c | a[8] | a[9] | a[7], b | a[7], b, c | a[7:7] | a[8:8] | a[7:4], b | a[3:0], b[4] |
        a[3:0], b[5] | b[7:6], a[1:0], c | b[7:6], a[1:0], c[4] | b[7:6], a[1:0], c[5] | a[5:4], b[1:0], c[2], d |
        b[7:7], a[0:0], c[6] | b[7:7], a[0:0], c[7] | a[6], b[7:6] | a[6], b[7:6], c | a[7:0] | a[63:0] | a[64] | a[63], b |
        a[63], b, c | a[64], b | a[64], b[64] | a[64], b[64], c[0:0] | a[63:63], b[64] | a[63:62], b[64], c[64] | a[1:1], b[0:0] |
        a[1:1], b[0:0], c | a[15:8], b[7:0] | a[31:0] | a[32] | a[31], b | a[32:32] | a[31:31], b | a, b[31] | a, b[32] | a[33] |
        a[32], b[1:0]""")
    registers = [b"regwidth = %d; field { sw = %s; } %s;" % case for case in product((8, 32, 64), (b"rw", b"r"), lists)]
    forms = each(b"""field F {}; F a[4]; field {} b[9:8]; F c; field { sw = r; } d[10:10]; |
        field F {}; F a[4], b[9:8]; field {} c; field { sw = r; } d[11:11]; | field {} a[31:31]; regwidth = 64; field {} b; |
        field {} a[31:31]; field {} b; | field F {} a[4], b; F c[28]; | field F {} a[4], b; F c[27];""")
    return fill(REGISTER, registers + forms)


def resets():
    """13: the reset of the property, a default or the instance, against the width."""
    texts = []
    for width in (1, 2, 8, 31, 63, 64):
        for reset in sorted({0, 2**(width - 1), 2**width - 1, min(2**width, 2**64 - 1)}):
            forms = each(b"""field { reset = $; } f[#]; | field {} f[#] = $; | field { reset = 0; } f[#] = $; |
                field { reset = $; } f[#] = 0; | default reset = $; field {} f[#]; |
                default reset = $; field { reset = 1; } f[#]; | default reset = $; field {} f[#] = 1;""")
            texts += [form.replace(b"#", b"%d" % width).replace(b"$", b"0x%x" % reset) for form in forms]
    several = each(b"""field F { reset = 2; }; field {} f; | field F { reset = 2; }; F f; |
        field F { reset = 2; }; F f[2], g = 1, h; | field F { reset = 2; }; F f[2], g = 1, h[5:4]; | field {} f = 1, g = 2; |
        field {} f[2] = 3, g[7:6] = 4; | field {} f[7:6] = 3; | field {} f[63:0] = 1; | field { reset = 0x10; } f[4]; |
        field { reset = 8'h0f; } f[4]; | field {} f[4] = 8'h10; | field { sw = na; } f = 2;""")
    return fill(REGISTER, [b"regwidth = 64; " + text for text in texts] + several)


def overlaps():
    """16: pairs and triples of fields that share a bit or do not, of each access."""
    accesses = each(b"na | rw | wr | r | w")
    bits = [pair.split() for pair in each(b"3:0 3:0 | 3:0 4:4 | 3:0 3:3 | 4:4 3:0 | 7:4 5:0 | 7:0 4:3 | 4:3 7:0")]
    texts = [b"field { sw = %s; } a[%s]; field { sw = %s; } b[%s];" % (one, left, two, right)
             for one, two in product(accesses, accesses) for left, right in bits]
    few = each(b"na | rw | r | w")
    texts += [b"field { sw = %s; } a[1:0]; field { sw = %s; } b[%s]; field { sw = %s; } c[%s];" % (one, two, second, three, third)
              for one, two, three in product(few, few, few)
              for second, third in ((b"0:0", b"0:0"), (b"0:0", b"1:1"), (b"2:2", b"1:1"))]
    texts += each(b"""default sw = r; field {} a; field { sw = w; } b[0:0]; | default sw = r; field {} a, b[0:0]; |
        field R { sw = r; }; field W { sw = w; }; R a[8]; W b[7:0]; |
        field R { sw = r; } a[4]; field W { sw = w; } b[3:0], c[3:3]; | field { sw = r; } a[40]; field { sw = w; } b[39:0]; |
        field R { sw = r; }; R a; R b[0:0]; | field { hw = r; } a; field { hw = w; } b[0:0]; |
        field { sw = r; } a; field { sw = w; } b[0:0]; field {} c; | field { sw = r; } a; field { sw = w; } b[0:0], c;""")
    return fill(REGISTER, texts) + fill(b"reg R { # }; " + MAP, texts[::7])


def one_place():
    """Several faults at one place: the smallest number wins."""
    instances = each(b"""field {} a; | reg { field {} f; } z; | field {} z; | field {} a, a; | field F {} z; | field F {}; F z; |
        field F {}; F a, a; | reg { field {} f; } a, a; | reg R { field {} f; }; R a, a; | field {} z = 5 @ 3; |
        reg { field {} f; } a; field {} a; | field F {}; reg R { field {} f; } a; F a; |
        field F {}; reg R { field {} f; }; R a; F b, a;""")
    in_register = each(b"field {} a; R a; | field F {} a, b; R b; | R a; F a; | F a; R b; | F a; R a; P a; | P a, a;")
    types = b"regfile P { reg { field {} f; } k; }; reg R { field {} f; }; field F {}; "
    settings = each(b"""foo; foo; | sw; sw; | sw = r; sw; | sw; | rclr; onread; | onread; rclr; | name; name; |
        name = "n"; name; | default sw = r; sw; | default foo; | default name; | default name = 5; | regwidth; |
        regwidth = 8; regwidth; | accesswidth = 64; accesswidth = 65; | default sw; default sw;""")
    braces = each(b"""reg {} a; | reg { accesswidth = 64; } a; | reg { accesswidth = 64; field { reset = 2; } f; } a; |
        reg { field { reset = 2; } f[33:33]; } a; | reg { accesswidth = 64; field {} f[32:32]; } a; |
        reg { field {} f[40], g[39:39]; } a; | reg { accesswidth = 8; field {} f[9], g[8:0]; } a; |
        reg { accesswidth = 8; field {} f[9]; } a; | reg { accesswidth = 8; field {} f[33]; } a; |
        reg { regwidth = 16; accesswidth = 32; field {} f[17], g[0:0] = 2; } a; |
        reg { field { sw = r; onwrite = wot; } f = 2; } a; | reg { field { sw = na; rclr; woclr; } f; } a; |
        reg { field F {}; accesswidth = 64; } a; |
        reg { regwidth = 8; accesswidth = 8; field { sw = r; } f[9]; field { sw = w; } g[8:0]; } a; |
        regfile { default sw = r; } a;""")
    return in_all(instances + settings + braces) + fill(WITHIN[ROOT], instances[:5]) + fill(types + WITHIN[REG], in_register)


FAULTY = each(b"""X q; | reg { field {} f; } z1, z1; | field t {}; field t {}; | foo; | default name = "x"; |
    name = "a"; name = "b"; | default rclr; default rset; | alignment = 3; | addressing = r; | desc; |
    reg { field {} f; } q0[0]; | reg { field {} f[5:6]; } q1; | field {} q2; | addrmap n {}; | reg {} q3; | reg R0 {}; |
    reg { field {} f; } q4 = 1; | reg { field {} f; } q5 += 4; | reg { field {} f; } q6 @ 0 %= 4; |
    reg { field { sw = r; woset; } f; } q7; | field L { sw = na; rclr; }; | reg { field {} f = 2; } q8; |
    reg { accesswidth = 64; field {} f; } q9; | reg { field {} f[33]; } p0; | reg { field {} f, g[0:0]; } p1; |
    reg { accesswidth = 8; field {} f[9]; } p2;""")
LAWFUL = each(b""" | name = "x"; | default hw = r; | reg { field {} f; } o; | field O {}; |
    regfile { reg { field {} f; } k; } o;""")


def several():
    """Two faults in one text: the first by its place, in one body and in bodies within each other."""
    texts = fill(WITHIN[ADDRMAP], joined(FAULTY, FAULTY[::2]) + joined(FAULTY[1::6], FAULTY[1::2]))
    nested = [b"regfile { reg { field {} f; } k; %s } p3; %s" % pair for pair in product(FAULTY[::3], FAULTY[1::3])]
    return texts + fill(WITHIN[ADDRMAP], nested + joined(LAWFUL, FAULTY, LAWFUL[3:4]))


def unused():
    """Definitions without an instance are judged, at the root and in the map, before and behind it."""
    faulty = [fault for fault in FAULTY if fault.startswith((b"reg", b"field"))]
    types = [b"regfile U { reg { field {} f; } z; %s };" % fault for fault in FAULTY]
    types += fill(b"reg U { field F { # }; field {} f; };", each(b"foo; | sw = 5; | rclr; sw = w; | reset = 5;"))
    return fill(WITHIN[ROOT], types) + fill(WITHIN[ADDRMAP], types) + fill(MAP + b" #", types + faulty)


def counts():
    """18 at a kind word: 256 definitions and more, named or not, wherever they stand, and other faults beside the 257th."""
    def fields(count):
        return b"".join(b"field f%d{};" % number for number in range(count))

    rest = b"addrmap m{reg{field{}f;}k;};"  # three definitions
    texts = [fields(count) + rest for count in (252, 253, 254, 256, 257)] + [rest + fields(count) for count in (253, 254)]
    texts += fill(b"addrmap m{reg{#}k;};", [b"field{}f;" + fields(count) for count in (253, 254)])
    texts += fill(b"addrmap m{reg{#}k;};", [b"".join(b"field{}f%d;" % number for number in range(count)) for count in (254, 255)])
    last = each(b"""addrmap n{}; | addrmap {} a; | field f0{}; | field g{foo;}; | reg g{}; | reg g{reg h{};}; | field g{}a; |
        field g{field h{};};""")
    texts += [rest + fields(253) + part for part in last] + [rest + fields(252) + part for part in last[-3:]]
    return texts + [fields(256), fields(257), fields(254) + b"addrmap m{reg{regfile p{};}k;};"]


def many():
    """Many instances in a body: 64 bits with a reader and a writer each, fields past every register, a long map."""
    def listed(count, letter=b"f"):
        return b",".join(letter + b"%d" % number for number in range(count))

    def each_bit(count, letter):
        return b",".join(b"%s%d[%d:%d]" % (letter, bit, bit, bit) for bit in range(count))

    registers = [b"field {} %s;" % listed(count) for count in (63, 64, 65, 300, 1500)]
    registers += [b"field { sw = r; } %s; field { sw = w; } %s; %s" % (each_bit(64, b"f"), each_bit(64, b"g"), more)
                  for more in (b"", b"field { sw = r; } h[63:63];", b"field { sw = na; } h[63:0];")]
    registers += [b"field {} %s, f%d;" % (listed(300), number) for number in (0, 1, 150, 299, 300)]
    return fill(REGISTER, [b"regwidth = 64; " + text for text in registers]) + [
        b"addrmap m { reg R { field {} f; } %s; };" % listed(count, b"k") for count in (1024, 1025, 3000)]


def spaced():
    """Faults among comments, which hold no words."""
    gaps = [b" /* } foo { */ ", b" // }; X q;\n", b"\r\n\t"]
    return [text.replace(b" ", gap) for text in fill(WITHIN[ADDRMAP], FAULTY[::2]) for gap in gaps]


EXAMPLES = [
    b"""field F { sw = r; rclr; }; addrmap m { default sw = w; addressing = compact; alignment = 8;
 reg R { regwidth = 64; accesswidth = 32; F a[4], b[9:8] = 3; field { onwrite = wot; } c[32:32]; } k, s[2] += 16;
 regfile { R t @ 0x10; } p[3] %= 64; };""",
    b"""reg R { default reset = 3; field F {}; F a[2], b[8] = 1; field G { reset = 1; } c; };
 regfile P { R k; reg R { field { sw = r; } d[7:0]; field { sw = w; } e[7:4]; accesswidth = 8; } s; R t; };
 addrmap m { P p; R q[4] @ 0; name = "m"; };""",
    b"""addrmap m { default rclr; default regwidth = 16; reg { default rset = false; desc = "d";
 field { sw = w; } a[15:8]; field { rset; } b[7:0]; } k;
 regfile T { default sw = r; reg T { field { } x[16]; field { sw = w; rclr = false; } y[0:0]; } u @ 4, v; } t, w0; T z; };""",
]


def others(previous, word, spelling):
    """What may take the place of a word of an example without breaking the grammar, mostly."""
    if word == b"name":
        return each(b"F | R | T | a | k | m | regwidth | nothing")
    if word.startswith(b"number="):
        return each(b"0 | 1 | 3 | 7 | 8 | 9 | 16 | 31 | 32 | 65 | 1025 | 4294967296")
    if spelling in KINDS:
        return KINDS
    if spelling in each(b"= | @ | += | %="):
        return each(b"= | @ | += | %=")
    if previous == b"=":
        return each(b"r | w | rw | na | rclr | wzt | false | compact | 8 | \"s\"")
    if word.startswith(b"keyword="):
        return each(b"sw | hw | rclr | rset | woset | reset | accesswidth")
    return each(b"; sw = r; | ; field {} q; | ; reg { field {} q; } q;") if spelling == b";" else []


def changed():
    """Whole examples with one word in the place of another."""
    texts = list(EXAMPLES)
    for text in EXAMPLES:
        previous = b""
        for word, start, end in all_tokens(text)[:-1]:
            spelling = text[start:end]
            texts += [text[:start] + other + text[end:] for other in others(previous, word, spelling) if other != spelling]
            previous = spelling
    return texts


# Lawful values that seldom break a rule together; the short forms have their own.
LAWFUL_VALUES = {
    b"sw": b"rw | rw | wr | r | w", b"hw": b"r | na", b"reset": b"0 | 0 | 1", b"onread": b"rclr | rset", b"onwrite": b"wot | wzc",
    b"regwidth": b"32 | 64 | 64 | 16", b"accesswidth": b"32 | 16", b"alignment": b"4 | 8", b"addressing": b"compact | fullalign",
    b"name": b'"n"', b"desc": b'"d"',
}


class Composer:
    """Composes small texts at random, from pieces that are mostly lawful: every so often a piece slips."""

    def __init__(self, seed, one_in):
        self.random = Random(seed)
        self.one_in = one_in
        self.names = 0
        self.types = [[]]

    def below(self, count):
        return int(self.random.random() * count)

    def pick(self, items):
        return items[self.below(len(items))]

    def slips(self):
        return self.below(self.one_in) == 0

    def name(self):
        self.names += not self.slips()
        return b"n%d" % self.names

    def text(self):
        types = [self.definition(self.pick([REGFILE, REG, FIELD]), 1, self.slips()) for _ in range(self.below(2))]
        maps = [self.definition(ADDRMAP, 0, self.slips()) for _ in range(1 + self.slips() - self.slips())]
        return b" ".join(types + maps)

    def definition(self, kind, depth, placed):
        """A definition with instances or with a name, of which few exist so that types hide each other, or with both."""
        named = not placed or self.below(3) == 0
        name = self.type_name() if named else b""
        self.types.append([])
        body = self.body(kind, depth)
        self.types.pop()
        if named:
            self.types[-1].append((name, kind))
        return b"%s %s { %s } %s;" % (kind, name, body, self.instances(kind) if placed else b"")

    def type_name(self):
        name = self.pick(each(b"A | B | C | D"))
        taken = any(name == other for other, _ in self.types[-1])
        return self.name() if taken and not self.slips() else name

    def body(self, kind, depth):
        if kind == FIELD and not self.slips():
            return b" ".join(self.settings(kind))
        parts = [self.element(kind, depth + 1)] if self.below(3) == 0 else []
        parts += [self.instance(kind, depth + 1) for _ in range(1 + self.below(2) * self.below(2) - self.slips())]
        for setting in self.settings(kind):
            parts.insert(self.below(len(parts) + 1), setting)
        return b" ".join(parts)

    def element(self, kind, depth):
        """A definition of a kind that may be defined here."""
        inner = self.pick(KINDS if self.slips() or kind == FIELD else DEFINED_IN[kind])
        inner = REG if inner == REGFILE and depth > 2 else inner
        return self.definition(inner, depth, inner in HELD_IN[kind] and self.below(2) or self.slips())

    def instance(self, kind, depth):
        """An instance of a type that is visible, or behind a definition."""
        inner = self.pick(KINDS if self.slips() or kind == FIELD else HELD_IN[kind])
        inner = REG if inner == REGFILE and depth > 2 else inner
        visible = [name for types in self.types for name, other in types if other == inner]
        if visible and self.below(3):
            return b"%s %s;" % (b"X" if self.slips() else self.pick(visible), self.instances(inner))
        return self.definition(inner, depth, True)

    def settings(self, kind):
        """Settings and defaults, each property once but for a slip."""
        listed = [(b"", name) for name in PROPERTIES if (kind in PROPERTY_TABLE[name].kinds or self.slips()) and self.below(8) == 0]
        if kind != FIELD:
            listed += [(b"default ", name) for name in PROPERTIES if PROPERTY_TABLE[name].sets in DEFAULTED and self.below(24) == 0]
        if not self.slips():
            listed = {(default, PROPERTY_TABLE[name].sets): (default, name) for default, name in listed}.values()
        return [b"%s%s%s;" % (default, name, self.value(name)) for default, name in listed]

    def value(self, name):
        if self.slips():
            return self.pick([b"", b" = " + self.pick(VALUES)])
        return b" = " + self.pick(each(LAWFUL_VALUES.get(name, b"true | false | false")))

    def instances(self, kind):
        return b", ".join(self.name() + self.suffix(kind) for _ in range(1 + self.below(2) * self.below(2)))

    def suffix(self, kind):
        if self.slips():
            return self.pick([b" = 2", b" @ 4", b" += 4", b" %= 3", b"[5:3]", b"[3:5]", b"[0]", b"[70]", b" @ 0 %= 8", b"[2] += 0"])
        if kind == FIELD:
            return self.pick([b"", b"", b"[2]", b"[4]", b"[8]", b"[%d:8]" % (8 + self.below(8)), b"[3] = 5", b" = 1"])
        return self.pick([b"", b"", b"[2]", b" @ 0x40", b"[3] += 32", b" %= 16"])


def composed():
    """Texts composed at random, with fixed seeds, with few slips and with many."""
    return [Composer(seed, 25 if seed % 2 else 75).text() for seed in range(1200)]


# --- the cases of sums ---

# Sums near the limits of a place of a number, and sums that an operator refuses.
SOUND = each(b"""(2) | 1 + 1 | 1 - 1 | 2 == 1 | 1 != 2 | (1 << 3) | 4 * 4 | 32 / 4 * 8 | 64 - 1 | 63 + 1 | 64 + 1 | 7 % 4 | 1 << 10 |
    (1 << 10) + 1 | 65536 - 1 | 65535 + 1 | 65536 * 2 | 4294967296 - 1 | (4294967295 + 1) | 1 << 63 | (1 << 63) - 1 + (1 << 63) |
    4'd15 + 1 | 8 & 12 ^ 2""")
REFUSED = each(b"""1/0 | (1 % 0) | 5 - 6 | 5 - 6 + 6 | 7 - (1/0) | (70 - ((1/0))) | 1 << 64 | 0 >> 64 | 3 << 63 | 0 / (1/0) |
    (5 - 6) / (1/0) | 18446744073709551615 + 1 | 4294967296 * 4294967296 | 1/0 == 1/0 | 70 * (1 << 60)""")
SUMS = SOUND + [b"8 | 16", b"3 | 1/0"] + REFUSED


def sum_values():
    """9: each property with each sum. A refused one is 9 at its operator, or at its first byte where no number is due."""
    return with_values(SUMS)


def sum_suffixes():
    """9: each suffix with each sum on each kind, beside 11 and other numbers; ranges of two sums, of which no refused one is judged."""
    templates = each(b"""[#] | = # | @ # | [2] += # | += # | %= # | [0] += # | [#] += 0 | @ 4 %= # | @ # %= 3 | [2] = # @ 4 | [#], b[0] |
        [0], b[#] | , a @ # | [#:0] | [3:#] | [70:#] | [(70):#] | [#:70] | [0:#] = 2""")
    few = [b"70", b"3", *SOUND[1::4], *REFUSED[::3]]
    texts = [text for kind in (REGFILE, REG, FIELD) for template in templates for text in suffixed(kind, fill(template, SUMS))]
    return texts + suffixed(FIELD, [b"[%s:%s]" % pair for pair in product(few, few)])


def sum_rules():
    """13 to 17, and where fields lie, by the values of sums."""
    texts = each(b"""field {} f[1 + 1] = 2 * 2; | field {} f[1 + 2] = 2 * 2; | field { reset = 1 << 4; } f[2 * 2]; |
        field { reset = 1 << 4; } f[5]; | default reset = 3 - 1; field {} f; | default reset = 3 - 2; field {} f; |
        default reset = 4; field {} f = 4 > 3; |
        regwidth = 4 * 8; accesswidth = 8 << 3; field {} f; | regwidth = 8 << 3; accesswidth = 64 / 2; field {} f[32:32 - 1]; |
        regwidth = 8 << 3; accesswidth = 64 / 2; field {} f[32 - 1:0]; | field {} f[30 + 2:30 + 1]; | field {} f[30 + 1:30]; |
        field {} f[2 * 2], g[3:4 - 1]; | field {} f[2 * 2], g[4:8 / 2]; | field {} f[31], g, h; | field {} f[3 * 10], g[2]; |
        default regwidth = 2 * 4; field {} f[8]; | field { sw = r; rclr; } f[4 * 2]; field { sw = w; } g[8 - 1:0]; |
        field {} f[64 - 1:0]; | regwidth = 4 * 16; field {} f[64 - 1:0] = (1 << 63) - 1 + (1 << 63);""")
    return fill(REGISTER, texts) + fill(b"addrmap m { default regwidth = 2 * 4; # };", fill(b"reg { # } k;", texts))


SUM_FAULTS = each(b"""reg { field {} f; } s0[1/0]; | reg { field {} f; } s1 @ 5 - 6; | reg { field {} f; } s2[2] += 1 % 0; |
    reg { field {} f; } s3 %= 1 << 64; | reg { field {} f[70:1/0]; } s4; | reg { field {} f[1/0], g[0:0]; } s5; |
    reg { field {} f = 5 - 6; } s6; | reg { field { reset = 3 << 63; } f; } s7; | reg { field { sw = 1/0; } f; } s8; |
    reg { regwidth = 1/0; field {} f[33]; } s9; | alignment = 1 % 0; | default reset = 7 - (1/0); | default regwidth = 0 >> 64; |
    reg { field {} f[9]; accesswidth = 2 * 9223372036854775808; } t0; | name = 1/0; | default rclr = 1 == 1; |
    reg { field {} f; } t1 = 1/0; | reg { field {} f; } t2[3:1/0]; | reg { field {} f; } t3 @ 4 %= 1/0; | field { reset = 1/0; } t4; |
    reg { default reset = 1/0; field {} f; } t5; | reg { field {} f[0:0], g[1/0:0]; } t6; | foo = 1/0; | X t7[1/0]; |
    reg { field {} f; } t8, t8[1/0]; | alignment = 8; alignment = 1/0;""")


def sum_faults():
    """Refused sums before and behind other faults and each other, in bodies of each kind and in unused definitions."""
    alone = SUM_FAULTS + fill(b"regfile U { # reg { field {} f; } z; };", SUM_FAULTS)
    texts = joined(SUM_FAULTS, FAULTY[::2]) + joined(FAULTY[1::2], SUM_FAULTS) + joined(SUM_FAULTS[::2], SUM_FAULTS[1::2])
    return in_all(alone) + fill(WITHIN[ROOT], alone) + fill(MAP + b" #", alone[::2]) + fill(WITHIN[ADDRMAP], texts)


def sum_stages():
    """The stages before go first: a 3 or an 18 of a sum behind any fault of a rule."""
    sums = [b"1 +", b"(1", b"a + 1", b"(" * 17 + b"1" + b")" * 17, b"(" * 16 + b"1" + b")" * 16, b"1/0 !"]
    behind = [form.replace(b"#", text) for text in sums for form in each(b"alignment = #; | reg { field {} f; } s0[#];")]
    return fill(WITHIN[ADDRMAP], joined(FAULTY[::4] + SUM_FAULTS[::5], behind))


def long_sums():
    """Sums of many operators, of which the last is refused or none, in each place of a number."""
    long = b"8" + b"+8-8" * 500
    sums = [long, long + b"/0", long + b"-9", b"0/(1/0+" + long + b")", long + b"*0"]
    bodies = each(b"alignment = #; reg { field {} f; } k; | reg { field {} f[#]; } k @ #; | reg { field { reset = #; } f; } k;")
    return [text for body in bodies for text in fill(b"addrmap m { %s };" % body, sums)]


# A number as a sum of the same value, and with an operator that refuses it.
SAME = [*each(b"(#) | # + 0 | 0 + # | # * 1 | #/1 | # << 0 | ((#) >> 0) | # & # | # ^ 0 | (# + 1) - 1 | # % (# + 1)"), b"0 | #"]
NONE = each(b"#/0 | 0 - # - 1 | # << 64 | # - (1/0) | (#) % 0")


def summed(text, seed):
    """The text with sums in place of half of its numbers, of which few are refused."""
    random = Random(seed)
    parts, behind = [], 0
    for word, start, end in all_tokens(text):
        if word.startswith(b"number=") and random.random() < 0.5:
            form = random.choice(NONE if random.random() < 0.05 else SAME)
            parts += [text[behind:start], form.replace(b"#", text[start:end])]
            behind = end
    return b"".join(parts) + text[behind:]


def numbers_changed():
    """The examples with each of some sums in place of each number, and with sums in place of many at once."""
    texts = [text[:start] + other + text[end:] for text in EXAMPLES
             for word, start, end in all_tokens(text) if word.startswith(b"number=")
             for other in each(b"(8) | 32 / 2 | 2 - 1 | 5 - 6 | 70 - (1/0) | 1 << 40")]
    return texts + [summed(text, seed) for text in EXAMPLES for seed in range(40)]


def sums_composed():
    """The texts composed at random, with sums in place of many numbers."""
    return [summed(text, seed) for seed, text in enumerate(composed())]


def halves():
    """17 by reading (request 2): counts within one part and across two, with an effect of their own, by a default, by a type, or none."""
    counts = [b"regwidth = %d; accesswidth = %d; field { # } f[%d:%d];" % (width, part, high, low)
              for width, part in ((64, 32), (64, 8), (16, 8))
              for high, low in ((part - 1, 0), (part, part - 1), (part, part), (width - 1, part - 2))]
    effects = each(b" | rclr; | rset; | onread = rclr; | onread = rset; | rclr = false; | rset = false;")
    own = joined([b"", b"sw = r;", b"sw = na;"], effects)
    texts = [text for count in counts for text in fill(REGISTER, fill(count, own))]
    defaults = each(b"default rclr; | default rset; | default onread = rset; | default rclr = false;")
    few = each(b"sw = r; | sw = r; rclr = false; | sw = r; rset; | sw = na; rset = false; |")
    under = [text for count in counts[:4] for text in fill(count, few)]
    texts += [b"addrmap m { %s reg { %s } k; };" % case for case in product(defaults, under)]
    used = each(b"""field F { sw = r; # }; reg { regwidth = 64; accesswidth = 32; F f[32:31]; } k; |
        field F { sw = r; # }; default rset; reg { regwidth = 64; accesswidth = 32; F f[32:31]; } k; |
        default sw = r; default rclr; field F { # }; reg { regwidth = 64; accesswidth = 32; F f[30:0], g[33]; } k; |
        default sw = r; regfile { default rset; reg { accesswidth = 16; field { # } f[17]; } k; } p; |
        default sw = r; reg { accesswidth = 16; default rclr; field { # } f[17]; } k; |
        default accesswidth = 8; reg { field { sw = r; # } f[8], g[8], h[9]; } k;""")
    return texts + fill(b"addrmap m { # };", [text for form in used for text in fill(form, [b"", b"rclr;", b"rset;", b"rclr = false;"])])


GROUPS = [classroom, kinds, held, missing_instances, maps, names, scopes, properties, twice, values, suffix_sets, suffix_numbers,
          effects, defaults, reach, widths, positions, resets, overlaps, one_place, several, unused, counts, many, spaced, changed,
          composed, sum_values, sum_suffixes, sum_rules, sum_faults, sum_stages, long_sums, numbers_changed, sums_composed, halves]


if __name__ == "__main__":
    write_cases("rule_cases", GROUPS, answer)
