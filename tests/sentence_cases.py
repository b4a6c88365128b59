#!/usr/bin/env python3
"""The cases of the sentence stage: writes crates/sentence_cases/stdin and the output that is due for it, its stdout.

The reader of sentences here is a second one, written from document 01, "Sentences", and the decisions on it, by an author who had
not read the crates `parts` and `syntax`. Its words come from the second lexer, tests/word_cases.py, its numbers from the second reader
of expressions, tests/expressions.py.
stdin: for each case a little-endian u32 length, then the text. stdout: for each case a line with the case's number and ` accepted`
or ` refused=N at=P`, by the words (1, 2, 4) or, if they pass, by the sentences (3, and 18 for a ninth open body or a 17th open
parenthesis).
"""
import expressions
from expressions import OPERAND, OPERATORS, Refused, mark
from word_cases import KEPT, MARKS, TEXT_LIMIT, all_tokens, verdict, write_cases

OPEN_BODIES = 8

# --- the reader of sentences ---


def keywords(words):
    return {b"keyword=" + word for word in words.split()}


NAME = {b"name"}
KIND = keywords(b"addrmap regfile reg field")
PROPERTY = NAME | keywords(b"sw hw rclr rset woclr woset")
ACCESS = keywords(b"na rw wr r w")
EFFECT = keywords(b"rclr rset woset woclr wot wzs wzc wzt wclr wset")
ADDRESSING = keywords(b"compact regalign fullalign")
WORD_VALUE = {b"string"} | keywords(b"true false") | ACCESS | EFFECT | ADDRESSING


class Reader(expressions.Reader):
    """Reads the tokens of a text, and refuses the first that no sentence continues with, or the brace of a ninth open body."""

    def __init__(self, tokens):
        super().__init__(tokens)
        self.open_bodies = 0

    def file(self):
        while not self.sees({b"end"}):
            self.definition()

    def definition(self):
        self.take(KIND)
        named = self.skip(NAME)
        self.body()
        if not named or self.sees(NAME):
            self.instances()
        self.take(mark(b";"))

    def body(self):
        brace = self.take(mark(b"{"))
        if self.open_bodies == OPEN_BODIES:
            raise Refused(18, brace)
        self.open_bodies += 1
        while not self.skip(mark(b"}")):
            self.element()
        self.open_bodies -= 1

    def element(self):
        if self.sees(KIND):
            self.definition()
        elif self.sees(NAME) and self.sees(NAME, ahead=1):
            self.take(NAME)
            self.instances()
            self.take(mark(b";"))
        else:
            self.property_statement()

    def property_statement(self):
        self.skip(keywords(b"default"))
        self.take(PROPERTY)
        if self.skip(mark(b"=")):
            self.value()
        self.take(mark(b";"))

    def value(self):
        if self.sees(OPERAND):
            self.expression()
        else:
            self.take(WORD_VALUE)

    def instances(self):
        self.instance()
        while self.skip(mark(b",")):
            self.instance()

    def instance(self):
        self.take(NAME)
        if self.skip(mark(b"[")):
            self.expression()
            if self.skip(mark(b":")):
                self.expression()
            self.take(mark(b"]"))
        for suffix in (b"=", b"@", b"+=", b"%="):
            if self.skip(mark(suffix)):
                self.expression()


def sentences_verdict(tokens):
    try:
        Reader(tokens).file()
    except Refused as refusal:
        return b"refused=%d at=%d" % refusal.args
    return b"accepted"


def answer(text):
    """All of a case's line but the case's number."""
    tokens = all_tokens(text)
    words = verdict(text, tokens[-1])
    return b" " + (sentences_verdict(tokens) if words == b"accepted" else words)


# --- the cases ---


def each(texts):
    """The texts between the bars, without the blanks around them."""
    return [text.strip() for text in texts.split(b"|")]


# What may stand in the place of a word: keywords, names that look like keywords, and what is no name.
WORDS = KEPT + MARKS + each(b"""x | name | desc | reset | onread | onwrite | regwidth | alignment | addressing | none | as | root |
    Boolean | 5 | 0x1F | 4'd5 | "s" | "" | """)

# Every construct of document 01, "Sentences", at least once.
EVERYTHING = b"""/* all */ addrmap m { name = "m"; default sw = rw; default rclr; hw; addressing = compact;
 reg t { regwidth = 8'd32; field { woset = true; onwrite = wzt; } f[4] = 0x1, g[9:8]; field {} h; field k {}; k l; } a, b[2] += 8;
 regfile { t c @ 0x10, d[3] = 1 @ 2 += 3 %= 4; } e %= 4; t u; };
"""
LISTING = b"""addrmap heron { reg { field { sw=r; rclr; } count[16] = 0;
 field { onwrite = wot; } lamp; } tally @ 0x10; };
"""


def in_body(elements):
    return [b"reg t { %s };" % element for element in elements]


def everywhere(statements):
    """Each statement at the root, in a body, and behind other elements of a body."""
    return statements + in_body(statements) + in_body(b"field {} f; T x; sw = r; " + statement for statement in statements)


def filled(places):
    """Each word at the place `#` of each text."""
    return [place.replace(b"#", word) for place in places for word in WORDS]


def blanks():
    """No sentence at all, and blanks behind the last sentence or behind an unfinished one."""
    gaps = [b"", b" ", b"\n\t\r ", b"// reg", b"// reg\n", b"/* reg */", b" /**/ // ; \r\n /* } */ "]
    texts = each(b"""| reg t {}; | reg | reg t | reg { | reg { } | reg t { } | reg t {} a | reg t {} a, | reg t {} a[ |
        reg t {} a[1 | reg t {} a @ | reg t { default | reg t { p | reg t { p = | reg t { p = 1 | reg t { T x | reg t { ;""")
    return [text + gap for text in texts for gap in gaps]


def root():
    """The root holds definitions alone."""
    others = each(b"reg a {}; field b {}; | reg a {} reg b {}; | reg a {};; | {} | {}; | { reg a {}; };")
    return filled(each(b"# | #; | # x; | # = 5; | # {}; | # x {}; | reg a {}; # reg b {};")) + others


def words_in_places():
    """Every word in the place of each word of a definition, a statement, a suffix."""
    definitions = each(b"""# a {}; | reg # {}; | reg # {} a; | reg t # }; | reg t { # | reg t {} #; | reg {} #; | reg {} a, #; |
        reg {} a # | reg {} a #; | reg t {}; #""")
    suffixes = each(b"[#] | [#:0] | [1:#] | [1 # 1] | [1 # | [1:0 # | = # | @ # | += # | %= # | = 1 # | %= 1 #")
    statements = each(b"""# | #; | # x; | # {} x; | # = 1; | T #; | T x #; | T x, #; | default #; | default # = 1; | p #; | p = #; |
        p = 1 #; | p = 1 # | sw #; | sw = #; | default p = #; | default p #; | p #""")
    return filled(definitions + [b"reg {} a %s;" % suffix for suffix in suffixes] + in_body(statements))


def statements():
    """Statements by their first two words, with and without `default`."""
    by_name = each(b"""T; | T = 5; | T x; | name x; | name = "x"; | T x = 5; | T T; | T x y; | T x = y; | T = x; | T 5; | T |
        T;T x;T=1;T x;""")
    by_keyword = each(b"sw; | sw = r; | sw x; | sw = r w; | sw sw; | sw = sw; | hw = none; | rclr = rclr; | rclr rset; | sw")
    by_default = each(b"| ; | x y; | reg; | reg {} x; | reg x {}; | default; | default x; | = 5; | {}; | 5; | ; default x;")
    others = each(b"""x default; | sw default; | ; | ;; | p;; | p = ; | p = = 1; | p = 1 = 1; | p = 1, q; | p, q; | p = -1; |
        p = {}; | p[1]; | p @ 1; | p += 1; | p %= 1;""")
    return everywhere(by_name + by_keyword + [b"default " + rest for rest in by_name + by_keyword + by_default] + others)


def definitions():
    """Definitions of each kind, with and without name, body, instances and semicolon."""
    forms = each(b"""# t {}; | # {} a; | # t {} a; | # t {} a, b; | # {}; | # { }; | # t {} | # {} | # {} a | # t; | #; | # | # t |
        # t a {}; | # t a; | # t = 5; | # t {} {}; | # t {} a {}; | # t {}; a; | # {}; a; | # t { {} }; | # t { p; } p; | # t } |
        # t {}}; | # t { };} | # t { | # t {; | # [2] {}; | # 5 {}; | # t { # u {}; # {} v; }; | # { p; # { q; } v; r; } w; |
        # t { # {}; }; | # # t {}; | # t {} # u {};""")
    return everywhere([form.replace(b"#", kind) for form in forms for kind in (b"addrmap", b"regfile", b"reg", b"field")])


def behind_heads(lists):
    """Each list of instances behind a named definition, an unnamed one, and a type's name."""
    return [head % listed for listed in lists for head in (b"reg t {} %s;", b"reg {} %s;", b"reg t { T %s; };")]


def instances():
    """Commas between instances, missing, doubled, leading, trailing."""
    return behind_heads(each(b"""a | a, b | a, b, c | a b | a b, c | a, b c | a,, b | a, b, | a, | , | , a | ,a,b | | a; b | a, b; |
        a,b[1],c=1,d@1 | a[1] b | a = 1 b | a, [1] | a,; b | a: b | a = b | (a) | a, 5 | a, reg | a, b {} | a {}"""))


def suffixes():
    """Each suffix, all of them in order, pairs in either order, repeated ones, and with a wrong number or mark."""
    one = each(b"[2] | [7:4] | = 5 | @ 0x10 | += 4 | %= 8")
    pairs = [first + b" " + second for first in one for second in one]
    several = each(b"""[2] = 5 @ 1 += 4 %= 8 | [7:4] = 5 @ 1 += 4 %= 8 | = 5 @ 1 += 4 %= 8 | [2] @ 1 += 4 %= 8 | [2] = 5 += 4 %= 8 |
        [2] = 5 @ 1 %= 8 | [2] = 5 @ 1 += 4 | =5@1+=2%=3 | [2] @ 1 = 5 += 4 %= 8 | [2] = 5 += 4 @ 1 %= 8 | [2] = 5 @ 1 %= 8 += 4 |
        %= 8 += 4 @ 1 = 5 [2] | [2] = 5 @ 1 += 4 %= 8 [2] | [2] = 5 @ 1 += 4 %= 8 %= 8""")
    ranges = each(b"""[] | [1:] | [:1] | [:] | [1:2:3] | [1::2] | [1 2] | [1,2] | [1 | 1] | [1]] | [[1] | [1;] | [a:1] | [1:a] |
        [2][3] | [2][3:1] | [3:1][2] | [-1] | [1=2] | ["1"] | [1:"1"] | [reg] | [1:na] | [4'd1:0x0]""")
    numbers = [b"%s %s" % (start, number) for start in (b"=", b"@", b"+=", b"%=")
               for number in each(b"""| x | "5" | true | na | 5 5 | = 5 | [5] | 4'd5""")]
    return behind_heads([b"a " + suffix + rest for suffix in one + pairs + several + ranges + numbers for rest in (b"", b", b")])


# Every place of a number.
NUMBER_PLACES = each(b"""reg {} a[#]; | reg {} a[#:0]; | reg {} a[1:#]; | reg {} a = #; | reg {} a @ #; | reg {} a += #; |
    reg {} a %= #; | reg {} a[#:#] = # @ # += # %= #, b[#]; | reg t { p = #; }; | reg t { default sw = #; T x @ #; };""")


def in_number_places(sums):
    return [place.replace(b"#", text) for text in sums for place in NUMBER_PLACES]


def sums():
    """Sums in each place of a number: each operator with and without its operands, parentheses, and what is no operand."""
    operators = [form.replace(b"#", operator) for operator in OPERATORS
                 for form in each(b"1 # 2 | 1#2#3 | 1 # | # 1 | 1 # # 2 | (1 # 2) | (1 #) | (1) # (2) | 1 # a")]
    texts = each(b"""(1 + 2) * (3 - 1) << 4 | ((1)) | () | ( | ) | (1 | 1) | (1)) | ((1) | )1( | (1) 2 | 1 (2) | (1)(2) | 1 2 | (1;) |
        (1]) | (1, 2) | (1:2) | (1 = 2) | (1) = 2 | 1 + ( | 1 + ) | 1 + ; | 1 + [2] | - 1 | -(1) | 1 - -1 | 1 = = 2 | 1 <<= 2 |
        1 + = 2 | 1 % = 2 | 1 += 2 | 1 %= 2 | (1 += 2) | (1 %= 2) | 1 @ 2 | (1 @ 2) | 1 == = 2 | 1 >>> 2 | 1 && 2 | 1 ** 2 | 1 -> 2 |
        0x10 + 4'd3 | 1 /* + */ 2 | 1 // + 2\n | 1 / /**/ 2""")
    no_numbers = each(b"""a | reset | "s" | true | false | rw | r | wot | compact | reg | sw | default""")
    no_operands = [form.replace(b"#", word) for word in no_numbers
                   for form in each(b"(#) | 1 + # | # + 1 | (# + 1) | # # | # (1) | # * | 1 # 2")]
    return in_number_places(operators + texts + no_operands)


def open_parentheses():
    """15 to 18 open parentheses in each place of a number, each place counted alone; a 3, and a ninth body, beside the 17th."""
    texts = []
    for count in (15, 16, 17, 18):
        opening, closing = b"(" * count, b")" * count
        whole = opening + b"1" + closing
        texts += [whole, whole[:-1], whole + b")", b"1 + " + whole, whole + b" - " + whole, b"(1 + " * count + b"1" + closing]
        texts += [opening, opening + closing, opening + b"1", opening + b"a", opening[1:] + b"a (", opening[1:] + b"-("]
        texts += [b"1 " + opening, b"a " + opening]
    inside = each(b"p = #; | T x @ #; | p = #; reg { | reg {} x; p = #; | reg { p; } x @ #;")
    bodies = [text.replace(b"#", b"(" * count + b"1" + b")" * count) for depth in (7, 8, 9) for count in (16, 17)
              for case in inside for text in nested(depth, case)]
    return in_number_places(texts) + bodies


def nested(bodies, inside):
    return [opening * bodies + inside + closing * bodies for opening, closing in ((b"reg n {", b"};"), (b"reg {", b"} x;"))]


def open_bodies():
    """Eight and nine open bodies, and a 3 beside the ninth."""
    texts = [text for depth in (1, 7, 8, 9, 10, 64) for text in nested(depth, b"")]
    texts += [b"reg a {}; " + text + text + ninth for text, ninth in zip(nested(8, b""), nested(9, b""))]
    inside = each(b"""field {} f; | field f {}; | field f {} g; | field {} f; field {} g; | reg {} a; reg b {}; T x; |
        p; T x; default sw = r; field {} f; | field | field f | field { | field f { | field ; | field f; | field = { | field f f { |
        field } { | field {} { | field {}; | ; field {} f; | field { ; } f; | field {} ; f | 5 field {} f; | T x y; field {} f; |
        p = x; reg {} f; | reg reg { | reg sw { | { | { { | p { | T x { | default { | p = { | } | }; | } field {} f; |
        }; field {} f; | } x; field {} f; ;""")
    return texts + [text for case in inside for depth in (6, 7, 8) for text in nested(depth, case)]


def later_stages():
    """What later stages refuse keeps the grammar: types, properties, values and counts are not judged here."""
    texts = each(b"""reg t {}; reg t {}; | field f { reg t { addrmap m {}; }; }; | field {} f @ 1 %= 3; | reg {} a[0]; |
        reg {} a[1:2]; | addrmap m { nothing known; frob = compact; sw = 5; sw; sw; }; | reg t { field {} f[18446744073709551615]; };""")
    return texts + [b"reg t {};" * count for count in (255, 256, 257, 1000)] + in_body([b"field {} f;" * 300])


def order():
    """A bad word goes before every sentence, and a text above 65,536 bytes before both."""
    bad = each(b"""; # | reg {} alias | reg t {}; 0x | 5 5 5 " | T x; /* | reg t {} a[1] [2] mem;""")
    long_texts = [(b"reg t { " + b"T x, y; p = 1;" * 5000)[:TEXT_LIMIT], (b"reg t { T x; };" * 4000).ljust(TEXT_LIMIT)]
    return bad + long_texts + [b";".ljust(length) for length in (TEXT_LIMIT, TEXT_LIMIT + 1)]


def changed():
    """Two whole examples, cut off behind each word, and with each word removed, doubled, or another in its place."""
    others = each(b'x | 7 | "s" | ; | , | { | } | = | [ | reg | default | sw | true')
    cases = [EVERYTHING, LISTING]
    for text in (EVERYTHING, LISTING):
        for _, start, end in all_tokens(text)[:-1]:
            before, word, behind = text[:start], text[start:end], text[end:]
            cases += [before + word, before + word + b" \n"]
            cases += [before + b" %s " % other + behind for other in (b"", word + b" " + word, *others)]
    return cases


GROUPS = [blanks, root, words_in_places, statements, definitions, instances, suffixes, sums, open_parentheses, open_bodies, later_stages,
          order, changed]


if __name__ == "__main__":
    write_cases("sentence_cases", GROUPS, answer)
