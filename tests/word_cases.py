#!/usr/bin/env python3
"""The cases of the word stage: writes crates/word_cases/stdin and the output that is due for it, crates/word_cases/stdout.

The lexer here is a second one, written from document 01, "Words", the marks of request 1 and the decisions on both, with regular
expressions; its author had read the crate `lex`, so it checks slips and not readings. (The readings are checked by the conformance
vectors.)
stdin: for each case a little-endian u32 length, then the text. stdout: for each case a line with the case's number, the first
tokens as ` KIND[=VALUE]@START-END`, ` tokens=N` and ` accepted` or ` refused=N at=P`.
"""
import pathlib
import re
import string
import struct
import sys
from itertools import product

SHOWN_TOKENS = 12
TEXT_LIMIT = 65536
NAME_LIMIT = 31
STRING_LIMIT = 4096

KEPT = b"""addrmap regfile reg field default sw hw rclr rset woclr woset true false na rw wr r w wot wzs wzc wzt wclr wset
    compact regalign fullalign""".split()
LEFT_OUT = b"""abstract accesstype addressingtype alias all bit boolean bothedge component componentwidth constraint encode enum
    external inside internal level longint mem negedge nonsticky number onreadtype onwritetype posedge property ref ruser rw1
    signal string struct this type unsigned w1 wuser""".split()
KEYWORDS = KEPT + LEFT_OUT
PROPERTIES = b"""sw hw reset onread onwrite rclr rset woclr woset regwidth accesswidth alignment addressing name desc""".split()
MARKS = b"{ } [ ] ; : , = @ += %= ( ) * / % + - << >> < <= > >= == != & ^ |".split()

# --- the lexer ---

BLANKS = re.compile(rb"([ \t\r\n]|//[^\r\n]*|/\*.*?\*/)*", re.DOTALL)
NAME = re.compile(rb"[A-Za-z_][A-Za-z0-9_]*")
NUMBER = re.compile(rb"[0-9][A-Za-z0-9_']*")  # with all that may not follow a number directly
STRING = re.compile(rb'".*?(?<!\\)"', re.DOTALL)
UNCLOSED = re.compile(rb'("|/\*).*', re.DOTALL)
MARK = re.compile(b"|".join(re.escape(mark) for mark in sorted(MARKS, key=len, reverse=True)))

DECIMAL = re.compile(rb"[0-9]+")
HEX = re.compile(rb"0[xX]([0-9A-Fa-f]+)")
WIDTH_FORM = re.compile(rb"([0-9]+)'(b[01][01_]*|d[0-9][0-9_]*|h[0-9A-Fa-f][0-9A-Fa-f_]*)")
RADIX = {b"b": 2, b"d": 10, b"h": 16}


def number_word(word):
    """`number=N`, or what is wrong with the word."""
    width, radix, digits = 64, 10, word
    if match := HEX.fullmatch(word):
        radix, digits = 16, match[1]
    elif match := WIDTH_FORM.fullmatch(word):
        width, radix, digits = int(match[1]), RADIX[match[2][:1]], match[2][1:]
    elif not DECIMAL.fullmatch(word):
        return b"bad=malformed"
    if not 1 <= width <= 64:
        return b"bad=malformed"
    value = int(digits.replace(b"_", b""), radix)
    return b"number=%d" % value if value < 2**width else b"bad=toowide"


def name_word(word):
    if len(word) > NAME_LIMIT:
        return b"bad=malformed"
    if word in LEFT_OUT:
        return b"bad=leftout"
    return b"keyword=" + word if word in KEPT else b"name"


def string_word(word):
    return b"string" if len(word) - 2 <= STRING_LIMIT else b"bad=malformed"


def unclosed_word(_):
    return b"bad=unclosed"


def mark_word(word):
    return b"mark=" + word


READERS = [(NAME, name_word), (NUMBER, number_word), (STRING, string_word), (UNCLOSED, unclosed_word), (MARK, mark_word)]


def next_token(text, at):
    """The token at a place: its word, its first byte's place, the place past its last byte."""
    start = BLANKS.match(text, at).end()
    if start == len(text):
        return b"end", start, start
    for form, word in READERS:
        if match := form.match(text, start):
            return word(match[0]), start, match.end()
    return b"bad=malformed", start, start + 1


def all_tokens(text):
    """The tokens up to the first that is the end or bad."""
    tokens = [next_token(text, 0)]
    while tokens[-1][0] != b"end" and not tokens[-1][0].startswith(b"bad="):
        tokens.append(next_token(text, tokens[-1][2]))
    return tokens


def verdict(text, last_token):
    word, start, _ = last_token
    if len(text) > TEXT_LIMIT:
        return b"refused=1 at=0"
    if word == b"end":
        return b"accepted"
    return b"refused=%d at=%d" % (4 if word == b"bad=leftout" else 2, start)


def answer(text):
    """All of a case's line but the case's number."""
    tokens = all_tokens(text)
    shown = b"".join(b" %s@%d-%d" % token for token in tokens[:SHOWN_TOKENS])
    return shown + b" tokens=%d " % len(tokens) + verdict(text, tokens[-1])


# --- the cases ---

EVERY_BYTE = [bytes([byte]) for byte in range(256)]
NAME_BYTES = (string.ascii_letters + string.digits + "_").encode()


def classroom():
    """Classroom sum 10."""
    return [b"", b"4'd15", b"4'd16", b"4'3"]


def bytes_after():
    """Each byte alone, and behind the beginnings of each kind of word."""
    beginnings = [b"", b"a", b"1", b"0x", b"4'", b"4'b", b"4'd", b"4'h"] + b"( ) * / % + - < > = ! & ^ | ~ << >> != ==".split()
    return [beginning + byte for beginning in beginnings for byte in EVERY_BYTE]


def keyword_words():
    """The keywords and properties, and words that are nearly keywords."""
    cases = KEYWORDS + PROPERTIES
    cases += [b"as in id root Boolean abstracts", b" ".join(PROPERTIES), b" ".join(KEPT), b" ".join(KEPT[::-1])]
    for word in KEYWORDS:
        cases.append(b" ".join(word[:i] + word[i:i + 1].swapcase() + word[i + 1:] for i in range(len(word))))
        cases += [word.upper(), word + b"s", b"s" + word, b"_" + word, word + b"_", word + b"1", word[1:], word[:-1]]
        cases += [word + b"{", word + b'"' + word + b'"', b"reg " + word + b"/*" + word + b"*/;"]
    return cases


def names():
    """Names, their limit on both sides, and bytes that end a name."""
    cases = [b"a", b"Z9", b"_", b"__0", b"a b", b"a.b", b"a-b", b"a'b", b"a\x00b", b"a\xe9", b"a\\b", b"\xef\xbb\xbfreg"]
    for first in (b"a", b"_", b"r"):
        for rest in (b"z", b"9", b"_"):
            cases += [first + rest * (length - 1) for length in (NAME_LIMIT - 1, NAME_LIMIT, NAME_LIMIT + 1)]
    return cases + [b"ok " + b"n" * 31 + b" " + b"n" * 32 + b" after", b"reg" * 10 + b"r", b"reg" * 10 + b"re", b"n" * 256]


def spelled(value):
    """A value in each form of a number."""
    return [b"%d" % value, b"0x%x" % value, b"0X%X" % value, b"64'd%d" % value, b"64'h%x" % value, b"64'b" + f"{value:b}".encode()]


def numbers():
    """Numbers, and their limits on both sides."""
    cases = [word for value in (0, 1, 9, 10, 255, 2**32, 2**63, 2**64 - 1, 2**64, 2**65 - 1, 10 * 2**64) for word in spelled(value)]
    for zeros in (1, 20, 300, 5000):
        cases += [b"0" * zeros + word for value in (7, 2**64 - 1, 2**64) for word in (b"%d" % value, b"64'd%d" % value)]
        cases += [head + b"0" * zeros + b"%x" % value for value in (7, 2**64 - 1, 2**64) for head in (b"0x", b"0X", b"64'h")]
    return cases + widths() + underscores() + malformed_numbers() + number_neighbours()


def widths():
    """Widths, and values against them."""
    cases = [b"%d'%c0" % (width, radix) for width in (0, 1, 2, 63, 64, 65, 66, 99, 640, 2**32, 2**64, 2**64 + 4) for radix in b"bdh"]
    for width in (1, 2, 3, 4, 8, 31, 32, 33, 63, 64):
        for value in (2**width - 1, 2**width):
            cases += [b"%d'd%d" % (width, value), b"%d'h%X" % (width, value), b"%d'b" % width + f"{value:b}".encode()]
    return cases + [b"04'd5", b"00064'd5", b"00065'd5", b"00'd5", b"4'd0016", b"4'd0015", b"65'd%d" % 2**64, b"4'd%d" % 2**64]


def underscores():
    """Underscores, where they may stand and where not."""
    words = b"""1_0 1_ _1 1__0 0x1_0 0x_1 0x1_ 0_x1 4_'d5 4'_d5 4'd_5 4'd5_ 4'd5__ 4'd1_5 4'd1_6 4'd1__5 4'd_ 4'b_1 4'b1_1__1_
        4'h_f 4'hf_ 8'hf__f_ 8'h_ 6_4'd1 64'd1_8_4_4_6_7_4_4_0_7_3_7_0_9_5_5_1_6_1_5_ 64'hffff_ffff_ffff_ffff 1_'d1""".split()
    return words + [b"64'd0" + b"_" * 70 + b"1", b"64'b1" + b"_1" * 63, b"64'b1" + b"_1" * 64]


def malformed_numbers():
    """Missing and foreign digits, letters behind numbers, blanks inside them; hex digits in either case."""
    words = b"""0x 0X 0xg 0xG 0x' 00x1 1x1 0b1 0d1 0h1 0o7 12ab 1a 1A 1_ 12' 12'' 4'b 4'd 4'h 4'D5 4'B1 4'H5 4'o7 4'x 4'3 4'b2 4'b12
        4'b1012 4'da 4'd1a 4'hg 4'h1g 4'd5d 4'd5'd5 0x4'd5 0x10'h5 4'0x5 4'd0x5 4'h0x5 a'd5 0xffgg 1.5 1e5 64'sd5
        18446744073709551616x 18446744073709551616_ 18446744073709551616' 4'd99x""".split()
    either_case = [b"0xaAfF", b"0XaAfF", b"16'haAfF", b"16'hABCDEF", b"0xabcdefABCDEF"]
    return words + either_case + [b"4 'd5", b"4' d5", b"4'd 5", b"0 x5", b"0x 5", b"4/**/'d5", b"'d5", b"'", b"-1", b"+1"]


def number_neighbours():
    """What stands directly behind a number, or before it."""
    behind = [b'"s"', b'"', b" a", b"//", b"/**/a", b".", b"\\", b"\xff", b"!", b"~1", b"/*"]
    behind += MARKS + [mark + b"2" for mark in MARKS]
    before = [b'"s"7', b"a 7", b"]7", b"}0x1", b"a7", b"=4'd5;"]
    return [number + rest for number in (b"7", b"0xF", b"4'd5_") for rest in behind] + before


def strings():
    """Strings, quotes behind backslashes, and the limit on both sides."""
    backslash = [b'"' + b"\\" * n + rest for n in range(5) for rest in (b"", b'"', b'""', b'" "', b'a"', b'"a"', b'"\\"')]
    inside = [b"", b"a", b" ", b"\n", b"\r\n", b"\t", b"//", b"/*", b"*/", b"'", b"\x00", b"\x7f", b"\x80", b"\xff", b"\xef\xbb\xbf"]
    every = b"".join(byte for byte in EVERY_BYTE if byte != b'"')
    cases = backslash + [b'"' + part + end for part in inside + [every, every[::-1]] for end in (b'"', b"", b'";')]
    for length in (STRING_LIMIT - 1, STRING_LIMIT, STRING_LIMIT + 1):
        cases += [b'"' + b"s" * length + end for end in (b'"', b'" a', b"")]
        cases += [b'"' + b'\\"' * (length // 2) + b"s" * (length % 2) + b'"']
    return cases + [b'""', b'"""', b'""""', b'"a""b"', b'a"b"c', b'"a"b"', b'name="x";', b'x "open', b'"\\', b'"a" "b\\" "c"', b'\\"a"']


def comments():
    """Blanks and both comment kinds, closed or not."""
    cases = [b" ", b"\t", b"\r", b"\n", b" \t\r\n" * 3, b"\x0b", b"\x0c", b"a\x0cb", b"\xa0", b"a\tb\rc\nd e"]
    for end in (b"", b"\n", b"\r", b"\r\n", b"\na", b"\ra", b"\x0ba", b"\x0ca", b"\x00a", b"\n\xff", b"\r\xff"):
        cases += [start + end for start in (b"//", b"// x", b"///", b"//*", b"a//b", b"//\"", b"// \xff\x00\x7f", b"//\\")]
    bodies = [b"", b"*", b"**", b"/", b"//", b" ", b"x", b"\n", b"\"", b"'", b"/*", b"/* /*", b"* /", b"*\\/", b"\x00\x7f\xff", b"\\"]
    for body in bodies + [b"".join(EVERY_BYTE)]:
        cases += [b"/*" + body + end for end in (b"*/", b"", b"*", b"/", b"*/a", b"*/*/", b"**/ abstract")]
    cases += [b"/", b"/*/", b"/**/", b"/*/*/", b"/***/", b"/*/ /*/", b"a/", b"a/b", b"a /", b"/ /", b"/ *", b"/ * */", b"*/", b"a/*"]
    cases += [b"a /* b", b"a/**/b", b"1/**/2", b"re/**/g", b"/**//**/a//x\n/*y*/b", b"\"s\"/*", b"*", b"//" + b"".join(EVERY_BYTE)]
    cases += [b"8//2\n/2", b"8/ /2", b"8/ *2", b"8*/2", b"8/**/ /2", b"8/***//2", b"8 / /*x*/ 2", b"8/ /*", b"(/**/)", b"</**/<"]
    return cases + [b">//\n="]


def marks():
    """Marks, the longest first, each two next to each other, each three bytes of which a longer one is made; and what is no mark."""
    pairs = [left + right for left in MARKS for right in MARKS]
    threes = [bytes(three) for three in product(b"<>=!+%/*", repeat=3)]
    others = b"""# . ` \\ ' ! ~ ? $ && || ** -> <<<< >>>> <<<<= >>>>= ==== !=== !!= ~= a.b a?b:c ~1 !1 1! !(1) 1&&2 2**3 a+=b a%=b @4+=8
        5%3 x->y sw==r ((1+2)*3)<<4>=5!=6 1<<2>>3""".split()
    parted = [b"+ =", b"% =", b"< <", b"> >", b"< =", b"> =", b"= =", b"! =", b"5 %=3", b"5 % 3", b"4 + = 8", b"0x100 + 4*3"]
    return pairs + threes + others + parted + [b"".join(MARKS), b" ".join(MARKS), b" ".join(MARKS[::-1])]


def order():
    """The first bad word of the text, whatever its sentences say."""
    sentence = b"addrmap m { reg { field {} f; } r; };"
    bad = [b"0x", b"alias", b"#", b"\"", b"/*", b"n" * 32, b"4'd16", b"65'd1", b"!"]
    cases = [first + b" " + second for first in bad for second in bad]
    cases += [sentence, sentence + sentence, b"} } ; ; 5 " + sentence]
    return cases + [before + word + b" ;" for word in bad for before in (sentence, b"} { ; 5 = ", b"reg reg reg ", b"mine " * 13)]


def long_texts():
    """Texts of 65,536 and 65,537 bytes: the second are refused as too long, whatever their words."""
    cases = []
    for length in (TEXT_LIMIT, TEXT_LIMIT + 1):
        cases += [b" " * length, b"a" * length, b"/*" + b"*" * (length - 3) + b"/", (b"a;" * length)[:length]]
    return cases + [b"#" + b" " * TEXT_LIMIT]


def near_keywords():
    """Near misses of each keyword: words of its length and first byte with one other byte changed, and its other bytes behind each first
    byte of a keyword of its length. The words of one text are all shown; those that are keywords, as `wzc` beside `wzs`, stand alone."""
    cases = []
    for word in KEYWORDS:
        near = [[word[:i] + bytes([byte]) + word[i + 1:] for byte in other_name_bytes(word[i])] for i in range(1, len(word))]
        near.append([first + word[1:] for first in sorted({other[:1] for other in KEYWORDS if len(other) == len(word)})])
        for words in near:
            cases.append(b" ".join(other for other in words if other not in KEYWORDS))
            cases += [other for other in words if other in KEYWORDS and other != word]
    return [case for case in cases if case]


def other_name_bytes(byte):
    """Some other bytes that a name may have: the two beside this one, the other case, and some far away."""
    others = {byte - 1, byte + 1, byte ^ 32, *b"aezAZ_09"} - {byte}
    return sorted(others & set(NAME_BYTES))


GROUPS = [classroom, bytes_after, keyword_words, names, numbers, strings, comments, marks, order, long_texts, near_keywords]


def write_cases(program, groups, answer):
    """Writes a program's stdin and the stdout that is due for it; `answer` gives all of a case's line but its number."""
    cases = [text for group in groups for text in group()]
    crate = pathlib.Path(__file__).resolve().parent.parent / "crates" / program
    (crate / "stdin").write_bytes(b"".join(struct.pack("<I", len(text)) + text for text in cases))
    (crate / "stdout").write_bytes(b"".join(b"%d" % number + answer(text) + b"\n" for number, text in enumerate(cases)))


def main():
    if hasattr(sys, "set_int_max_str_digits"):
        sys.set_int_max_str_digits(0)
    write_cases("word_cases", GROUPS, answer)


if __name__ == "__main__":
    main()
