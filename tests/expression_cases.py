#!/usr/bin/env python3
"""The cases of constant expressions: writes crates/expression_cases/stdin and the output that is due for it, its stdout.

The reader of expressions here is the second one, tests/expressions.py, over the second lexer, tests/word_cases.py.
stdin: for each case a little-endian u32 length, then the text. stdout: for each case a line with the case's number and
` value=V place=P next=N`, ` refused=OPERATOR place=P next=N` or ` stop=NUMBER at=P`.
"""
from itertools import product
from random import Random

from expressions import OPERATORS, Reader, Refused, Word, joined
from word_cases import all_tokens, write_cases


def answer(text):
    """All of a case's line but the case's number."""
    tokens = all_tokens(text)
    reader = Reader(tokens)
    try:
        number = reader.expression()
    except Refused as refusal:
        return b" stop=%d at=%d" % refusal.args
    shown = b" refused=%d" % number.refused_at if number.content is None else b" value=%d" % number.content
    return shown + b" place=%d next=%d" % (number.place, tokens[reader.at - 1][2])


# --- the cases ---

SMALL = (0, 1, 2, 3, 4, 5, 6, 7, 8, 64)
LIMITS = (0, 1, 2, 3, 63, 64, 65, 2**32 - 1, 2**32, 2**63, 2**64 - 2, 2**64 - 1)


def mixed(numbers, operators):
    """Numbers with an operator between each two."""
    return b"%d" % numbers[0] + b"".join(b" %s %d" % pair for pair in zip(operators, numbers[1:]))


def grouped(numbers, operators):
    """What numbers with operators between them give, once for each way to group them."""
    if not operators:
        return [Word(numbers[0], 0)]
    return [joined(left, b"mark=" + operators[last], 0, right) for last in range(len(operators))
            for left in grouped(numbers[:last + 1], operators[:last])
            for right in grouped(numbers[last + 1:], operators[last + 1:])]


def one_operator():
    """Each operator between numbers near the limits."""
    return [mixed(pair, [operator]) for operator in OPERATORS for pair in product(LIMITS, repeat=2)]


def two_operators():
    """Each two operators over three small numbers, which tell their groupings apart where small numbers can."""
    return [mixed(three, pair) for pair in product(OPERATORS, repeat=2) for three in product((0, 3, 64), repeat=3)]


def telling(operators, random):
    """Small numbers for which the groupings differ, the best of some choices."""
    choices = [[random.choice(SMALL) for _ in range(len(operators) + 1)] for _ in range(16)]
    return max(choices, key=lambda numbers: len({word.content for word in grouped(numbers, operators)}))


def three_operators():
    """Each three operators, over small numbers that tell most of the groupings apart."""
    random = Random(3)
    return [mixed(telling(three, random), three) for three in product(OPERATORS, repeat=3)]


def refused():
    """Refused parts before, behind and within what is not judged over them; parentheses move the place."""
    texts = b"""1/0 (1/0) ((1/0)) 7-(1/0) 7-1/0 5-6+6 3<<63 0>>64 1<<64 (1/0)-(5-6) (5-6)-(1/0) 0/(1/0) 0/(0/(0/0)) 9-(8-(7-(1%0)))
        1/0<<64 1<<(64+1/0) (5-6)/0 18446744073709551615*(5-6) 2*9223372036854775808 18446744073709551615+1 1/0==1/0 0&1/0 0*(1/0)
        1|1/0 4'd15+1 1-1 (1) (1)+(1) ((1)+1) 0x10-16 64'hffff_ffff_ffff_ffff/1 (3-2)-1 3-(2-1) 3-(1-2)""".split()
    return texts + [b" " + text.replace(b"/", b" /**/ / ") + b" ;" for text in texts]


def ends():
    """What may not stand in an expression, and what ends one."""
    before = b"1 1+ ( (1 (1+ (1) (1)+ 1+( 1-(2)".split() + [b""]
    behind = b"""; ] : , = += %= @ { } [ ( ) 2 a sw "s" ! ~ ? # . 2+ 2) + - * ** && || >>> === !== <<= -> // /* /**/ 0x 4'd16""".split()
    return [one + gap + two for one in before for two in [b"", *behind] for gap in (b"", b" ")]


def parentheses():
    """Up to 16 open parentheses and above, in one operand, beside each other, on either side."""
    texts = []
    for count in (15, 16, 17, 18):
        left, right = b"(" * count, b")" * count
        whole = left + b"1" + right
        texts += [whole, whole[:-1], whole + b")", whole + b"*" + whole, b"(" + whole[1:-1] + b"+" + whole[1:], left, left[1:] + b"+" + left]
        texts += [left + b"1/0" + right, b"1+" + left + b"2*3" + right + b"-1", b"(1+" * count + b"1" + right, left + b"1" + b"+1)" * count]
    return texts


def long_sums():
    """Long texts of one operator, of all, and in parentheses."""
    in_parentheses = b"(" * 16 + b"1" + b"*1" * 16000 + b")" * 16
    return [b"1" + b"+1" * 32000, b"1" + b"|1" * 24000, in_parentheses, b"9" + b"1".join(OPERATORS * 200) + b"1"]


class Composer:
    """Composes expressions at random, with a slip every so often."""

    def __init__(self, seed):
        self.random = Random(seed)

    def chance(self, one_in):
        return self.random.randrange(one_in) == 0

    def number(self):
        if self.chance(4):
            return self.random.choice([b"%d" % limit for limit in LIMITS] + [b"0x1F", b"4'd15", b"8'hfF", b"3'b1_01"])
        return b"%d" % self.random.randrange(9)

    def operand(self, depth):
        return b"(" + self.text(depth - 1) + b")" if depth and self.chance(4) else self.number()

    def operator(self):
        return self.random.choice(b"+= %= ** ! ( ) a ;".split() if self.chance(40) else OPERATORS)

    def text(self, depth=3):
        words = [self.operand(depth)]
        for _ in range(self.random.choice([0, 1, 1, 2, 3, 5])):
            words += [self.operator(), self.operand(depth)]
        return b"".join(word + self.random.choice([b"", b" "]) for word in words)


def composed():
    """Expressions composed at random, with fixed seeds, and what ends them."""
    return [Composer(seed).text() + (b"", b";", b" ]", b" = 3", b")")[seed % 5] for seed in range(2500)]


GROUPS = [one_operator, two_operators, three_operators, refused, ends, parentheses, long_sums, composed]


if __name__ == "__main__":
    write_cases("expression_cases", GROUPS, answer)
