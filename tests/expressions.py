"""The second reader of constant expressions (request 1), which the makers of expression, sentence and rule cases share.

It reads the tokens of the second lexer, tests/word_cases.py, by precedence climbing, where the proved one goes row by row; its author
had read that one, so it checks slips and not readings.
"""
import operator
from collections import namedtuple

OPEN_PARENTHESES = 16

# A word of a text: a number's content is its value, or None if the operator at a place refuses it, any other word's its spelling.
Word = namedtuple("Word", "content place refused_at", defaults=[None])


class Refused(Exception):
    """The first refusal: its number and place."""


def mark(spelling):
    return {b"mark=" + spelling}


NUMBER = {b"number"}
OPERAND = NUMBER | mark(b"(")
DIVISION = mark(b"/") | mark(b"%")
SHIFT = mark(b"<<") | mark(b">>")

# The operators row by row, the tightest first.
ROWS = [
    {b"*": operator.mul, b"/": operator.floordiv, b"%": operator.mod},
    {b"+": operator.add, b"-": operator.sub},
    {b"<<": operator.lshift, b">>": operator.rshift},
    {b"<": operator.lt, b"<=": operator.le, b">": operator.gt, b">=": operator.ge},
    {b"==": operator.eq, b"!=": operator.ne},
    {b"&": operator.and_},
    {b"^": operator.xor},
    {b"|": operator.or_},
]
OPERATORS = [spelling for row in ROWS for spelling in row]
MEANING = {b"mark=" + spelling: function for row in ROWS for spelling, function in row.items()}
TIGHTNESS = {b"mark=" + spelling: -number for number, row in enumerate(ROWS) for spelling in row}
LOOSEST = -len(ROWS)


def result(word, left, right):
    """What an operator gives between two values, or None."""
    if word in DIVISION and right == 0 or word in SHIFT and right >= 64:
        return None
    value = int(MEANING[word](left, right))
    return value if 0 <= value < 2**64 else None


def joined(left, word, place, right):
    """An operator at a place between two numbers; it is not judged over a refused one."""
    for part in (left, right):
        if part.content is None:
            return Word(None, left.place, part.refused_at)
    value = result(word, left.content, right.content)
    return Word(value, left.place, place if value is None else None)


class Reader:
    """Reads the tokens of a text, and refuses the first that no expression continues with, or the 17th open parenthesis."""

    def __init__(self, tokens):
        self.words = [b"number" if word.startswith(b"number=") else word for word, _, _ in tokens]
        self.values = [int(word[7:]) if word.startswith(b"number=") else None for word, _, _ in tokens]
        self.places = [start for _, start, _ in tokens]
        self.at = 0

    def sees(self, words, ahead=0):
        return self.words[self.at + ahead] in words

    def skip(self, words):
        """Moves past a word that may be missing; whether it was there."""
        found = self.sees(words)
        self.at += found
        return found

    def take(self, words):
        """Moves past a word that is due; its place."""
        if not self.skip(words):
            raise Refused(3, self.places[self.at])
        return self.places[self.at - 1]

    def operand(self, depth):
        """A number, or an expression in parentheses, of which so many may still be opened."""
        place = self.take(OPERAND)
        if self.values[self.at - 1] is not None:
            return Word(self.values[self.at - 1], place)
        if depth == 0:
            raise Refused(18, place)
        inside = self.expression(depth - 1)
        self.take(mark(b")"))
        return inside._replace(place=place)

    def expression(self, depth=OPEN_PARENTHESES, looser=LOOSEST):
        """Operands joined by operators that are tighter than `looser`."""
        left = self.operand(depth)
        while TIGHTNESS.get(self.words[self.at], LOOSEST) > looser:
            word, place = self.words[self.at], self.take(TIGHTNESS)
            left = joined(left, word, place, self.expression(depth, TIGHTNESS[word]))
        return left
