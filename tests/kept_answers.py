#!/usr/bin/env python3
"""Which texts keep the answer they had before the requests, on the conformance packs: all but those that a request speaks of.

    python3 tests/kept_answers.py tests/packs/base.pack crates/vector_cases/data/level-03.pack      (of the base; with requests 1 to 3)

Goes through the different texts of the first pack. Request 1 speaks of those in which the second lexer, tests/word_cases.py, finds one of
the new marks up to the end or the first bad word, behind which nothing is judged ("Texts without operators or parentheses keep the answer
they had"); request 2 of those that the second judge, tests/rule_cases.py, refuses by 17 and the first pack does not: these must be 17 in the
second pack too. Each of the others must have the same answer there. Prints how many they are and how many kept their answer. A pack: for
each case the u32 lengths of the text and of the answer, then both.
"""
import pathlib
import struct
import sys

import rule_cases
from expressions import TIGHTNESS, mark
from word_cases import all_tokens

REQUEST_1, REQUEST_2 = "marks of request 1", "17 of request 2"
SPANS = b"refused=17"
NEW_MARKS = TIGHTNESS.keys() | mark(b"(") | mark(b")")


def answers(path):
    """The answer of each text of a pack."""
    pack, found, at = pathlib.Path(path).read_bytes(), {}, 0
    while at < len(pack):
        lengths = struct.unpack_from("<II", pack, at)
        behind = at + 8 + lengths[0]
        found[pack[at + 8:behind]] = pack[behind:behind + lengths[1]]
        at = behind + lengths[1]
    return found


def has_new_marks(text):
    return any(word in NEW_MARKS for word, _, _ in all_tokens(text))


def amended(text, answer):
    """What a request does to a text that had this answer in the base, or nothing."""
    if has_new_marks(text):
        return REQUEST_1
    return REQUEST_2 if not answer.startswith(SPANS) and rule_cases.answer(text).strip().startswith(SPANS) else ""


def main():
    before, after = map(answers, sys.argv[1:])
    why = {text: amended(text, answer) for text, answer in before.items()}
    compared = [text for text in before if not why[text]]
    kept = [text for text in compared if after.get(text) == before[text]]
    spanning = all(after.get(text, b"").startswith(SPANS) for text in before if why[text] == REQUEST_2)
    counts = "".join(f" {request}={list(why.values()).count(request)}" for request in (REQUEST_1, REQUEST_2))
    print(f"texts={len(before)}{counts} others={len(compared)} kept={len(kept)}")
    sys.exit(len(kept) < len(compared) or not spanning)


if __name__ == "__main__":
    main()
