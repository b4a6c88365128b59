#!/usr/bin/env python3
"""How long the word stage takes: makes texts of just below 65,536 bytes, runs the program of the crate `word_cases` on packs of each, and
prints a table of times. docs/PERFORMANCE.md has one such table and what it says.

    (cd crates/word_cases && rt run < stdin > out/written)
    python3 tests/measure_words.py [PROGRAM ...]

Programs as arguments, say one built before a change, one built after it and a copy of the first as a control, are run in turns, in random
order, on the same packs; the ratios are to the first. Without arguments it is crates/word_cases/out/word_cases.
A pack is one text 100 times. The program reads the words of each text twice, once to count them and once for the first refusal. The time is
the processor's, user and system; less that of a pack of as many texts that end behind the words that are shown, it is divided by the number
of readings. Reading the text from standard input stays in it. The shortest of 40 runs counts.
"""
import pathlib
import random
import struct
import subprocess
import sys
import tempfile
from itertools import cycle

import measure_rules
from word_cases import KEPT, KEYWORDS, SHOWN_TOKENS, all_tokens

TEXTS_IN_PACK = 100
READINGS = 2
RUNS = 40
PROGRAM = pathlib.Path(__file__).resolve().parent.parent / "crates" / "word_cases" / "out" / "word_cases"


def words(source):
    """As many of these words as fit, parted by blanks."""
    return measure_rules.as_many("", source, "", " ")


TEXTS = {
    "an ordinary post": measure_rules.ordinary,
    "the shortest names": lambda: words(measure_rules.short_names()),
    "keywords of two bytes and more, each with an x for its last byte":
        lambda: words(word[:-1].decode() + "x" for word in cycle(KEYWORDS) if len(word) > 1),
    "the kept keywords": lambda: words(word.decode() for word in cycle(KEPT)),
}


def file_of(text):
    """A file with a pack of a text."""
    file = tempfile.TemporaryFile()
    file.write((struct.pack("<I", len(text)) + text) * TEXTS_IN_PACK)
    return file


def run(program, file):
    """The processor's time for one run, in ms."""
    file.seek(0)
    began = measure_rules.processor_time()
    subprocess.run([program], stdin=file, stdout=subprocess.DEVNULL, check=True)
    return 1000 * (measure_rules.processor_time() - began)


def shortest(programs, files):
    """For each program its shortest time on each file."""
    times = {program: {file: [] for file in files} for program in programs}
    turns = [(program, file) for program in programs for file in files]
    for _ in range(RUNS):
        random.shuffle(turns)
        for program, file in turns:
            times[program][file].append(run(program, file))
    return [[min(times[program][file]) for file in files] for program in programs]


def reading_times(programs, text):
    """For each program how long it takes to read the words of a text once."""
    shown = text[:all_tokens(text)[SHOWN_TOKENS - 1][2]]
    with file_of(text) as whole, file_of(shown) as start:
        return [(took - showing) / (TEXTS_IN_PACK * READINGS) for took, showing in shortest(programs, [whole, start])]


def main():
    programs = sys.argv[1:] or [str(PROGRAM)]
    print("| text | bytes | words |" + "".join(f" {program}, ms |" for program in programs) + " ratios |")
    print("|---|---|---|" + "---|" * len(programs) + "---|")
    for what, make in TEXTS.items():
        text = make().encode()
        times = reading_times(programs, text)
        cells = "".join(f" {took:.3f} |" for took in times)
        ratios = " ".join(f"{took / times[0]:.2f}" for took in times)
        print(f"| {what} | {len(text):,} | {len(all_tokens(text)) - 1:,} |{cells} {ratios} |", flush=True)


if __name__ == "__main__":
    main()
