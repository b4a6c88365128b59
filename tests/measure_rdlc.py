#!/usr/bin/env python3
"""How long the program `rdlc` takes, and how much stack it needs: makes texts, runs crates/rdlc/out/rdlc on each, and prints a table.
docs/PERFORMANCE.md has one such table and what it says.

    (cd crates/rdlc && rt run < stdin > out/written)
    python3 tests/measure_rdlc.py

The time is the processor's, user and system, of the whole program; the shortest of nine runs counts. The stack is the smallest limit
(`ulimit -s`, to 4 KiB) under which the program gives the same answer. Labels as arguments choose the texts.
"""
import pathlib
import resource
import subprocess
import sys

import measure_rules

PROGRAM = pathlib.Path(__file__).resolve().parent.parent / "crates" / "rdlc" / "out" / "rdlc"
ROOM = 65535
RUNS = 9

REG = "reg { field {} f; }"


def single(count):
    """So many registers, declared one by one."""
    names = ", ".join(f"a{number}" for number in range(count))
    return f"addrmap m {{ reg t {{ field {{}} f; }}; t {names}; }};"


def filled(before, behind, filler):
    """The text with a comment in its middle that fills it up."""
    return before + "/*" + filler * (ROOM - len(before) - len(behind) - 4) + "*/" + behind


def commented_outside():
    """A comment before the instance of a regfile that is an array of 1,024 elements."""
    return filled(f"addrmap m {{ regfile {{ {REG} a; ", "} b[1024]; };", "x")


def commented_inside():
    """A comment inside the instance that 1,024 elements of a regfile repeat: between its name and its end."""
    return filled(f"addrmap m {{ regfile {{ {REG} a ", "; } b[1024]; };", "x")


def nested(comment=""):
    """Seven levels of regfiles, each of two elements, and eight registers in the lowest: 1,024 registers, eight instances deep."""
    text = f"reg t {{ field {{}} f; }}; regfile r0 {{ t {', '.join(f'a{n} {comment}' for n in range(8))}; }}; "
    for level in range(6):
        text += f"regfile r{level + 1} {{ r{level} b {comment} [2]; }}; "
    return text + f"addrmap m {{ r6 b {comment} [2]; }};"


def nested_comments():
    """The same with a comment inside each instance."""
    return nested("/*" + "x" * 4300 + "*/")


def lawful_pairs():
    """512 registers that are only read, then 512 over the same bytes that are only written."""
    types = "reg reader { field { sw = r; } f; }; reg writer { field { sw = w; } f; };"
    readers, writers = (", ".join(f"{name}{n} @ {4 * n}" for n in range(512)) for name in "pq")
    return f"addrmap m {{ {types} reader {readers}; writer {writers}; }};"


def last_over_first():
    """1,024 registers, of which the last lies over the first."""
    return f"addrmap m {{ reg t {{ field {{}} f; }}; t {', '.join(f'a{n}' for n in range(1023))}; t z @ 0; }};"


def short_sums():
    """Seven levels of regfiles with one instance each, 1,024 of the outmost, four fields in the register: a sum of some 55 bytes in each
    instance, of the operator before which most rows are tried; and a comment that fills the text."""
    address = " @ 0" + "|0" * 28
    fields = ", ".join(f"{name}[{'|'.join([bit] * 13)}:{'|'.join([bit] * 13)}]" for name, bit in zip("abcd", "0123"))
    text = f"regfile r0 {{ reg {{ field {{}} {fields}; }} a{address}; }}; "
    for level in range(6):
        text += f"regfile r{level + 1} {{ r{level} b{address}; }}; "
    return filled(text + "addrmap m { r6 b[1024]; };", "", "x")


TEXTS = {
    "heron": lambda: (PROGRAM.parent.parent.parent / "examples" / "heron.rdl").read_text(),
    "ordinary": measure_rules.ordinary,
    "single": lambda: single(1000),
    "array": lambda: f"addrmap m {{ {REG} a[1024]; }};",
    "arrays": lambda: f"addrmap m {{ regfile {{ {REG} a[32]; }} b[32]; }};",
    "nested": nested,
    "comment before": commented_outside,
    "comment inside": commented_inside,
    "nested comments": nested_comments,
    "names": lambda: single(8000),
    "lawful pairs": lawful_pairs,
    "last over first": last_over_first,
    "short sums": short_sums,
}
# those of the rules stage that take long there, and those with sums
CHOSEN = "b b2 c2 c3 d e2 g j j2 i i2 i3 i4 i6".split()
TEXTS.update({label: make for label, _, make in measure_rules.TEXTS if label in CHOSEN})


def run(text, limit=None):
    command = [str(PROGRAM)]
    if limit:
        command = ["bash", "-c", f"ulimit -s {limit}; exec {PROGRAM}"]
    before = resource.getrusage(resource.RUSAGE_CHILDREN)
    done = subprocess.run(command, input=text.encode(), stdout=subprocess.PIPE, stderr=subprocess.DEVNULL, check=False)
    after = resource.getrusage(resource.RUSAGE_CHILDREN)
    seconds = after.ru_utime + after.ru_stime - before.ru_utime - before.ru_stime
    return done.stdout, done.returncode, seconds


def least_stack(text, answer):
    """The smallest limit in KiB that gives this answer."""
    low, high = 4, 8192
    while high - low > 4:
        middle = (low + high) // 8 * 4
        out, code, _ = run(text, middle)
        if code == 0 and out == answer:
            high = middle
        else:
            low = middle
    return high


def shortest(text):
    """The shortest time of some runs, in ms."""
    return 1000 * min(run(text)[2] for _ in range(RUNS))


def main():
    chosen = sys.argv[1:] or list(TEXTS)
    ordinary = shortest(TEXTS["ordinary"]())
    print("| text | bytes | ms | ratio to the ordinary | stack, KiB | answer |")
    print("|---|---|---|---|---|---|")
    for label in chosen:
        text = TEXTS[label]()
        answer, _, _ = run(text)
        took = shortest(text)
        first = answer.split(b"\n")[0].decode()
        shown = first if first.startswith("refused") else f"{answer.count(b'reg=')} registers"
        print(f"| {label} | {len(text):,} | {took:.1f} | {took / ordinary:.1f} | {least_stack(text, answer):,} | {shown} |", flush=True)


if __name__ == "__main__":
    main()
