#!/usr/bin/env python3
"""How long `rules::first_refusal` takes: makes texts of just below 65,536 bytes, runs the program of the crate `rule_cases` on packs of
each, and prints a table. docs/PERFORMANCE.md has one such table and what it says.

    (cd crates/rule_cases && rt run < stdin > out/written)
    python3 tests/measure_rules.py

A pack is the same text over and over. Its time is the processor's, user and system; less that of the empty pack, it is divided by the
number of texts. Each pack is run five times and the shortest time counts. Labels as arguments choose the texts.
"""
import pathlib
import resource
import string
import struct
import subprocess
import sys
import tempfile
from functools import cache
from itertools import count, islice, product, repeat

from word_cases import KEYWORDS

ROOM = 65535
MOST_TEXTS = 50  # in a pack
ENOUGH = 2.0  # seconds: a pack of slow texts has fewer
RUNS = 5
PROGRAM = pathlib.Path(__file__).resolve().parent.parent / "crates" / "rule_cases" / "out" / "rule_cases"

# --- names ---

FIRST = string.ascii_letters + "_"
LATER = string.ascii_letters + string.digits + "_"
NO_NAMES = {word.decode() for word in KEYWORDS}


def short_names():
    """The shortest names, shortest first."""
    for length in count(1):
        for first, *later in product(FIRST, *[LATER] * (length - 1)):
            name = first + "".join(later)
            if name not in NO_NAMES:
                yield name


def names_of(prefix, digits):
    return (prefix + str(number).zfill(digits) for number in count())


# --- texts ---


def as_many(before, parts, behind, parting="", room=ROOM):
    """`before`, as many of the parts as fit, `behind`."""
    room -= len(before) + len(behind)
    chosen = []
    for part in parts:
        room -= len(part) + len(parting) * bool(chosen)
        if room < 0:
            break
        chosen.append(part)
    return before + parting.join(chosen) + behind


POSTS = "north south east west upper lower inner outer".split()
SIGNS = "count limit level range delay state error cause".split()


def ordinary():
    """A counting post: 30 register types of five fields, four regfiles, and registers declared one by one."""

    def register_type(number):
        sign = SIGNS[number % 8]
        return f"""
// Register type {number}: what one counter of a post shows, and what may be set.
reg {sign}_type_{number} {{
    name = "{sign} {number}";
    desc = "The {sign} of one counter. Software reads it after each round of a watch.";
    regwidth = 32;
    field {{ sw = r; hw = w; rclr; }} {sign}_now[15:0] = 0; /* cleared when it is read */
    field {{ sw = rw; hw = r; }} {sign}_most[8] = 0x40;
    field {{ sw = rw; onwrite = woclr; }} {sign}_full = 0;
    field {{ sw = rw; onwrite = woset; }} {sign}_hold = 1;
    field {{ sw = r; hw = rw; }} {sign}_spare[6];
}};
"""

    def group(number):
        lines = "".join(f"    {SIGNS[i % 8]}_type_{i} {SIGNS[i % 8]}_{POSTS[number]}_{i} @ 0x{4 * i:02x};\n" for i in range(12))
        return f"\n// The counters of the {POSTS[number]} bank.\nregfile {POSTS[number]}_bank {{\n    alignment = 4;\n{lines}}};\n"

    def registers():
        for number in count():
            sign = SIGNS[number % 30 % 8]
            post = POSTS[number % 7]
            yield f"    {sign}_type_{number % 30} {post}_{sign}_{number} @ 0x{0x1000 + 4 * number:04x};  // {post} post, {sign} {number}\n"

    before = "// A post for counting herons.\n" + "".join(map(register_type, range(30))) + "".join(map(group, range(4)))
    before += '\naddrmap heron {\n    name = "Heron post";\n    addressing = regalign;\n    alignment = 4;\n'
    before += "".join(f"    {POSTS[i]}_bank bank_{POSTS[i]} @ 0x{0x100 * i:03x};\n" for i in range(4))
    return as_many(before, registers(), "};\n")


ONE_TYPE = "reg T{field{}f;};addrmap m{T "


def instances(names):
    return as_many(ONE_TYPE, names, ";};", ",")


FIELD_TYPES = "field F{};field R{sw=r;};field W{sw=w;};"
REGISTER = "reg T{regwidth=64;"
USED = "};addrmap m{T t;};"


def lawful_fields(names, bits):
    """Fields on each of these bits, one read-only and one write-only."""
    return "".join(f"{kind} " + ",".join(f"{next(names)}[{bit}:{bit}]" for bit in bits) + ";" for kind in "RW")


def plain_fields():
    return as_many(FIELD_TYPES + REGISTER + "F ", islice(names_of("a", 6), 8000), ";" + USED, ",")


def crowded_register(bits):
    """Lawful fields on all bits but the highest, two on each; then on those as many as fit, so that only the last passes of rule 16 find
    a fault, and each pass before looks at every field."""
    names = short_names()
    before = FIELD_TYPES + REGISTER + lawful_fields(names, range(64 - bits)) + "F "
    ranges = (f"[{64 - bits}:{64 - bits}]" if number % bits == 0 else "" for number in count())
    return as_many(before, (name + place for name, place in zip(names, ranges)), ";" + USED, ",")


def full_registers():
    def register(number):
        return f"reg T{number}{{regwidth=64;{lawful_fields(short_names(), range(64))}}};"

    return as_many(FIELD_TYPES, map(register, range(250)), "addrmap m{T0 t;};")


def deep():
    """35 nests of eight bodies: the map, five regfiles, a register, a field; in each inmost regfile as many registers as fit."""
    registers = ",".join(islice(short_names(), 615))
    nests = ("regfile{" * 5 + f"reg{{field{{}}f;}}{registers};" + "}k;" * 4 + f"}}{name};" for name in islice(short_names(), 35))
    return as_many("addrmap m{", nests, "};")


def deep_wide():
    """Five nested regfiles, each with an instance, and as many as fit in the inmost."""
    names = short_names()
    before = "reg T{field{}f;};addrmap m{" + "".join(f"regfile{{T {next(names)};" for _ in range(5)) + "reg{field{}f;}x;T "
    return as_many(before, (name for name in names if name != "x"), ";" + "}zzzz;" * 5 + "};", ",")


def long_comment(names):
    return as_many(ONE_TYPE + "/*" + "-" * 29996 + "*/", names, ";};", ",")


def many_types(type_names, names):
    types = list(islice((name for name in type_names if name != "F"), 254))
    before = "field F{};" + "".join(f"reg {name}{{F f;}};" for name in types) + "addrmap top{"
    return as_many(before, (f"{types[0]} {name};" for name in names), "};")


def with_sum(before, behind, number="0"):
    """The text with a sum that fills it, of the operator before which most rows are tried."""
    return as_many(before, repeat(number), behind, "|")


def summed_field():
    """A register of 128 lawful fields, the first with a sum for its right bit."""
    fields = lawful_fields(short_names(), range(1, 64))
    return with_sum(FIELD_TYPES + REGISTER + "R first[0:", "];W second[0:0];" + fields + USED)


@cache
def one_fingerprint(count=7000):
    """Names of eight bytes that share a fingerprint (crates/identifiers): a beginning of four bytes, and an ending that makes up for it."""
    factor, bound = 16777619, 1 << 32

    def prints(first, length):
        words = product(first, *[LATER] * (length - 1))
        for word in map("".join, words):
            value = 0
            for byte in word.encode():
                value = (value * factor + byte) % bound
            yield value, word

    beginnings = dict(islice(prints(FIRST, 4), 0, 1 << 22, 2))
    shift = pow(factor, -4, bound)
    pairs = ((beginnings.get((12345 - value) * shift % bound), ending) for value, ending in prints(LATER, 4))
    return list(islice((beginning + ending for beginning, ending in pairs if beginning), count))


TEXTS = [
    ("a", "an ordinary post", ordinary),
    ("b", "8,000 instances in one body, names of 7 bytes", lambda: instances(islice(names_of("a", 6), 8000))),
    ("b2", "as many instances in one body as fit, the shortest names", lambda: instances(short_names())),
    ("c", "8,000 fields in one register, none with a range", plain_fields),
    ("c2", "126 lawful fields in one register, then as many as fit on the bit left", lambda: crowded_register(1)),
    ("c3", "112 lawful fields in one register, then as many as fit on the 8 bits left", lambda: crowded_register(8)),
    ("d", "registers of 128 lawful fields each, as many as fit", full_registers),
    ("e", "35 nests of eight bodies, 615 registers in each", deep),
    ("e2", "five nested regfiles, as many instances as fit in the inmost", deep_wide),
    ("f", "a comment of 30,000 bytes before the first of 4,000 instances", lambda: long_comment(islice(names_of("a", 6), 4000))),
    ("g", "254 types, each use is of the type declared first", lambda: many_types(short_names(), short_names())),
    ("g2", "the same, type names of 31 bytes that differ at the end", lambda: many_types(names_of("t" * 28, 3), short_names())),
    ("h", "instance names of 31 bytes that differ at the end", lambda: instances(names_of("a" * 26, 5))),
    ("j", "7,000 instances in one body whose names share a fingerprint", lambda: instances(one_fingerprint())),
    ("j2", "as many as fit of such names behind 23 equal bytes", lambda: instances("a" * 23 + name for name in one_fingerprint())),
    ("i", "a sum of 65,000 bytes as an address", lambda: with_sum("addrmap m{reg{field{}f;}a@", ";};")),
    ("i2", "a sum of 65,000 bytes as the value of a reset", lambda: with_sum("addrmap m{reg{field{reset=", ";}f;}a;};")),
    ("i3", "128 fields in one register, a sum of 64,000 bytes in the first", summed_field),
    ("i4", "a sum of 65,000 bytes in an instance of a regfile that stands 1,024 times",
     lambda: with_sum("addrmap m{regfile{reg{field{}f;}a@", ";}b[1024];};")),
    ("i5", "as i, each number in 16 parentheses",
     lambda: with_sum("addrmap m{reg{field{}f;}a@", ";};", "(" * 16 + "0" + ")" * 16)),
    ("i6", "a sum of 65,000 bytes in a field of a register that stands 1,024 times",
     lambda: with_sum("addrmap m{reg{field{}f=", ";}a[1024];};")),
]


# --- times ---


def processor_time():
    usage = resource.getrusage(resource.RUSAGE_CHILDREN)
    return usage.ru_utime + usage.ru_stime


def run(pack):
    """The shortest time of some runs, and the lines that are written."""
    times = []
    with tempfile.TemporaryFile() as file:
        file.write(pack)
        for _ in range(RUNS):
            file.seek(0)
            began = processor_time()
            done = subprocess.run([PROGRAM], stdin=file, stdout=subprocess.PIPE, check=True)
            times.append(processor_time() - began)
    return min(times), done.stdout.decode().splitlines()


def main():
    if not PROGRAM.exists():
        sys.exit("crates/rule_cases/out/rule_cases is not there: rt run in crates/rule_cases builds it")
    chosen = sys.argv[1:]
    start, _ = run(b"")
    print(f"the empty pack: {1000 * start:.1f} ms")
    print("| | text | bytes | ms | ratio | answer |\n|---|---|---|---|---|---|")
    ordinary_time = None
    for label, what, make in TEXTS:
        if chosen and label not in chosen and label != "a":
            continue
        text = make().encode()
        assert len(text) <= ROOM
        case = struct.pack("<I", len(text)) + text
        took, lines = run(case)
        texts = max(1, min(MOST_TEXTS, int(ENOUGH / took)))
        if texts > 1:
            took, lines = run(case * texts)
        took = 1000 * (took - start) / texts
        assert len(lines) == texts
        if ordinary_time is None:
            ordinary_time = took
        answer = lines[0].split(" ", 1)[1]
        print(f"| {label} | {what} | {len(text):,} | {took:.1f} | {took / ordinary_time:.1f} | {answer} |", flush=True)


if __name__ == "__main__":
    main()
