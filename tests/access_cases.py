#!/usr/bin/env python3
"""The cases of reading and writing: writes crates/access_cases/stdin and the output that is due for it, its stdout.

    python3 tests/access_cases.py crates/replay_cases/data/replay.pack     (the conformance pack of logs)

The model here is a second one, written from document 01: it works on whole registers with masks, where the crates go field by field and
bit by bit. The answers of the pack's cases are the pack's own; it is the base's, so texts with marks of request 1 are left out, and one
that request 2 refuses is 17. No text gives a field across two parts that software changes, but rows with one are lawful: such rows are made
by putting its access and effects into the rows of a text.
stdin: for each case a little-endian u32 length and the text of a map; a u32 count, and so many commands of four little-endian u64
numbers: 0 reset; 1 address width: read; 2 address width word: write; 3 table index value: put a number (tables: registers, paths,
fields, labels, store); 4 table length: lend so much; 5: show the store.
stdout: a line `case N`, then a line for each command but 3 and 4.
"""
import os
import struct
import sys
from collections import namedtuple
from random import Random

from kept_answers import REQUEST_1, REQUEST_2, SPANS, amended

REGISTERS, PATHS, FIELDS, LABELS, STORE = range(5)
UNTOUCHED, PAST = 77, 2
SW = ["na", "r", "w", "rw"]
ONREAD = ["none", "rclr", "rset"]
ONWRITE = ["none", "woset", "woclr", "wot", "wzs", "wzc", "wzt", "wclr", "wset"]
WIDTHS = (8, 16, 32, 64)

Field = namedtuple("Field", "low high sw onread onwrite reset")
Register = namedtuple("Register", "address width access fields")


def ones(count):
    return (1 << count) - 1


# --- the second model ---

def as_text_has_it(register, field):
    """The field, but across two parts read-only and without effects: no text gives another one there (17)."""
    if field.low // register.access == field.high // register.access:
        return field
    return field._replace(sw="r" if "w" in field.sw else field.sw, onread="none", onwrite="none")


def text_of(registers):
    """A text whose map has these registers, each at its own address, but for what no text can give."""
    lines = []
    for number, register in enumerate(registers):
        fields = ""
        for k, field in enumerate(as_text_has_it(register, field) for field in register.fields):
            effects = f"onread={field.onread};" * (field.onread != "none") + f"onwrite={field.onwrite};" * (field.onwrite != "none")
            reset = "" if field.reset is None else f"={field.reset}"
            fields += f"field{{sw={field.sw};{effects}}}f{k}[{field.high}:{field.low}]{reset};"
        lines.append(f"reg{{regwidth={register.width};accesswidth={register.access};{fields}}}r{number}@{register.address};")
    return ("addrmap m{" + "\n".join(lines) + "};").encode()


class Post:
    """A map with its store, as long as the program lends it."""

    def __init__(self, registers):
        self.registers = registers
        self.rows = [(register, field) for register in registers for field in register.fields]
        self.store = [UNTOUCHED] * (len(self.rows) + PAST)

    def reset(self):
        for k, (_, field) in enumerate(self.rows):
            self.store[k] = field.reset or 0

    def fits(self):
        return all(self.store[k] <= ones(field.high - field.low + 1) for k, (_, field) in enumerate(self.rows))

    def refusal(self, address, width, word):
        """The first refusal on lawful rows and a fitting store, or 0; a read has no word."""
        if width not in WIDTHS or (word is not None and word > ones(width)):
            return 23
        return 0 if any(part(register, address, width) for register in self.registers) else 25

    def reached(self, address, width):
        """Each field with a bit in the part: its row, its low bit, and the mask of its bits there, in the register's places."""
        for k, (register, field) in enumerate(self.rows):
            bits = ones(field.high + 1) & ~ones(field.low) & part(register, address, width)
            if bits:
                yield k, field, bits, (address - register.address) * 8

    def read(self, address, width):
        word = 0
        for k, field, bits, start in self.reached(address, width):
            if "r" in field.sw:
                word |= (self.store[k] << field.low & bits) >> start
        for k, field, bits, _ in self.reached(address, width):
            if field.onread == "rclr":
                self.store[k] &= ~(bits >> field.low)
            if field.onread == "rset":
                self.store[k] |= bits >> field.low
        return word

    def write(self, address, width, word):
        for k, field, bits, start in self.reached(address, width):
            if "w" in field.sw:
                mask = bits >> field.low
                given = (word << start & bits) >> field.low
                self.store[k] = written(field.onwrite, self.store[k], given, mask)
        return 0

    def is_safe(self, address, width, word):
        for _, field, bits, start in self.reached(address, width):
            if word is None:
                if "r" in field.sw and field.onread != "none":
                    return False
            elif "w" in field.sw:
                given = word << start & bits
                if field.onwrite == "wot" and given or field.onwrite == "wzt" and given != bits:
                    return False
        return True


def part(register, address, width):
    """The mask of the register's bits that an access reaches; 0 where it does not reach the register."""
    distance = address - register.address
    if register.access != width or not 0 <= distance < register.width // 8 or distance % (width // 8):
        return 0
    return ones(width) << distance * 8


def written(effect, old, given, mask):
    zeros = mask & ~given
    return {
        "none": old & ~mask | given, "woset": old | given, "woclr": old & ~given, "wot": old ^ given,
        "wzs": old | zeros, "wzc": old & ~zeros, "wzt": old ^ zeros, "wclr": old & ~mask, "wset": old | mask,
    }[effect]


# --- a case: its commands, and the lines that are due ---

class Case:
    def __init__(self, registers):
        self.post = Post(registers)
        self.text = text_of(registers)
        self.commands, self.lines = [], []
        self.unlawful = False
        self.room = len(self.post.store)
        for row, (register, field) in enumerate(self.post.rows):
            for column, words, name in ((2, SW, "sw"), (4, ONREAD, "onread"), (5, ONWRITE, "onwrite")):
                if getattr(field, name) != getattr(as_text_has_it(register, field), name):
                    self.command(3, FIELDS, 8 * row + column, words.index(getattr(field, name)))

    def command(self, code, a=0, b=0, c=0):
        self.commands.append((code, a, b, c))

    def refusal(self, address, width, word):
        """The first refusal of an access, and of asking whether it may be sent again."""
        own = self.post.refusal(address, width, word)
        if own == 23:
            return 23, 23
        if self.unlawful:
            return 24, 24
        short = self.room < len(self.post.rows)
        return (22 if short else 24 if not self.post.fits() else own), own

    def access(self, address, width, word=None):
        refusal, asked = self.refusal(address, width, word)
        retry = f"retry refused={asked}" if asked else "retry=" + ("safe" if self.post.is_safe(address, width, word) else "unsafe")
        if refusal:
            answer = f"refused={refusal}"
        else:
            answer = f"word={self.post.read(address, width) if word is None else self.post.write(address, width, word)}"
        self.command(1, address, width) if word is None else self.command(2, address, width, word)
        self.lines.append(f"{answer} {retry}")

    def reset(self):
        refusal = 24 if self.unlawful else 22 if self.room < len(self.post.rows) else 0
        if not refusal:
            self.post.reset()
        self.command(0)
        self.lines.append(f"reset refused={refusal}" if refusal else f"reset={len(self.post.rows)}")

    def show(self):
        self.command(5)
        self.lines.append("".join(f" {number}" for number in self.post.store[:self.room]))

    def store(self, row, number):
        self.post.store[row] = number
        self.command(3, STORE, row, number)

    def lend_store(self, room):
        self.room = room
        self.command(4, STORE, room)

    def lend_all(self):
        for table, row in ((REGISTERS, 14), (PATHS, 288)):
            self.command(4, table, len(self.post.registers) * row)
        for table, row in ((FIELDS, 8), (LABELS, 32)):
            self.command(4, table, len(self.post.rows) * row)
        self.lend_store(len(self.post.rows) + PAST)


# --- random maps and accesses ---

def random_field(random, low, high, writable):
    sw = random.choice(SW if writable else ["na", "r"])
    return Field(low, high, sw, random.choice(ONREAD) if "r" in sw else "none", random.choice(ONWRITE) if "w" in sw else "none",
                 random.choice([None, random.getrandbits(high - low + 1)]))


def random_register(random, address, width, access):
    """Fields one above the other, with gaps; one that spans access parts is not writable."""
    fields, low = [], random.randrange(3)
    while low < width:
        high = min(width - 1, low + random.choice([0, 0, 1, 3, 7, 15, random.randrange(64)]))
        fields.append(random_field(random, low, high, low // access == high // access))
        low = high + 1 + random.choice([0, 0, 1, 5])
    return Register(address, width, access, fields)


def random_map(random):
    registers, address = [], 0
    for _ in range(random.randrange(1, 6)):
        width = random.choice(WIDTHS)
        access = random.choice([w for w in WIDTHS if w <= width])
        address += -address % (access // 8)
        registers.append(random_register(random, address, width, access))
        address += width // 8 + random.choice([0, 0, 3, 100])
    return registers


def random_access(random, case):
    register = random.choice(case.post.registers)
    width = register.access
    address = register.address + width // 8 * random.randrange(register.width // width)
    if random.random() < 0.2:
        address += random.choice([1, register.width // 8, -1, 2**32, 2**64 - 1 - address])
    if random.random() < 0.1:
        width = random.choice([0, 1, 7, 24, 128, 2**64 - 1, 8, 16, 32, 64])
    word = random.choice([0, ones(64), 1, random.getrandbits(64), random.getrandbits(64)]) & ones(min(width, 64))
    if random.random() < 0.05:
        word = random.getrandbits(64)
    case.access(max(address, 0), width, None if random.random() < 0.4 else word)


def random_store(random, case):
    for row, (_, field) in enumerate(case.post.rows):
        case.store(row, random.getrandbits(field.high - field.low + 1))


def random_case(seed):
    random = Random(seed)
    case = Case(random_map(random))
    case.reset()
    case.show()
    random_store(random, case)
    for turn in range(30):
        random_access(random, case)
        if turn % 10 == 9:
            case.show()
            random_store(random, case)
    return case


# --- cases of one thing each ---

def effects_case(width):
    """Every write effect and every read effect, in one register each, all words of ones, zeros and alternating bits."""
    fields = [[Field(0, width - 1, "rw", "none", effect, None)] for effect in ONWRITE]
    fields += [[Field(0, width - 1, "rw", effect, "none", None)] for effect in ONREAD]
    case = Case([Register(64 * k, width, width, each) for k, each in enumerate(fields)])
    case.reset()
    alternating = int("01" * 32, 2) & ones(width)
    for start in (0, ones(width), alternating):
        for register in range(len(fields)):
            for word in (None, 0, ones(width), alternating, None, None):
                case.store(register, start)
                case.access(64 * register, width, word)
                case.access(64 * register, width, word)
        case.show()
    return case


def parts_case():
    """Partial accesses of a 64-bit register with 32-bit access: a field that spans the parts is read, and cleared, part by part."""
    fields = [Field(16, 47, "r", "rclr", "none", None), Field(0, 15, "rw", "rset", "wot", 5), Field(48, 63, "rw", "none", "wzt", 9)]
    case = Case([Register(8, 64, 32, fields)])
    case.reset()
    case.store(0, ones(32))
    for address in (8, 12, 8, 12, 10, 16, 4):
        case.access(address, 32)
        case.show()
    for word in (0, ones(32), 0xffff, 0xffff0000):
        for address in (8, 12, 12, 8):
            case.access(address, 32, word)
            case.show()
    case.access(8, 64)
    case.access(8, 64, 0)
    return case


def halves_case():
    """Lawful rows that no text gives: fields across two and more parts of a register that a write or a read changes."""
    fields = [[Field(24, 39, "rw", "rclr", effect, 0xa5c3)] for effect in ONWRITE]
    fields += [[Field(5, 60, "w", "none", "wzt", 3), Field(61, 63, "r", "rset", "none", 2)], [Field(30, 33, "r", "rset", "none", 6)]]
    case = Case([Register(8 * k, 64, 32 if k % 2 else 16, each) for k, each in enumerate(fields)])
    case.reset()
    case.show()
    for register in case.post.registers:
        size = register.access // 8
        for address in range(register.address, register.address + 8, size):
            for word in (0x55aa33cc & ones(register.access), None, ones(register.access), 0, None):
                case.access(address, register.access, word)
            case.show()
    return case


def pairs_case():
    """A read-only and a write-only field on the same bits, and a read-only and a write-only register at the same address."""
    both = [Field(0, 7, "r", "rclr", "none", 3), Field(0, 7, "w", "none", "woset", 0)]
    case = Case([Register(0, 8, 8, both), Register(4, 16, 16, [Field(0, 15, "r", "rset", "none", 1)]), Register(4, 16, 16, [Field(0, 15, "w", "none", "wzt", None)])])
    case.reset()
    for address, width in ((0, 8), (4, 16)):
        for word in (None, 0, ones(width), None, None, 1):
            case.access(address, width, word)
            case.show()
    return case


def store_case():
    """Short stores, stores that do not fit, and numbers past the last row, with accesses that are refused for other reasons too."""
    case = Case([Register(0, 32, 32, [Field(0, 3, "rw", "none", "none", 1), Field(4, 31, "rw", "rclr", "wot", None)])])
    for room in (0, 1, 2, 3, 4):
        case.lend_store(room)
        case.reset()
        for address, width, word in ((0, 32, None), (0, 32, 7), (0, 16, None), (1, 32, 0), (0, 5, None), (0, 8, 256)):
            case.access(address, width, word)
        case.show()
    for row, number in ((0, 16), (0, 15), (1, 1 << 28), (1, ones(28)), (2, ones(64)), (3, 0)):
        case.store(row, number)
        for address, width, word in ((0, 32, None), (0, 32, ones(32)), (4, 32, None), (0, 5, None)):
            case.access(address, width, word)
        case.show()
        case.reset()
    return case


# a table, an index there, and a value that makes the rows of `unlawful_map` unlawful
UNLAWFUL = (
    [(REGISTERS, k, v) for k, v in ((0, 2), (0, 1 << 32), (0, ones(64)), (1, 33), (1, 0), (1, 16), (2, 24), (2, 64), (2, 0), (3, 1), (4, 0), (4, 1), (4, 3),
                                    (4, ones(64)), (5, 0), (5, 2), (5, 9), (6, 1025), (7, 1), (13, 1), (17, 1), (17, 3), (18, 2))]
    + [(PATHS, k, v) for k, v in ((0, 48), (0, 0), (2, 65), (1, 46), (31, 65), (32, 0), (32, 57), (34, 7), (64, 65), (287, 1), (288, 110), (288 + 32, 0))]
    + [(FIELDS, k, v) for k, v in ((0, 8), (0, 64), (1, 32), (1, ones(64)), (2, 4), (2, 2), (2, 0), (3, 4), (4, 3), (5, 9), (5, 3), (6, 2), (6, 0), (7, 16), (8, 32), (15, 5))]
    + [(LABELS, k, v) for k, v in ((0, 0), (0, 49), (3, 65), (31, 97), (32, 32))]
)


def unlawful_map():
    first = [Field(0, 3, "r", "rclr", "none", 9), Field(4, 31, "rw", "none", "wot", None)]
    return [Register(0, 32, 32, first), Register(4, 16, 8, [Field(0, 7, "w", "none", "wzs", None)])]


def rows_of(registers):
    """The rows of a map as the tables hold them."""
    numbers, names, fields, labels, first = [], b"", [], b"", 0
    for k, register in enumerate(registers):
        numbers += [register.address, register.width, register.access, first, len(register.fields), 1] + [0] * 8
        names += b"m".ljust(32, b"\0") + f"r{k}".encode().ljust(256, b"\0")
        for j, field in enumerate(register.fields):
            fields += [field.low, field.high, SW.index(field.sw), 3, ONREAD.index(field.onread), ONWRITE.index(field.onwrite),
                       int(field.reset is not None), field.reset or 0]
            labels += f"f{j}".encode().ljust(32, b"\0")
        first += len(register.fields)
    return numbers, names, fields, labels


def all_calls(case):
    for address, width, word in ((0, 32, None), (0, 32, ones(32)), (5, 8, 0), (9, 8, None), (0, 31, None)):
        case.access(address, width, word)
    case.reset()
    case.show()


def unlawful_case():
    """One wrong number at a time: each call is refused and changes nothing; then the number is put back."""
    case = Case(unlawful_map())
    tables = rows_of(case.post.registers)
    case.reset()
    for table, index, value in UNLAWFUL:
        case.command(3, table, index, value)
        case.unlawful = True
        all_calls(case)
        case.command(3, table, index, tables[table][index])
        case.unlawful = False
        case.access(0, 32)
    return case


def cut_case():
    """Tables that are lent in part, or beyond their rows."""
    case = Case(unlawful_map())
    case.reset()
    whole = [28, 576, 24, 96]
    for table, length in enumerate(whole):
        for other in (0, 1, length - 1, length + 1, length // 2, length * 2):
            case.command(4, table, other)
            case.unlawful = True
            all_calls(case)
            case.command(4, table, length)
            case.unlawful = False
            case.access(0, 32, 5)
    for table in range(4):
        case.command(4, table, 0)
    case.unlawful = True
    all_calls(case)
    case.unlawful = False
    case.lend_all()
    all_calls(case)
    return case


def largest_case():
    """1,024 registers of four fields each, the most that a map may have, up to the last address."""
    fields = [Field(8 * k, 8 * k + 7, "rw", "none", "wot", k) for k in range(4)]
    last = 2**32 - 4 * 1024
    case = Case([Register(last + 4 * k, 32, 32, fields) for k in range(1024)])
    case.text = f"addrmap m{{reg{{{''.join(f'field{{onwrite=wot;}}f{k}[8]={k};' for k in range(4))}}}every[1024]@{last};}};".encode()
    case.reset()
    for address in (last, 2**32 - 4, 2**32 - 8, 2**32, last - 4):
        case.access(address, 32, 0x01020304)
        case.access(address, 32)
    case.show()
    return case


# --- the cases of the pack ---

def pack_cases(data):
    at = 0
    while at < len(data):
        lengths = struct.unpack_from("<3I", data, at)
        at += 12
        parts = []
        for length in lengths:
            parts.append(data[at:at + length])
            at += length
        yield parts


def pack_case(text, answer):
    """The commands of a log, and the lines that are due, of its answer: accesses, then the store; or the refusal of the text."""
    if answer.startswith(b"refused="):
        return text, [], ["text " + answer.decode().split(" ")[0]]
    commands, lines, store = [(0, 0, 0, 0)], [], []
    for line in answer.decode().splitlines():
        words = line.split(" ")
        if words[0] == "read":
            commands.append((1, int(words[2], 16), int(words[1]), 0))
            lines.append(pack_line(words[3:]))
        elif words[0] == "write":
            commands.append((2, int(words[2], 16), int(words[1]), int(words[3], 16)))
            lines.append(pack_line(words[4:]))
        else:
            store.append(int(line.split("=")[1], 16))
    commands.append((5, 0, 0, 0))
    shown = "".join(f" {number}" for number in store + [UNTOUCHED] * PAST)
    return text, commands, [f"reset={len(store)}"] + lines + [shown]


def pack_line(words):
    if words[0].startswith("refused="):
        return f"{words[0]} retry {words[0]}"
    word = int(words[0][5:], 16) if words[0].startswith("word=") else 0
    return f"word={word} {words[1]}"


def made(case):
    return case.text, case.commands, case.lines


def main():
    cases = [effects_case(width) for width in WIDTHS] + [parts_case(), pairs_case(), store_case(), unlawful_case(), cut_case(), largest_case()]
    cases += [random_case(seed) for seed in range(300)]
    cases = [made(case) for case in cases]
    with open(sys.argv[1], "rb") as pack:
        cases += [pack_case(text, SPANS if why == REQUEST_2 else answer)
                  for text, answer, why in ((text, answer, amended(text, answer)) for text, _, answer in pack_cases(pack.read()))
                  if why != REQUEST_1]
    cases += [made(halves_case())]
    folder = os.path.join(os.path.dirname(os.path.abspath(__file__)), "..", "crates", "access_cases")
    with open(os.path.join(folder, "stdin"), "wb") as stdin, open(os.path.join(folder, "stdout"), "w") as stdout:
        for number, (text, commands, lines) in enumerate(cases):
            stdin.write(struct.pack("<I", len(text)) + text + struct.pack("<I", len(commands)))
            for command in commands:
                stdin.write(struct.pack("<4Q", *command))
            stdout.write("\n".join([f"case {number}"] + lines) + "\n")


if __name__ == "__main__":
    main()
