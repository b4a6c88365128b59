#!/usr/bin/env python3
"""A second implementation of the program `replay`, and how the program compares with it.

    python3 tests/replay.py MAP LOG             what `replay MAP LOG` should write
    python3 tests/replay.py --pack FILE         how many of a pack's cases each of the two answers as the pack does
    python3 tests/replay.py --random 5000 1     on how many random and damaged logs they agree, byte for byte (a count, a seed)

It is written from the sentences on the program, by an author who had read the definitions of the crate `log_lines`, and goes another way:
the log is split into lines, a line is matched whole, and of one that is none it looks for the longest beginning that some line has, by
trying ends on it. The model is the second one, tests/access_cases.py. The rows are those of the listing that crates/rdlc/out/rdlc writes, so
the compiler is not judged here, and a map whose listing is longer than 65,536 bytes is not played. What the program says on standard
error counts as a part of its answer, and so does a status that is not 0. A log that the two answer differently is made smaller as long
as they do, and shown.
"""
import functools
import pathlib
import re
import subprocess
import sys
import tempfile
from random import Random

from access_cases import WIDTHS, Field, Post, Register, ones, pack_cases
from kept_answers import REQUEST_1, REQUEST_2, SPANS, amended

TESTS = pathlib.Path(__file__).resolve().parent
RDLC = TESTS.parent / "crates" / "rdlc" / "out" / "rdlc"
REPLAY = TESTS.parent / "crates" / "replay" / "out" / "replay"
TEXTS = TESTS.parent / "crates" / "replay_cases" / "data" / "replay.pack"
TIMEOUT = 60


# --- the rows of a listing ---

def fields_of(listing):
    """For each field of a listing the number of its register, and the values of all keys there."""
    register, values = 0, {}
    for line in listing.decode().splitlines():
        key, spelling = line.split("=")
        values[key] = spelling
        register += key == "reg"
        if key == "reset":
            yield register, values


def field_of(values):
    high, low = map(int, values["bits"].split(":"))
    reset = None if values["reset"] == "none" else int(values["reset"], 16)
    return Field(low, high, values["sw"], values["onread"], values["onwrite"], reset)


def map_of(listing):
    """The names of the fields, and the registers as the second model has them."""
    names, registers = [], {}
    for register, values in fields_of(listing):
        names.append(values["reg"] + "." + values["field"])
        row = Register(int(values["at"], 16), int(values["width"]), int(values["access"]), [])
        registers.setdefault(register, row).fields.append(field_of(values))
    return names, list(registers.values())


@functools.cache
def listing_of(text):
    return subprocess.run([RDLC], input=text, stdout=subprocess.PIPE, check=True).stdout


# --- the lines of a log ---

NUMBER = rb"(0[xX][0-9a-fA-F]+|[0-9]+)"
READ = re.compile(rb"read " + NUMBER + b" " + NUMBER + rb"\r?")
WRITE = re.compile(rb"write " + NUMBER + b" " + NUMBER + b" " + NUMBER + rb"\r?")
SKIPPED = re.compile(rb"#.*|\r?", re.DOTALL)
# what is missing of a line that breaks off somewhere
ENDS = [whole[start:] for whole in (b"read 0 0", b"write 0 0 0") for start in range(len(whole) + 1)]


def value(spelling):
    """A number, or 2^64 for all that are too large."""
    base, digits = (16, spelling[2:]) if spelling[:2] in (b"0x", b"0X") else (10, spelling)
    digits = digits.lstrip(b"0") or b"0"
    return min(int(digits, base), 1 << 64) if len(digits) <= 20 else 1 << 64


def access_of(line):
    """The numbers of the access that a line is, if it is one."""
    match = READ.fullmatch(line) or WRITE.fullmatch(line)
    numbers = [value(spelling) for spelling in match.groups()] if match else []
    return numbers if numbers and max(numbers) < 1 << 64 else None


def is_line(line):
    return bool(SKIPPED.fullmatch(line) or access_of(line))


def goes_on(beginning):
    """Whether some line begins so."""
    return any(is_line(beginning + end) for end in ENDS)


def longest_beginning(line):
    """How many bytes of a line that is none are the beginning of one."""
    low, high = 0, len(line) + 1
    while high - low > 1:
        middle = (low + high) // 2
        low, high = (middle, high) if goes_on(line[:middle]) else (low, middle)
    return low


def expected(beginning, rest):
    """What was expected between the longest beginning and what follows it."""
    word, *numbers = beginning.split(b" ")
    if beginning == b"":
        return "read, write, # or the end of the line"
    if beginning.endswith(b"\r"):
        return "the end of the line"
    if not numbers:
        return "a blank" if word in (b"read", b"write") else "the word read" if word[:1] == b"r" else "the word write"
    if numbers[-1] == b"":
        return "a number"
    if numbers[-1] in (b"0x", b"0X"):
        return "a hex digit"
    if rest and re.fullmatch(NUMBER, numbers[-1] + rest[:1]):
        return "a number of at most 64 bits"
    last = len(numbers) == (2 if word == b"read" else 3)
    return "a digit or the end of the line" if last else "a digit or a blank"


def fault(number, line):
    start = longest_beginning(line)
    return f"log line={number} column={start + 1}: expected {expected(line[:start], line[start:])}"


# --- the program ---

def outcome(post, address, width, word):
    refusal = post.refusal(address, width, word)
    if refusal:
        return f"refused={refusal}"
    retry = "retry=" + ("safe" if post.is_safe(address, width, word) else "unsafe")
    if word is None:
        return f"word={post.read(address, width):#x} {retry}"
    post.write(address, width, word)
    return f"done {retry}"


def played(post, width, address, word=None):
    call = f"read {width} {address:#x}" if word is None else f"write {width} {address:#x} {word:#x}"
    return f"{call} {outcome(post, address, width, word)}"


def log_answers(post, log):
    """A line for each access, up to the first line of the log that is none."""
    for number, line in enumerate(log.split(b"\n"), 1):
        access = access_of(line)
        if access:
            yield played(post, *access)
        elif not is_line(line):
            yield fault(number, line)
            return


def replay(text, log):
    """What the program writes for a text and a log."""
    listing = listing_of(text)
    if listing.startswith(b"refused=22 "):
        sys.exit("the listing of this map is too long for rdlc")
    if listing.startswith(b"refused="):
        return listing
    names, registers = map_of(listing)
    post = Post(registers)
    post.reset()
    lines = list(log_answers(post, log)) + [f"{name}={number:#x}" for name, number in zip(names, post.store)]
    return "".join(line + "\n" for line in lines).encode()


def run(text, log):
    """What the program did write; what it said on standard error, and a status that is not 0, are part of it."""
    with tempfile.TemporaryDirectory() as folder:
        files = pathlib.Path(folder, "map"), pathlib.Path(folder, "log")
        for file, content in zip(files, (text, log)):
            file.write_bytes(content)
        done = subprocess.run([REPLAY, *files], capture_output=True, timeout=TIMEOUT, check=False)
    return done.stdout + done.stderr + (f"status {done.returncode}\n".encode() if done.returncode else b"")


# --- the cases of a pack ---

def first_difference(one, other):
    """The first line that two answers do not share."""
    pairs = zip(one.split(b"\n") + [b"(end)"], other.split(b"\n") + [b"(end)"])
    return next(((a, b) for a, b in pairs if a != b), None)


def compare_pack(path):
    cases, agreed, others = 0, {"second": 0, "program": 0}, 0
    for number, (text, log, answer) in enumerate(pack_cases(pathlib.Path(path).read_bytes())):
        cases += 1
        for name, make in (("second", replay), ("program", run)):
            given = make(text, log)
            agreed[name] += given == answer
            if given != answer:
                why = amended(text, answer)
                others += not (why == REQUEST_1 or why == REQUEST_2 and given.startswith(SPANS))
                due, got = first_difference(answer, given)
                print(f"case {number}, {name}: the pack has {due}, here {got}" + (f" ({why})" if why else ""))
    print(f"cases={cases} second={agreed['second']} program={agreed['program']}")
    sys.exit(others > 0)


# --- random logs ---

def spelled(random, number):
    """A number in one of its spellings."""
    hexadecimal = f"{number:x}" if random.random() < 0.5 else f"{number:X}"
    zeros = "0" * random.choice([0] * 12 + [1, 2, 30])
    usual = f"{number:#x}"
    return random.choice([f"{zeros}{number}", f"0x{zeros}{hexadecimal}", f"0X{zeros}{hexadecimal}", usual, usual]).encode()


def random_width(random, register):
    return register.access if random.random() < 0.85 else random.choice(WIDTHS + (0, 7, 24, 128, 2**32, 2**64 - 1))


def random_address(random, register):
    if random.random() < 0.15:
        return random.choice([0, 1, register.address + 1, register.address + register.width // 8, 2**32, 2**64 - 1, random.getrandbits(33)])
    return register.address + register.access // 8 * random.randrange(register.width // register.access)


def random_word(random, width):
    words = [0, 1, ones(64), random.getrandbits(64), random.getrandbits(64), random.getrandbits(8)]
    return random.choice(words) & (ones(min(width, 64)) if random.random() < 0.9 else ones(64))


def random_access(random, registers):
    register = random.choice(registers)
    width = random_width(random, register)
    numbers = [width, random_address(random, register)]
    if random.random() < 0.5:
        return b" ".join([b"read"] + [spelled(random, number) for number in numbers])
    return b" ".join([b"write"] + [spelled(random, number) for number in numbers + [random_word(random, width)]])


RUBBISH = bytes(range(256)).replace(b"\n", b"")


def random_skipped(random):
    """An empty line or a comment."""
    return random.choice([b"", b"", b"#", b"# read 8 0", b"#\r\r\0\xff", b"#" + RUBBISH, b"#" * random.randrange(2000)])


ODD_NUMBERS = [spelling % number for number in (2**64 - 1, 2**64, 2**64 + 1, 2**68, 10**20, 2**200)
               for spelling in (b"%d", b"0x%x", b"0X%X", b"000%d", b"0x000%x")]
ODD_NUMBERS += [b"", b"0x", b"0X", b"00x1", b"0xg", b"0x0x1", b"1_0", b"-1", b"+1", b"1.", b"0b1", b"8'd8", b"12a", b"0xFg", b"a", b"x10"]
ODD_LINES = [b" ", b"\t", b"r", b"w", b"re", b"rea", b"read", b"read ", b"Read 8 0", b"READ 8 0", b"reads 8 0", b"write", b"write ", b"writ",
             b"wrote 8 0 0", b"read\t8\t0", b"read  8 0", b" read 8 0", b"read 8 0 ", b"read 8 0 # no", b"read 8", b"read 8 ", b"read 8  0",
             b"read 8 0 0", b"read 8,0", b"write 8 0", b"write 8 0 ", b"write 8 0  0", b"write 8 0 0 ", b"write 8 0 0 0", b"write 8 0 0\t",
             b"read 8 0\r\r", b"\r\r", b"\rread 8 0", b"read\r", b"read 8\r", b"read 8 \r", b"read 8 0x\r", b"read\r8 0", b"\0",
             b"\xef\xbb\xbfread 8 0", b"reset", b"// no", b"; no"]


def long_line(random):
    """A line of 100,000 bytes or more, lawful or not."""
    zeros = b"0" * 100000
    return random.choice([b"#" + b"x" * 100000, b"# " + b"read 8 0\r" * 12000, b"read 8 " + zeros, b"write 8 0x" + zeros + b" 0x0" + zeros,
                          b"read " + zeros + b"8 0x" + zeros, b"read 8 " + zeros + b"x", b"read 8 1" + zeros, b"x" * 100000,
                          b"read 8 0x" + b"f" * 100000])


def odd_line(random):
    spelling = random.choice(ODD_NUMBERS)
    numbers = [b"read 8 %s", b"read %s 0", b"write 8 %s 0", b"write 8 0 %s", b"write %s 0 0"]
    rubbish = bytes(random.choice(RUBBISH) for _ in range(random.randrange(1, 40)))
    return random.choice([random.choice(numbers) % spelling, random.choice(ODD_LINES), rubbish])


def random_line(random, registers):
    chance = random.random()
    if chance < 0.85:
        return random_access(random, registers)
    return random_skipped(random) if chance < 0.98 or random.random() < 0.2 else odd_line(random)


def random_lines(random, registers):
    lines = [random_line(random, registers) for _ in range(random.choice([0, 1, 2, 5, 10, 20, 60]))]
    if random.random() < 0.02:
        lines.insert(random.randrange(len(lines) + 1), long_line(random))
    if random.random() < 0.3:
        lines.append(odd_line(random))
    return lines


def joined(random, lines):
    """The lines with their ends; the last may have none."""
    ends = random.choice([[b"\n"], [b"\r\n"], [b"\n", b"\r\n"]])
    log = b"".join(line + random.choice(ends) for line in lines)
    return log if random.random() < 0.7 else log[:-1] if random.random() < 0.7 else log + b"\r"


def damaged(random, log):
    """A byte dropped, doubled or changed, or the log cut."""
    at = random.randrange(len(log) + 1)
    other = bytes([random.choice(b"read wit0123456789abcdefABCDEFxX#\r\n\t ") if random.random() < 0.7 else random.randrange(256)])
    return random.choice([log[:at] + log[at + 1:], log[:at] + log[at:at + 1] * 2 + log[at + 1:], log[:at] + other + log[at + 1:],
                          log[:at] + other + log[at:], log[:at]])


def random_log(random, registers):
    if random.random() < 0.03:
        return bytes(random.randrange(256) for _ in range(random.randrange(2000)))
    log = joined(random, random_lines(random, registers))
    for _ in range(random.choice([0, 0, 1, 1, 2, 5])):
        log = damaged(random, log)
    return log


def smaller(log):
    """The log without a piece of it, large pieces first."""
    size = len(log)
    while size:
        for at in range(0, len(log), size):
            yield log[:at] + log[at + size:]
        size //= 2


def smallest(text, log):
    """A log that the two answer differently, and none of its smaller ones."""
    while True:
        found = next((other for other in smaller(log) if replay(text, other) != run(text, other)), None)
        if found is None:
            return log
        log = found


def compare_random(count, seed):
    random, agreed, refused, stopped = Random(seed), 0, 0, 0
    texts = [text for text, _, _ in pack_cases(TEXTS.read_bytes())]
    for number in range(count):
        text = random.choice(texts)
        listing = listing_of(text)
        registers = [Register(0, 8, 8, [])] if listing.startswith(b"refused=") else map_of(listing)[1]
        log = random_log(random, registers)
        due, got = replay(text, log), run(text, log)
        agreed += due == got
        refused += due.startswith(b"refused=")
        stopped += b"log line=" in due
        if due != got:
            log = smallest(text, log)
            due, got = first_difference(replay(text, log), run(text, log))
            print(f"log {number}: the second has {due}, the program {got}, on the log {log} and the text {text}")
    print(f"logs={count} agreed={agreed} (of a refused map {refused}, with a line that is none {stopped})")
    sys.exit(agreed < count)


def main():
    if sys.argv[1] == "--pack":
        compare_pack(sys.argv[2])
    elif sys.argv[1] == "--random":
        compare_random(int(sys.argv[2]), int(sys.argv[3]))
    else:
        text, log = (pathlib.Path(path).read_bytes() for path in sys.argv[1:])
        sys.stdout.buffer.write(replay(text, log))


if __name__ == "__main__":
    main()
