#!/usr/bin/env python3
"""How many accesses a second the program `replay` plays: makes maps and logs, runs crates/replay/out/replay on each, and prints a table.
docs/PERFORMANCE.md has one such table and what it says.

    (cd crates/replay && rt run -- data/post.rdl data/night.log)
    python3 tests/measure_replay.py

A map has so many registers of four fields each; its log reads and writes them in turns, one here and one there, and each access is
answered. The time is the processor's, user and system, of the whole program; the shortest of five runs counts. That of an empty log is
taken off before it is divided by the number of accesses. The stack is the smallest limit (`ulimit -s`, to 4 KiB) under which the
program gives the same answer, to 20 accesses.
"""
import pathlib
import resource
import subprocess
import tempfile

PROGRAM = pathlib.Path(__file__).resolve().parent.parent / "crates" / "replay" / "out" / "replay"
RUNS = 5
STEP = 7
SIZES = ((10, 20000), (100, 5000), (1000, 2000))


def post(registers):
    """So many registers of four fields each."""
    return f"addrmap m {{ reg {{ field {{ onwrite = wot; }} a[8]; field {{}} b[8]; field {{}} c[8]; field {{ rclr; }} d[8]; }} r0[{registers}]; }};\n"


def access(number, registers):
    """Reads and writes in turns; the step has no factor in common with the sizes, so each register gets some of them."""
    address = 4 * (number * STEP % registers)
    return f"write 32 {address:#x} {number * 0x01020304 % 2**32:#x}\n" if number % 2 else f"read 32 {address:#x}\n"


def log(registers, accesses):
    return "".join(access(number, registers) for number in range(accesses))


class Run:
    """A map and a log as files, for some runs of the program."""

    def __init__(self, folder, text, lines):
        self.files = [str(folder / name) for name in ("map", "log")]
        for name, content in zip(self.files, (text, lines)):
            pathlib.Path(name).write_text(content)

    def output(self, limit=None):
        """What the program writes, and its status; with a limit of its stack in KiB, if one is given."""
        command = [str(PROGRAM), *self.files]
        if limit:
            command = ["bash", "-c", f"ulimit -s {limit}; exec \"$@\"", "limited", *command]
        done = subprocess.run(command, stdout=subprocess.PIPE, stderr=subprocess.DEVNULL, check=False)
        return done.stdout, done.returncode

    def seconds(self):
        """The processor's time, the shortest of some runs."""
        times = []
        for _ in range(RUNS):
            before = resource.getrusage(resource.RUSAGE_CHILDREN)
            self.output()
            after = resource.getrusage(resource.RUSAGE_CHILDREN)
            times.append(after.ru_utime + after.ru_stime - before.ru_utime - before.ru_stime)
        return min(times)

    def least_stack(self):
        """The smallest limit in KiB that gives the answer."""
        answer, low, high = self.output(), 4, 8192
        while high - low > 4:
            middle = (low + high) // 8 * 4
            low, high = (low, middle) if self.output(middle) == answer else (middle, high)
        return high


def row(folder, registers, accesses):
    empty = Run(folder, post(registers), "").seconds()
    played = Run(folder, post(registers), log(registers, accesses))
    answer, status = played.output()
    assert status == 0 and answer.count(b" retry=") == accesses and answer.count(b"\n") == accesses + 4 * registers
    took = played.seconds()
    each = (took - empty) / accesses
    stack = Run(folder, post(registers), log(registers, 20)).least_stack()
    times = f"{1000 * empty:,.1f} | {1000 * took:,.1f} | {1e6 * each:,.1f} | {1 / each:,.0f}"
    return f"| {registers:,} | {4 * registers:,} | {accesses:,} | {times} | {stack:,} |"


def main():
    print("| registers | fields | accesses | ms, empty log | ms, this log | µs an access | accesses a second | stack, KiB |")
    print("|---|---|---|---|---|---|---|---|")
    with tempfile.TemporaryDirectory() as folder:
        for registers, accesses in SIZES:
            print(row(pathlib.Path(folder), registers, accesses), flush=True)


if __name__ == "__main__":
    main()
