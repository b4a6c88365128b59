#!/usr/bin/env python3
"""How long an access takes: makes packs for the program `access_cases`, runs crates/access_cases/out/access_cases on each, and prints a table.
docs/PERFORMANCE.md has one such table and what it says.

    (cd crates/access_cases && rt run < stdin > out/written)
    python3 tests/measure_access.py

A pack is one map, a reset, and so many accesses; for each the program makes the access and asks whether it may be sent again. The time is
the processor's, user and system, less that of the pack without accesses, divided by their number; the shortest of five runs counts.
"""
import pathlib
import resource
import struct
import subprocess

PROGRAM = pathlib.Path(__file__).resolve().parent.parent / "crates" / "access_cases" / "out" / "access_cases"
RUNS = 5
RESET, READ, WRITE = range(3)

HERON = "addrmap heron { reg { field { sw=r; rclr; } count[16] = 0; field { onwrite = wot; } lamp; } tally; };"


def post(registers):
    """So many registers of four fields each."""
    return f"addrmap m {{ reg {{ field {{ onwrite = wot; }} a[8]; field {{}} b[8]; field {{}} c[8]; field {{ rclr; }} d[8]; }} r0[{registers}]; }};"


def pack(text, code, accesses):
    """A pack of one case: a reset, then so many accesses of the first register."""
    commands = [(RESET, 0, 0, 0)] + [(code, 0, 32, 0x01020304)] * accesses
    data = struct.pack("<I", len(text)) + text.encode() + struct.pack("<I", len(commands))
    return data + b"".join(struct.pack("<4Q", *command) for command in commands)


def seconds(data):
    """The processor's time for a pack, the shortest of some runs."""
    times = []
    for _ in range(RUNS):
        before = resource.getrusage(resource.RUSAGE_CHILDREN)
        subprocess.run([PROGRAM], input=data, stdout=subprocess.DEVNULL, check=True)
        after = resource.getrusage(resource.RUSAGE_CHILDREN)
        times.append(after.ru_utime + after.ru_stime - before.ru_utime - before.ru_stime)
    return min(times)


def main():
    print("| map | fields | access | µs |")
    print("|---|---|---|---|")
    for label, text, fields, accesses in (
            ("examples/heron.rdl's register", HERON, 2, 50000), ("16 registers", post(16), 64, 5000),
            ("128 registers", post(128), 512, 2000), ("1,024 registers", post(1024), 4096, 1000)):
        empty = seconds(pack(text, READ, 0))
        for name, code in (("read", READ), ("write", WRITE)):
            each = (seconds(pack(text, code, accesses)) - empty) / accesses
            print(f"| {label} | {fields:,} | {name} | {each * 1e6:,.1f} |")


main()
