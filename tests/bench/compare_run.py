"""Sends frames through the program's `run` from a file to a file, and compares the time of a processor with the part
that the program itself uses, without reads and writes by the system.

Usage: compare_run.py, with the program's path in DROID_DESK and tests/ on Python's path. Prints, for 100,000 small
frames of two kinds and for 256 pieces of 1 MiB, the milliseconds by the clock and of a processor, the ratio and
its limit. The shortest of some rounds counts.
"""
import os
import sys
import tempfile

from lib.frames import create
from loads import count, folders, large_file, questions, through_program, whole_file, write

SMALL = 100_000
MIB = 1 << 20
LOADS = {
    "folders": lambda: [create(0), *folders(range(1, SMALL))],
    "status": lambda: [create(0), large_file(1, 256 * MIB, MIB), *questions(range(2, SMALL))],
    "pieces": lambda: whole_file(bytes(range(256)) * MIB, MIB),
}
# the rounds of each load, and the limit of its ratio
ROWS = [("folders", 3, 1.5), ("status", 5, 1.5), ("pieces", 3, 1.2)]


def compare(folder, load, rounds, limit):
    source = os.path.join(folder, load)
    target = source + ".replies"
    write(source, LOADS[load]())
    frames = count(source)
    times = []
    for _ in range(rounds):
        times.append(through_program(source, target))
        if count(target) != frames:
            sys.exit(f"{load}: the program answers {count(target)} frames of {frames}")
    took = min(times, key=lambda took: took.processor())
    print(
        f"run: {frames} frames ({load}, {os.path.getsize(source)} bytes): {min(times)[0] * 1000:.1f} milliseconds from file to"
        f" file, {took.processor() * 1000:.1f} of a processor, {took.user * 1000:.1f} of these without the system;"
        f" ratio {took.processor() / took.user:.2f}, limit {limit}",
        flush=True,
    )
    os.remove(source)
    os.remove(target)


def main():
    with tempfile.TemporaryDirectory() as place:
        for load, rounds, limit in ROWS:
            compare(place, load, rounds, limit)


main()
