"""Identifies files through the program, and reads the same files by other tools.

Usage: compare_identify.py [library] [one] [names], with the program's path in DROID_DESK and tests/ on Python's path.
Without a word, all three:

- library: /usr/lib of this machine, beside `find` with a program in C that reads both ends of each file, and beside
  `file --mime-type`, one round;
- one: one file, from the start to the end of the program, with the everyday formats and with 2,500 others;
- names: lists of 20,000 and of 200,000 names, for the memory.

Prints for each the median seconds, and those of a processor, with the ratios and the limits. The rounds of both tools go in
turns, after one that is not counted.
"""
import os
import statistics
import subprocess
import sys
import tempfile
from random import Random

from compare_profile import files_below
from lib.costs import cost_of
from lib.processes import measured
from lib.program import PROGRAM

ROUNDS = 5
# how often one file is identified
STARTS = 31
# how many times another tool's seconds `identify` may take, the seconds of one file, and the bytes that it may hold
LIMIT_FILE = 0.05
LIMIT_FIND = 1.6
LIMIT_ONE = {"everyday formats": 0.010, "2,500 formats": 0.060}
LIMIT_MEMORY = 24_000_000


def run(*words):
    """Runs a command; returns its seconds, and those of a processor."""
    status, *cost, _ = cost_of(words)
    if status not in (0, 5):
        sys.exit(f"{words[:4]} ended with status {status}")
    return cost


def medians(rounds, *tools):
    """Runs the tools in turns; returns the median seconds of each, and those of a processor."""
    costs = [[run(*words) for words in tools] for _ in range(rounds + 1)][1:]
    return [[statistics.median(cost[at] for cost in each) for at in (0, 1)] for each in zip(*costs)]


def compare_library(work):
    top, ends = "/usr/lib", work + "/read_ends"
    source = os.path.join(os.path.dirname(os.path.abspath(__file__)), "read_ends.c")
    subprocess.run([os.environ.get("CC", "cc"), "-O2", "-o", ends, source], check=True)
    files = files_below(top)
    with open(work + "/names", "wb") as file:
        file.write(b"\n".join(path for path in files if b"\n" not in path) + b"\n")
    own, found = medians(ROUNDS, [PROGRAM, "identify", "-r", top], ["find", top, "-type", "f", "-exec", ends, "{}", "+"])
    print(f"identify: {len(files)} files of {top}: {own[0]:.2f} seconds, {own[1]:.2f} of a processor")
    print(f"  find with a read of both ends: {found[0]:.2f}, {found[1]:.2f}; ratio {own[0] / found[0]:.2f}, limit {LIMIT_FIND}", flush=True)
    other = run("file", "--mime-type", "-f", work + "/names")
    print(f"  file --mime-type: {other[0]:.2f}, {other[1]:.2f}; ratio {own[0] / other[0]:.3f}, limit {LIMIT_FILE}", flush=True)


def registry(count):
    """Returns a registry of this many formats, each with an extension and four signatures of random bytes."""
    chance, rows = Random(1), []
    for at in range(count):
        one, two, three, four = (chance.randbytes(12).hex().upper() for _ in range(4))
        rows.append(
            f"F,bench/{at},Format {at},1.0,application/x-{at},\nE,bench/{at},e{at},,,\n"
            f"S,bench/{at},BOF,0,0,{one[:16]}\nS,bench/{at},BOF,0,0,{two[:8]}{{2-6}}{two[8:16]}\n"
            f"S,bench/{at},BOF,0,1024,{three[:12]}\n"
            f"S,bench/{at},BOF,0,0,{four[:8]}*{four[8:16]}\nB,bench/{at},EOF,0,0,{four[16:]}\n"
        )
    return "".join(rows)


def compare_one(work):
    large = work + "/large.csv"
    with open(large, "w", encoding="ascii") as file:
        file.write(registry(2_500))
    for kind, options in (("everyday formats", []), ("2,500 formats", ["--registry", large])):
        ((seconds, of_processor),) = medians(STARTS, [PROGRAM, "identify", *options, "/usr/bin/env"])
        print(f"identify: one file, {kind}: {seconds * 1000:.1f} ms, {of_processor * 1000:.1f} of a processor; limit {LIMIT_ONE[kind] * 1000:.0f}", flush=True)


def compare_names(work):
    for count in (20_000, 200_000):
        with open(work + "/names", "wb") as file:
            file.write(b"/usr/bin/env\0" * count)
        seconds, memory = measured([PROGRAM, "identify", "--files-from", work + "/names", "-0"], (0,), stdout=subprocess.DEVNULL)
        print(f"identify: a list of {count} names: {seconds:.2f} seconds, {memory} bytes resident, limit {LIMIT_MEMORY}", flush=True)


PARTS = {"library": compare_library, "one": compare_one, "names": compare_names}


def main():
    for name in sys.argv[1:] or PARTS:
        with tempfile.TemporaryDirectory() as work:
            PARTS[name](work)


if __name__ == "__main__":
    main()
