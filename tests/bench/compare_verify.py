"""Compares folders with their profiles through the program, and the same files by other tools.

Usage: compare_verify.py [library] [rows] [quick], with the program's path in DROID_DESK and tests/ on Python's path.
Without a word, all three:

- library: /usr/lib of this machine against its own profile, beside `profile`, and beside `md5sum -c` on a list of its files;
- rows: 1,000,000 files of 100 bytes, for the memory;
- quick: `--quick` over 65,000 files, beside `find -printf` of their sizes and moments.

Prints for each the median seconds, with the ratios and the limits. The rounds of all tools go in turns, after one that is
not counted.
"""
import os
import statistics
import subprocess
import sys
import tempfile
import time

from compare_profile import files_below, make_small
from lib.processes import measured
from lib.program import PROGRAM

ROUNDS = 5
# how many times another tool's seconds `verify` may take, and the bytes that it may hold for 1,000,000 rows
LIMIT_PROFILE = 1.1
LIMIT_MD5SUM = 0.7
LIMIT_FIND = 1.5
LIMIT_MEMORY = 400_000_000


def seconds_of(*words, **more):
    start = time.perf_counter()
    run = subprocess.run(words, stdout=subprocess.DEVNULL, stderr=subprocess.DEVNULL, check=False, **more)
    if run.returncode not in (0, 5):
        sys.exit(f"{words} ended with status {run.returncode}")
    return time.perf_counter() - start


def medians(*tools):
    """Runs the tools in turns, and returns the median seconds of each."""
    times = [[tool() for tool in tools] for _ in range(ROUNDS + 1)][1:]
    return [statistics.median(each) for each in zip(*times)]


def profile(top, target):
    return seconds_of(PROGRAM, "profile", top, "--output", target, "--hash", "md5", "--quiet")


def compare_library(work):
    top, listed, sums = "/usr/lib", work + "/list.csv", work + "/list.md5"
    files = files_below(top)
    profile(top, listed)
    with open(sums, "wb") as file:
        subprocess.run(["xargs", "-0", "md5sum", "--"], input=b"\0".join(files) + b"\0", stdout=file, check=True)
    own, made, checked = medians(
        lambda: seconds_of(PROGRAM, "verify", top, "--against", listed, "--quiet"),
        lambda: profile(top, work + "/other.csv"),
        lambda: seconds_of("md5sum", "-c", "--quiet", sums),
    )
    print(f"verify: library: {len(files)} files: {own:.2f} seconds")
    print(f"  profile: {made:.2f} seconds; ratio {own / made:.2f}, limit {LIMIT_PROFILE}")
    print(f"  md5sum -c: {checked:.2f} seconds; ratio {own / checked:.2f}, limit {LIMIT_MD5SUM}", flush=True)


def small_tree(work, folders_of):
    """Makes this many folders, each with 1,000 files of 100 bytes, and their profile; returns the paths of both."""
    top, listed = work + "/small", work + "/list.csv"
    os.mkdir(top)
    make_small(top, folders_of, 1_000)
    profile(top, listed)
    return top, listed


def compare_rows(work):
    top, listed = small_tree(work, 1_000)
    seconds, memory = measured([PROGRAM, "verify", top, "--against", listed, "--quiet"], (0,), stdout=subprocess.DEVNULL)
    print(f"verify: 1000000 rows: {seconds:.2f} seconds, {memory} bytes resident, limit {LIMIT_MEMORY}", flush=True)


def compare_quick(work):
    top, listed = small_tree(work, 65)
    own, found = medians(
        lambda: seconds_of(PROGRAM, "verify", top, "--against", listed, "--quick", "--quiet"),
        lambda: seconds_of("find", top, "-printf", "%P %s %T@\n"),
    )
    print(f"verify --quick: 65000 files: {own:.2f} seconds")
    print(f"  find -printf: {found:.2f} seconds; ratio {own / found:.2f}, limit {LIMIT_FIND}", flush=True)


PARTS = {"library": compare_library, "rows": compare_rows, "quick": compare_quick}


def main():
    for name in sys.argv[1:] or PARTS:
        with tempfile.TemporaryDirectory() as work:
            PARTS[name](work)


if __name__ == "__main__":
    main()
