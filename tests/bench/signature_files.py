"""Makes registries of large signature files (lib/large_signatures.py), and identifies files by one of PRONOM's size.

Usage: signature_files.py, with the program's path in DROID_DESK and tests/ on Python's path. Prints for each file the median
seconds of `registry` and the greatest resident bytes, with the limits; and the milliseconds of a Finish under the registry of the
usual one.
"""
import os
import statistics
import sys
import tempfile
from random import Random
from subprocess import DEVNULL

from lib.costs import cost_of
from lib.large_signatures import HOSTILE, write
from lib.program import PROGRAM
from registries import measure_contents

ROUNDS = 5
# seconds and bytes for the usual file, milliseconds to identify a file by its registry, and seconds for a hostile one
LIMIT_SECONDS, LIMIT_MEMORY, LIMIT_FINISH, LIMIT_HOSTILE = 1.5, 64_000_000, 5, 2


def conversion(path, target, err):
    """The status, seconds and memory of `registry`."""
    status, seconds, _, memory = cost_of([PROGRAM, "registry", path, "--output", target], err=err)
    return status, seconds, memory


def first_line(path):
    with open(path, encoding="utf-8", errors="replace") as file:
        return file.readline().rstrip("\n")


def measure_usual(place, path):
    target = os.path.join(place, "registry.csv")
    write("usual", path)
    rounds = [conversion(path, target, DEVNULL) for _ in range(ROUNDS + 1)][1:]
    if {status for status, _, _ in rounds} - {0, 5}:
        sys.exit(f"registry ended with another status: {rounds}")
    seconds, memory = statistics.median(it[1] for it in rounds), max(it[2] for it in rounds)
    print(f"registry of {os.path.getsize(path)} bytes: {seconds:.2f} seconds, limit {LIMIT_SECONDS}; {memory} bytes resident, limit {LIMIT_MEMORY}", flush=True)
    with open(target, "rb") as file:
        text = file.read()
    contents = {"random bytes": Random(2).randbytes(131_072), "letters": b"The quick brown fox " * 6_554, "zeros": bytes(131_072)}
    measure_contents(place, f"that registry (limit {LIMIT_FINISH} milliseconds)", text, contents)


def measure_hostile(place, path, name, first):
    write(name, path)
    said = os.path.join(place, "said")
    with open(said, "wb") as err:
        status, seconds, memory = conversion(path, os.path.join(place, "hostile.csv"), err)
    line = first_line(said)
    print(f"registry of {name}: {seconds:.2f} seconds, limit {LIMIT_HOSTILE}; {memory} bytes resident; status {status}, {line}", flush=True)
    return line == first


def main():
    with tempfile.TemporaryDirectory() as place:
        path = os.path.join(place, "signatures.xml")
        measure_usual(place, path)
        different = [name for name, (_, first) in HOSTILE.items() if not measure_hostile(place, path, name, first)]
    if different:
        sys.exit(f"registry says otherwise of {different}")


if __name__ == "__main__":
    main()
