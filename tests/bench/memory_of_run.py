"""Measures the memory of `run` with the most unfinished files, each of 2^40 bytes and with the most waiting pieces;
and with a quarter of them in version 2, whose pieces are four times as large.

Usage: memory_of_run.py, with the program's path in DROID_DESK and tests/ on Python's path. Prints the largest
resident memory, its limit and the ratio; ends with status 1 if the memory is above the limit.
"""

import sys

from lib.frames import ADD_FILE, LARGEST_FILE, LIMITS, MOST_UNFINISHED, PIECE, SCAN_LIMIT, TAKEN, file_body, piece_body
from lib.processes import most_resident
from measured_run import MeasuredRun

WAITING = 15
# versions and numbers of files
LOADS = [(1, MOST_UNFINISHED), (2, MOST_UNFINISHED // 4)]
LIMIT = 1.2


def is_within(version, files):
    """Prints the memory with this many files, and returns whether it is within the limit."""
    piece = LIMITS[version].piece
    with MeasuredRun(version=version) as service:
        for node in service.nodes_of(ADD_FILE, [file_body(b"%d" % at, LARGEST_FILE, piece) for at in range(files)]):
            for index in range(1, WAITING + 1):
                service.ask(PIECE, piece_body(node, index, bytes([node]) * piece), TAKEN)
        most = most_resident(service.process)
    kept = files * (2 * SCAN_LIMIT + 16 * piece)
    print(f"run: {files} unfinished files with {WAITING} waiting pieces of {piece} bytes each, in version {version}")
    print(f"  {most} bytes resident at the most; limit {LIMIT * kept:.0f}; ratio {most / kept:.2f}", flush=True)
    return most <= LIMIT * kept


def main():
    return 0 if all([is_within(*load) for load in LOADS]) else 1


sys.exit(main())
