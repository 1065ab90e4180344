"""Sends a file of 256 MiB in the largest pieces of each version through the program's `run`, from a file to a file.

Usage: compare_versions.py, with the program's path in DROID_DESK and tests/ on Python's path. Prints, for pieces of
1 MiB in version 1, also with the last of each sixteen first, and of 4 MiB in version 2 with each hash and with none, the
milliseconds by the clock and of a processor, the ratio to another row and its limit; and the first row beside hashlib's
MD5 of all pieces twice: for each request's mark, and for the file's hash. The shortest of some rounds counts.
"""

import hashlib
import os
import sys
import tempfile
import time
from typing import NamedTuple

from lib.frames import FINISHED, MD5, NO_HASH, SHA256, frame
from loads import through_program, turned, whole_file, write

SIZE = 256 << 20
CONTENT = (bytes(range(251)) * (SIZE // 251 + 1))[:SIZE]
ROUNDS = 5
# how many times as long as hashlib's MD5 twice the first row takes at most: 1.15 times the program's own MD5, which takes
# 1.18 times as long as hashlib's
LIMIT = 1.35


class Row(NamedTuple):
    """A version, a hash, the size of pieces, the row with which it is compared, with the limit of the ratio, and the order
    of the pieces."""

    version: int
    hash: int
    piece: int
    beside: str = None
    limit: float = None
    order: callable = range


FIRST = "version 1, MD5"
ROWS = {
    FIRST: Row(1, MD5, 1 << 20),
    "version 1, MD5, the last of each sixteen first": Row(1, MD5, 1 << 20, FIRST, 1.05, turned),
    "version 2, MD5": Row(2, MD5, 4 << 20, FIRST, 1.0),
    "version 2, none": Row(2, NO_HASH, 4 << 20, "version 2, MD5", 0.6),
    "version 2, SHA-256": Row(2, SHA256, 4 << 20),
}
DIGESTS = {NO_HASH: b"", MD5: hashlib.md5(CONTENT).digest(), SHA256: hashlib.sha256(CONTENT).digest()}


def check(row, target):
    """Checks that the file was finished with its hash and without formats."""
    named = bytes([row.hash]) if row.version == 2 else b""
    last = frame(FINISHED, 1, 2 + SIZE // row.piece, b"\0\0" + named + DIGESTS[row.hash] + b"\0\0", row.version)
    with open(target, "rb") as replies:
        if not replies.read().endswith(last):
            sys.exit(f"{row}: the file was not finished as it has to be")


def md5_alone(piece):
    """Returns the seconds of a processor that hashlib's MD5 takes for the content in pieces."""
    content, hash = memoryview(CONTENT), hashlib.md5()
    begun = time.process_time()
    for start in range(0, SIZE, piece):
        hash.update(content[start : start + piece])
    took = time.process_time() - begun
    assert hash.digest() == DIGESTS[MD5]
    return took


def measured(folder):
    """Returns the shortest times of each row, and of MD5 alone."""
    sources = {name: os.path.join(folder, name) for name in ROWS}
    target = os.path.join(folder, "replies")
    times, alone = {name: [] for name in ROWS}, []
    for name, row in ROWS.items():
        write(sources[name], whole_file(CONTENT, row.piece, row.version, row.hash, row.order))
        through_program(sources[name], target)
        check(row, target)
    for _ in range(ROUNDS):
        for name, source in sources.items():
            times[name].append(through_program(source, target))
        alone.append(md5_alone(ROWS[FIRST].piece))
    return {name: (min(took.clock for took in found), min(took.processor() for took in found)) for name, found in times.items()}, min(alone)


def main():
    with tempfile.TemporaryDirectory() as folder:
        times, alone = measured(folder)
    for name, row in ROWS.items():
        pieces = f"{SIZE // row.piece} pieces of {row.piece >> 20} MiB"
        clock, used = times[name]
        print(f"run: {pieces} ({name}): {clock * 1000:.1f} milliseconds from file to file, {used * 1000:.1f} of a processor")
        if row.beside:
            print(f"  {used / times[row.beside][1]:.2f} times as long as {row.beside}, limit {row.limit:.2f}")
    ratio = times[FIRST][1] / alone / 2
    print(f"  {FIRST}: {ratio:.2f} times as long as hashlib's MD5 twice ({alone * 1000:.1f} milliseconds each), limit {LIMIT}", flush=True)


main()
