"""Runs `run` over frames, and counts or refuses its allocations. The variable REFUSING has the path of the built
refuse.c. The frames are in a file, so that each read but the last has as many bytes as are asked for, and the same stream
always has the same allocations."""

import os
import subprocess
import tempfile
from typing import NamedTuple

from lib.connections import SECONDS
from lib.frames import HEADER, frame, refusal
from lib.program import PROGRAM, faults

REFUSING = os.environ["REFUSING"]
COUNTS_FILE = os.path.join(os.path.dirname(REFUSING), "counts")

# the refusal for memory
MEMORY = 18

# how many bytes `run` reads at once
READ = 65_536
# the number of a request that fills a read
FILLER = 9_999


class Counts(NamedTuple):
    """The number of the program's allocations, their bytes, and the bytes that it held at the end of its input."""

    asked: int
    bytes: int
    held: int

    def less(self, before):
        return Counts(*(late - early for late, early in zip(self, before)))


def filled(frames):
    """Appends a request of no kind, so that these are whole reads. What follows begins with a read and a turn of its own."""
    return frames + frame(9, 1, FILLER, bytes(-(len(frames) + HEADER.size) % READ))


FILLED = refusal(FILLER, 1)


def last_frame(written):
    """Returns the kind and the number of the last of these frames."""
    place = 0
    while True:
        _, kind, _, number, length = HEADER.unpack_from(written, place)
        place += HEADER.size + length
        if place == len(written):
            return kind, number


def run_over(frames, options=(), **variables):
    """Runs `run` over these frames: its status, its standard output and its standard error."""
    with tempfile.TemporaryFile() as stream:
        stream.write(frames)
        stream.seek(0)
        done = subprocess.run(
            [PROGRAM, "run", *options],
            stdin=stream,
            capture_output=True,
            timeout=4 * SECONDS,
            env={"LD_PRELOAD": REFUSING, **{name: str(value) for name, value in variables.items()}},
        )
    return done.returncode, done.stdout, faults(done.stderr).decode("ascii")


def counted(frames, options=()):
    """Runs `run` over these frames with memory to spare: its standard output, and its counts."""
    ended, written, said = run_over(frames, options, COUNTS=COUNTS_FILE)
    assert (ended, said) == (0, ""), (ended, said)
    with open(COUNTS_FILE, encoding="ascii") as counts:
        return written, Counts(*map(int, counts.read().split()))
