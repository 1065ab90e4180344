"""Files of requests of one client (docs/FORMATS.md), and the time that the program's `run` takes for them, from a
file to a file."""
import os
import subprocess
import sys
import time
from typing import NamedTuple

from lib.frames import HEADER, MD5, create, file, finish, folder, piece, status
from lib.program import PROGRAM


class Took(NamedTuple):
    """The seconds of a run by the clock, and those of a processor in the program and in the system."""

    clock: float
    user: float
    system: float

    def processor(self):
        return self.user + self.system


def folders(numbers):
    """Yields requests for folders at the top, each with a name of its own."""
    return (folder(number, b"folder %d" % number, modified=number) for number in numbers)


def questions(numbers):
    """Yields Status requests for node 1."""
    return (status(number, 1) for number in numbers)


def large_file(number, size, piece_size, version=1):
    return file(number, b"large.bin", size, piece_size, version=version)


def turned(count):
    """Returns the indexes of this many pieces, the last of each sixteen first, so that the most pieces wait."""
    return sorted(range(count), key=lambda index: (index // 16, -index))


def whole_file(content, piece_size, version=1, hash=MD5, order=range):
    """Yields the requests of a profile and a file in pieces of one size, up to its Finish."""
    count = -(-len(content) // piece_size)
    yield create(0, version=version, hash=hash)
    yield large_file(1, len(content), piece_size, version)
    for index in order(count):
        yield piece(2 + index, 1, index, content[index * piece_size : (index + 1) * piece_size], version=version)
    yield finish(2 + count, 1, version=version)


def write(path, frames):
    with open(path, "wb") as out:
        out.writelines(frames)


def count(path):
    """Counts the frames of a file, which have to be whole."""
    frames = 0
    left = os.path.getsize(path)
    with open(path, "rb") as replies:
        while left:
            header = replies.read(HEADER.size)
            length = int.from_bytes(header[14:], "big")
            left -= HEADER.size + length
            if len(header) < HEADER.size or left < 0:
                sys.exit("the replies end within a frame")
            replies.seek(length, os.SEEK_CUR)
            frames += 1
    return frames


def through_program(source, target):
    """Runs `run` from a file to a file."""
    with open(source, "rb") as frames, open(target, "wb") as replies:
        start = time.perf_counter()
        process = subprocess.Popen([PROGRAM, "run"], stdin=frames, stdout=replies)
        _, ended, usage = os.wait4(process.pid, 0)
        took = time.perf_counter() - start
    process.returncode = os.waitstatus_to_exitcode(ended)
    if process.returncode != 0:
        sys.exit(f"run ended with status {process.returncode}")
    return Took(took, usage.ru_utime, usage.ru_stime)
