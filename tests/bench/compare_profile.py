"""Profiles folders through the program, and reads the same files by other tools.

Usage: compare_profile.py [made] [library] [large] [small], with the program's path in DROID_DESK and tests/ on Python's
path. Without a word, all four:

- made: 2,000 files of 1,000,000,000 bytes together, the largest of 64 MiB, nested 12 deep, by a fixed seed;
- library: /usr/lib of this machine;
- large: one file of 1 GiB;
- small: 1,000,000 files of 100 bytes in 1,000 folders, and 100,000 such files for the memory.

Prints for each the median seconds of `profile` to a file and of the other tools over the same files, which are read once
before, with the ratios and the limits. The rounds of all tools go in turns.
"""
import os
import random
import shutil
import statistics
import subprocess
import sys
import tempfile
import time

from lib.processes import measured
from lib.program import PROGRAM

SEED = 32
FILES = 2_000
BYTES = 1_000_000_000
LARGEST = 64 << 20
DEPTH = 12
FOLDERS = 120
CHUNK = 1 << 20
ROUNDS = 5

# how many times another tool's seconds `profile` may take
LIMITS = {
    ("made", "md5sum"): 0.45,
    ("made", "hashdeep"): 0.45,
    ("made", "hashdeep with 4 threads"): 1.0,
    ("made", "sha256sum"): 0.5,
    ("library", "md5sum"): 0.55,
    ("library", "file"): 0.1,
    ("large", "md5sum"): 1.2,
    ("small", "find and md5sum"): 1.0,
}
# of the memory of 1,000,000 files: bytes, and times that of 100,000
LIMIT_MEMORY = 128_000_000
LIMIT_GROWTH = 1.2

OTHERS = {
    "md5sum": ["xargs", "-0", "md5sum", "--"],
    "sha256sum": ["xargs", "-0", "sha256sum", "--"],
    "file": ["xargs", "-0", "file", "--mime-type", "--"],
    "hashdeep": ["xargs", "-0", "hashdeep", "-c", "md5", "-j0"],
    "hashdeep with 4 threads": ["xargs", "-0", "hashdeep", "-c", "md5", "-j4"],
}

# an extension, and the first bytes of its files
KINDS = [
    (".png", b"\x89PNG\r\n\x1a\n\0\0\0\rIHDR"),
    (".jpg", b"\xff\xd8\xff\xe0\0\x10JFIF\0\1\1"),
    (".pdf", b"%PDF-1.4\n"),
    (".zip", b"PK\3\4\x14\0\0\0"),
    (".gz", b"\x1f\x8b\x08\0"),
    (".xml", b'<?xml version="1.0" encoding="UTF-8"?>\n<root>'),
    (".txt", b"words and more words\n"),
    (".dat", b""),
]


def sizes(chance):
    """Returns the lengths of the files: as many of each order of magnitude, an empty one and one of the largest
    size."""
    drawn = [2 ** chance.uniform(0, 23) for _ in range(FILES - 2)]
    part = (BYTES - LARGEST) / sum(drawn)
    rest = [int(size * part) for size in drawn]
    rest[-1] += BYTES - LARGEST - sum(rest)
    return [0, LARGEST] + rest


def folders(chance):
    """Returns paths of folders: a chain of the full depth, and others below any of them."""
    paths = [""]
    for place in range(FOLDERS):
        fit = [path for path in paths if path.count("/") < DEPTH]
        above = paths[-1] if place < DEPTH else chance.choice(fit)
        paths.append(f"{above}/folder {place}")
    return paths[1:]


def content(place, front, size):
    return (front + random.Random(place).randbytes(max(size - len(front), 0)))[:size]


def make_tree(top):
    """Makes the tree of the seed."""
    chance = random.Random(SEED)
    paths = folders(chance)
    for path in paths:
        os.mkdir(top + path)
    for place, size in enumerate(sizes(chance)):
        extension, front = KINDS[place % len(KINDS)]
        with open(f"{top}{chance.choice(paths)}/file {place}{extension}", "wb") as file:
            file.write(content(place, front, size))


def make_small(top, folders_of, files_of):
    """Makes this many folders, each with this many files of 100 bytes."""
    for folder in range(folders_of):
        path = f"{top}/folder {folder}"
        os.mkdir(path)
        for place in range(files_of):
            with open(f"{path}/file {place}", "wb") as file:
                file.write(b"%100d" % (folder * files_of + place))


def files_below(top):
    """Returns the regular files below a folder."""
    return [path for path in subprocess.run(["find", top, "-type", "f", "-print0"], capture_output=True, check=True).stdout.split(b"\0") if path]


def profiled(top, target, hash_kind):
    """Returns the seconds of a profile, and its largest resident memory."""
    return measured([PROGRAM, "profile", top, "--output", target, "--hash", hash_kind, "--quiet"], (0, 5), stderr=subprocess.DEVNULL)


def seconds_of(top, files, other):
    """Returns the seconds of another tool over the files."""
    start = time.perf_counter()
    if other == "find and md5sum":
        with subprocess.Popen(["find", top, "-type", "f", "-print0"], stdout=subprocess.PIPE) as found:
            subprocess.run(["xargs", "-0", "md5sum", "--"], stdin=found.stdout, stdout=subprocess.DEVNULL, check=True)
    else:
        subprocess.run(OTHERS[other], input=b"\0".join(files) + b"\0", stdout=subprocess.DEVNULL, check=True)
    return time.perf_counter() - start


def compare(name, top, target, hash_kind, others):
    """Prints the times over a folder, and returns the largest resident memory of its profile."""
    files = files_below(top)
    for file in files:
        with open(file, "rb", buffering=0) as bytes_of:
            while bytes_of.read(CHUNK):
                pass
    present = [other for other in others if shutil.which(other.split()[0])]
    own, memory, times = [], 0, {other: [] for other in present}
    for _ in range(ROUNDS):
        seconds, most = profiled(top, target, hash_kind)
        own.append(seconds)
        memory = max(memory, most)
        for other in present:
            times[other].append(seconds_of(top, files, other))
    median = statistics.median(own)
    print(f"profile: {name}, {hash_kind}: {len(files)} files: {median:.2f} seconds, {memory} bytes resident", flush=True)
    for other in others:
        if other not in present:
            print(f"  {other}: not on this machine")
            continue
        beside = statistics.median(times[other])
        print(f"  {other}: {beside:.2f} seconds; ratio {median / beside:.2f}, limit {LIMITS[name, other]}", flush=True)
    return memory


def compare_made(work, target):
    top = work + "/made"
    os.mkdir(top)
    make_tree(top)
    os.sync()
    compare("made", top, target, "md5", ["md5sum", "hashdeep", "hashdeep with 4 threads"])
    compare("made", top, target, "sha256", ["sha256sum"])


def compare_library(_work, target):
    compare("library", "/usr/lib", target, "md5", ["md5sum", "file"])


def compare_large(work, target):
    top = work + "/large"
    os.mkdir(top)
    with open(top + "/file", "wb") as file:
        for place in range(1024):
            file.write(random.Random(place).randbytes(CHUNK))
    compare("large", top, target, "md5", ["md5sum"])


def compare_small(work, target):
    fewer, more = work + "/fewer", work + "/more"
    for top, folders_of in ((fewer, 100), (more, 1_000)):
        os.mkdir(top)
        make_small(top, folders_of, 1_000)
    os.sync()
    less = profiled(fewer, target, "md5")[1]
    memory = compare("small", more, target, "md5", ["find and md5sum"])
    print(f"  {memory} bytes resident, limit {LIMIT_MEMORY}; {memory / less:.2f} times that of 100,000 files, limit {LIMIT_GROWTH}")


PARTS = {"made": compare_made, "library": compare_library, "large": compare_large, "small": compare_small}


def main():
    for name in sys.argv[1:] or PARTS:
        with tempfile.TemporaryDirectory() as work:
            PARTS[name](work, work + "/profile.csv")


if __name__ == "__main__":
    main()
