"""Profiles a folder, submits it to a service on this machine, and submits it again, beside two passes of MD5 over the
same bytes.

Usage: compare_submit.py, with the program's path in DROID_DESK and tests/ on Python's path. Makes a tree of 2,000
files and 1 GB below a temporary folder; prints seconds, their ratios and the largest resident memory of `submit`,
beside the limits. Both exports have to be the same.
"""
import hashlib
import os
import random
import shutil
import subprocess
import sys
import tempfile
import time

from lib.program import EVERYDAY, PROGRAM, Serve

FILES = 2_000
BYTES = 1_000_000_000
DEEP = 12
LARGEST = 64 << 20


def sizes():
    """Returns sizes from 0 to the largest, most of them small, of about BYTES together."""
    numbers = random.Random(7)
    parts = [numbers.paretovariate(0.6) for _ in range(FILES - 3)]
    scale = 1.0
    while sum(min(LARGEST, int(part * scale)) for part in parts) < BYTES - LARGEST:
        scale *= 1.02
    return [0, 1, LARGEST] + [min(LARGEST, int(part * scale)) for part in parts]


def make(top):
    """Makes the tree, and returns the paths of its files."""
    block = random.Random(8).randbytes(1 << 20)
    paths = []
    for place, size in enumerate(sizes()):
        folder = top + "".join(f"/level {level}" for level in range(place % DEEP))
        os.makedirs(folder, exist_ok=True)
        path = f"{folder}/{place}.{('txt', 'bin', 'pdf')[place % 3]}"
        with open(path, "wb") as file:
            for start in range(0, size, len(block)):
                file.write(block[: min(len(block), size - start)])
        paths.append(path)
    return paths


def two_passes(paths):
    """Returns the seconds of two passes of MD5 over the files."""
    began = time.perf_counter()
    for path in paths + paths:
        with open(path, "rb") as file:
            digest = hashlib.md5()
            while part := file.read(1 << 20):
                digest.update(part)
    return time.perf_counter() - began


def run(*words):
    """Returns the seconds of a run, and its largest resident memory in bytes."""
    began = time.perf_counter()
    process = subprocess.Popen([PROGRAM, *words], stdin=subprocess.DEVNULL, stdout=subprocess.DEVNULL)
    _, status, usage = os.wait4(process.pid, 0)
    if status != 0:
        sys.exit(f"{words[0]} ended with status {status}")
    return time.perf_counter() - began, usage.ru_maxrss * 1024


def submissions(top, work):
    """Yields the figures of the first submission and of the second, each with its export's text."""
    with Serve(2, ["--registry", EVERYDAY]) as service:
        for _ in range(2):
            export = f"{work}/submitted.csv"
            took = run("submit", top, "--port", str(service.port), "--client", "1", "--quiet", "--export", export)
            yield *took, read(export)


def read(path):
    with open(path, "rb") as file:
        return file.read()


def main():
    work = tempfile.mkdtemp()
    try:
        paths = make(f"{work}/tree")
        two_passes(paths)
        md5 = two_passes(paths)
        profile, _ = run("profile", f"{work}/tree", "--registry", EVERYDAY, "--quiet", "--output", f"{work}/profile.csv")
        (first, memory, text), (second, _, again) = submissions(f"{work}/tree", work)
        if not text == again == read(f"{work}/profile.csv"):
            sys.exit("the exports aren't the same")
    finally:
        shutil.rmtree(work)
    print(f"a folder of {FILES} files and {sum(sizes())} bytes")
    print(f"  two passes of md5: {md5:.2f} s; profile: {profile:.2f} s, {profile / md5:.2f} times as long, limit 1.25")
    print(f"  submit: {first:.2f} s, {first / profile:.2f} times as long as profile, limit 1.25; {memory >> 20} MiB resident at the most")
    print(f"  again: {second:.2f} s, {first / second:.0f} times as fast, at least 20")


main()
