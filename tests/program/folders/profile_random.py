"""A profile of a random tree is byte for byte the CSV that a service exports of it: 1,000 trees by a fixed seed.

The service gets the folders and files one by one from `submit`, so its profile comes by another way: requests, pieces
and tables in the place of eight lanes."""
import os
import random
import shutil
import subprocess
import tempfile
import unittest
from concurrent.futures import ThreadPoolExecutor

from lib.program import EVERYDAY, PROGRAM, Serve

SEED = 50
TREES = 1_000
# the service keeps this many profiles
PROFILES = 64
WORKERS = 4
HASHES = ("md5", "sha256", "none")
LIMITS = ("1", "7", "64", "4096", "65536")
# a read takes 65,536 bytes, a block of a hash 64
EDGES = [0, 1, 54, 55, 56, 57, 63, 64, 65, 119, 120, 127, 128, 4095, 4096, 4097, 65535, 65536, 65537, 131071, 131072, 131073]
FRONTS = [b"", b"%PDF-1.4\n", b"\x89PNG\r\n\x1a\n\0\0\0\rIHDR", b"PK\3\4", b"GIF89a", b"\xff\xd8\xff\xe0\0\x10JFIF\0"]
NAMES = ["a.txt", "b.pdf", "c.PNG", "d", ".e", "f g", "h,i", 'j"k', "l\nm", "n\\o", "\u00e9.gif", "zip.zip", "-x", "~"]


def size_of(chance):
    kind = chance.randrange(4)
    if kind == 0:
        return chance.choice(EDGES)
    return chance.randrange((200, 5_000, 300_000)[kind - 1] if chance.randrange(8) == 0 else 200)


def fill(chance, path, depth):
    """Makes some files and folders in a folder."""
    for name in chance.sample(NAMES, chance.randrange(len(NAMES))):
        below = f"{path}/{name}"
        if depth < 4 and chance.randrange(3) == 0:
            os.mkdir(below)
            fill(chance, below, depth + 1)
            continue
        size = size_of(chance)
        with open(below, "wb") as file:
            file.write((chance.choice(FRONTS) + chance.randbytes(size))[:size])
        os.utime(below, (0, chance.randrange(-(10**9), 2 * 10**9)))


def options_of(chance):
    words = ["--hash", chance.choice(HASHES), "--limit", chance.choice(LIMITS)]
    return words + ["--match-all"] * chance.randrange(2)


def compare(work, number, port):
    """Profiles the tree of this number both ways, and returns whether both wrote the same."""
    chance = random.Random(f"{SEED} {number}")
    top = f"{work}/{number}"
    os.mkdir(top)
    fill(chance, top, 0)
    words = options_of(chance)
    files = [f"{work}/{number}.{way}" for way in ("profile", "submit")]
    commands = [
        ["profile", top, "--registry", EVERYDAY, "--output", files[0]],
        ["submit", top, "--port", str(port), "--client", str(number), "--export", files[1]],
    ]
    for command in commands:
        done = subprocess.run([PROGRAM, *command, "--quiet", *words], capture_output=True, timeout=120)
        if done.returncode != 0:
            return f"tree {number}: {command[0]} ended with status {done.returncode}: {done.stderr!r}"
    texts = []
    for file in files:
        with open(file, "rb") as text:
            texts.append(text.read())
        os.remove(file)
    shutil.rmtree(top)
    return None if texts[0] == texts[1] else f"tree {number}: {' '.join(words)}: the CSVs differ"


class RandomTrees(unittest.TestCase):
    def test_as_a_service_exports_them(self):
        differ = []
        with tempfile.TemporaryDirectory() as work, ThreadPoolExecutor(WORKERS) as pool:
            for first in range(0, TREES, PROFILES):
                numbers = range(first, min(first + PROFILES, TREES))
                with Serve.lasting(["--registry", EVERYDAY]) as service:
                    found = pool.map(lambda number: compare(work, number, service.port), numbers)
                    differ += [it for it in found if it is not None]
        self.assertEqual(differ, [])


if __name__ == "__main__":
    unittest.main()
