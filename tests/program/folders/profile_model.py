"""`profile` beside the plain model (tests/program/model): its CSV, byte for byte, for each hash, limit and mode, over random
trees and random registries.

The model keeps whole files, finds their formats in their first and last bytes, and puts the rows together field by
field."""
import os
import random
import subprocess
import sys
import unittest
from concurrent.futures import ProcessPoolExecutor
from itertools import product
from types import SimpleNamespace

from lib.program import SAMPLE, TOP
from lib.trees import InFolder, profile, walk

sys.path.insert(0, os.path.join(TOP, "tests", "program", "model"))

from export import export_text  # noqa: E402
from found import find  # noqa: E402
from registry import Registry  # noqa: E402
from service import DIGESTS  # noqa: E402

SEED = 50
HASHES = ("none", "md5", "sha256")
LIMITS = (1, 2, 3, 5, 64, 65_536)
# how many trees there are for each hash, limit and mode
TREES = 3
WORKERS = 4
NAMES = [b"a.txt", b"b.MSG", b"c.abc", b"d.alp", b"e.let", b"f", b".q", b"g.q.", b'h".q', "\u00e9, i.abc".encode(), b"j\nk.let", b"l.x"]
FRONTS = [b"message", b"abc", b"abd", b"a", b""]
ENDS = [b"xyz", b"cba", b"d", b""]
# sizes about those of a block of a hash and of a read
SIZES = [0, 1, 3, 6, 55, 56, 63, 64, 65, 200, 65_535, 65_536, 65_537, 131_073]


def content(chance):
    """Makes a file's bytes: what a signature may begin and end with, and between them letters of patterns."""
    size = chance.choice(SIZES[:10] if chance.randrange(6) else SIZES)
    front, end = chance.choice(FRONTS), chance.choice(ENDS)
    middle = bytes(chance.choices(b"abcd", k=max(0, min(size, 200) - len(front) - len(end))))
    # (long files have no letters in the middle, so that the model is not slow)
    return front + middle + bytes(max(0, size - len(front) - len(middle) - len(end))) + end


def model(top, registry, hash, limit, match_all):
    """The CSV of a folder by the definition."""
    nodes = []
    for row in walk(top)[0]:
        node = SimpleNamespace(number=int(row["ID"]), parent=int(row["PARENT_ID"] or 0), path=row["FILE_PATH"].encode(), name=row["NAME"].encode(), is_file=row["TYPE"] == "File")
        node.modified = int(os.stat(top + node.path).st_mtime // 1)
        node.size, node.method, node.formats, node.mismatch, node.digest = 0, "", [], False, ""
        if node.is_file:
            with open(top + node.path, "rb") as file:
                text = file.read()
            node.size, node.digest = len(text), DIGESTS[hash](text)
            node.method, node.formats, node.mismatch = find(registry, node.name, text, limit, match_all)
        nodes.append(node)
    return export_text(nodes, False, [], hash)


class Model(InFolder):
    def fill(self, chance, folder, depth):
        for name in chance.sample(NAMES, chance.randrange(1, len(NAMES))):
            path = folder + b"/" + name
            if depth < 3 and chance.randrange(4) == 0:
                self.folder(path)
                self.fill(chance, path, depth + 1)
            else:
                self.file(path, content(chance), chance.randrange(-(10**9), 2 * 10**9))

    def compare(self, number, hash, limit, match_all):
        """Compares the CSV of the tree of this number with the model's."""
        chance = random.Random(f"{SEED} {number} {hash} {limit} {match_all}")
        self.fill(chance, b"", 0)
        registry = SAMPLE
        if number:
            registry = self.work + b"/registry.csv"
            script = os.path.join(TOP, "tests", "program", "model", "random_registry.py")
            with open(registry, "wb") as file:
                subprocess.run([sys.executable, "-S", "-B", script, str(chance.randrange(10**6)), "12"], stdout=file, check=True)
        with open(registry, "rb") as file:
            due = model(self.top, Registry(file.read()), hash, limit, match_all)
        status, out, said = profile(self.top, "--registry", registry, "--hash", hash, "--limit", str(limit), *["--match-all"] * match_all)
        self.assertEqual(status, 0, said)
        self.assertTrue(out == due, f"the CSV of tree {number} by {hash}, {limit}, {match_all} is another")

    def test_each_hash_limit_and_mode(self):
        cases = [(number, *how) for how in product(HASHES, LIMITS, (False, True)) for number in range(TREES)]
        with ProcessPoolExecutor(WORKERS) as pool:
            wrong = [it for it in pool.map(compare, cases) if it is not None]
        self.assertEqual(wrong, [])


def compare(case):
    """Compares one tree in a folder of its own: what is wrong, if anything is."""
    test = Model()
    test.setUp()
    try:
        test.compare(*case)
    except AssertionError as wrong:
        return str(wrong)
    finally:
        test.doCleanups()
    return None


if __name__ == "__main__":
    unittest.main()
