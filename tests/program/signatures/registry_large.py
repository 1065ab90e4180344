"""A signature file of PRONOM's size, and hostile ones: what they cost a processor, in memory, and what is said of them."""
import os
import tempfile
import unittest

from conversions import PARTLY, left_out, rows_of, run
from lib.costs import cost_of
from lib.large_signatures import BYTES, HOSTILE, write
from lib.program import PROGRAM
from signature_file import read_signature_file

# seconds of a processor and bytes; the hostile files are small ones, which a cost that grows faster than they do would exceed
MOST_SECONDS, MOST_HOSTILE_SECONDS, MOST_MEMORY = 1.5, 1, 64_000_000


class Large(unittest.TestCase):
    def setUp(self):
        folder = tempfile.TemporaryDirectory()
        self.addCleanup(folder.cleanup)
        self.path, self.target, self.said = (os.path.join(folder.name, name) for name in ("signatures.xml", "registry.csv", "said"))

    def cost(self):
        """Makes the registry of the file: the status, the seconds of a processor and the memory, and what was said."""
        with open(self.said, "wb") as err:
            status, _, seconds, memory = cost_of([PROGRAM, "registry", self.path, "--output", self.target, "--quiet"], err=err)
        with open(self.said, encoding="utf-8") as file:
            return status, seconds, memory, file.read()

    def test_usual(self):
        write("usual", self.path)
        status, seconds, memory, _ = self.cost()
        self.assertEqual(status, PARTLY)
        self.assertLess(seconds, MOST_SECONDS)
        self.assertLess(memory, MOST_MEMORY)
        with open(self.path, "rb") as file:
            model = read_signature_file(file.read())
        with open(self.target, "rb") as file:
            self.assertEqual(rows_of(file.read(), "FEP"), [*model.rows()])
        lost = {(puid, int(name)) for puid, kind, name, _ in left_out(run(self.path)[2]) if kind == "signature"}
        wrong = {puid: it for puid, form in model.kept.items() for it in form.signatures if bool(model.signatures[it].reason) != ((puid, it) in lost)}
        self.assertEqual(wrong, {})

    def test_hostile(self):
        for name, (_, first) in HOSTILE.items():
            with self.subTest(name):
                write(name, self.path, BYTES)
                _, seconds, _, said = self.cost()
                self.assertTrue(said.startswith(first), said[:200])
                self.assertLess(seconds, MOST_HOSTILE_SECONDS)


if __name__ == "__main__":
    unittest.main()
