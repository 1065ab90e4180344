"""More folders and files than a service holds in a profile, memory that doesn't grow with them, and what `verify` takes for
each."""
import csv
import io
import os
import subprocess
import time
import unittest

from lib.processes import most_resident
from lib.program import PROGRAM
from lib.trees import InFolder

FEW, MANY = 20_001, 100_001
IN_FOLDER = 1_000
# so much memory may a profile of MANY take beside one of FEW: less than 26 bytes a file
MORE = 2 << 20
# so much memory may `verify` take at all, and for a row of the list and the file that it names: twice 150 bytes and the
# path of 11
AT_ALL, EACH = 6 << 20, 2 * (150 + 11)


class Many(InFolder):
    def make(self, first, count):
        """Makes empty files, a thousand in each folder."""
        for number in range(first, count):
            folder = self.top + b"/%03d" % (number // IN_FOLDER)
            if number % IN_FOLDER == 0 or not os.path.isdir(folder):
                os.mkdir(folder)
            os.mknod(folder + b"/%06d" % number)

    def watched(self, command, *words):
        """Runs a command over the folder: its status, and its largest resident memory, which is read every five
        milliseconds: a run has to be long enough for many looks. (What the system says of an ended child has the memory of
        this process in it.)"""
        most = 0
        with subprocess.Popen([PROGRAM, command, self.top, "--quiet", *words], stdout=subprocess.DEVNULL, stderr=subprocess.DEVNULL) as run:
            while run.poll() is None:
                most = max(most, most_resident(run) or 0)
                time.sleep(0.005)
        self.assertGreater(most, 0)
        return run.returncode, most

    def run_over(self, *words):
        """Profiles the folder: its status, the CSV, and its largest resident memory."""
        out = self.work + b"/out.csv"
        status, most = self.watched("profile", "--output", out, *words)
        with open(out, encoding="utf-8", newline="") as file:
            return status, file.read(), most

    def due(self, count):
        """Yields the number, the parent's and the path of each row: first the folders, and then their files."""
        folders = -(-count // IN_FOLDER)
        for number in range(folders):
            yield str(number + 1), "", "/%03d" % number
        for number in range(count):
            yield str(folders + number + 1), str(number // IN_FOLDER + 1), "/%03d/%06d" % (number // IN_FOLDER, number)

    def test_many(self):
        self.make(0, FEW)
        few = self.run_over()
        self.make(FEW, MANY)
        many = self.run_over("--manifest", self.work + b"/list")
        verified, memory = self.watched("verify", "--against", self.work + b"/out.csv")
        for (status, text, _), count in ((few, FEW), (many, MANY)):
            self.assertEqual(status, 0)
            rows = csv.DictReader(io.StringIO(text, newline=""), strict=True)
            found = [(row["ID"], row["PARENT_ID"], row["FILE_PATH"]) for row in rows]
            self.assertTrue(found == list(self.due(count)), count)
        self.assertLess(many[2] - few[2], MORE)
        self.assertEqual(verified, 0)
        self.assertLess(memory, AT_ALL + MANY * EACH)
        with open(self.work + b"/list", "rb") as file:
            self.assertEqual(file.read().count(b"\n"), MANY)

    def test_many_skipped(self):
        """Skipped entries aren't kept either."""
        memory = []
        for count in (FEW, MANY):
            for number in range(count):
                folder = self.top + b"/%03d" % (number // IN_FOLDER)
                os.makedirs(folder, exist_ok=True)
                path = folder + b"/%06d" % number
                if not os.path.lexists(path):
                    os.symlink(b"nowhere", path)
            skipped = self.work + b"/skipped.csv"
            status, _, most = self.run_over("--skipped", skipped)
            self.assertEqual(status, 0)
            with open(skipped, "rb") as file:
                self.assertEqual(file.read().count(b"\n"), count + 1)
            memory.append(most)
        self.assertLess(memory[1] - memory[0], MORE)


if __name__ == "__main__":
    unittest.main()
