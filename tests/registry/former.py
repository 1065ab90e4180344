"""The former registries of everyday formats stand under their MD5s: a journal that was begun with one goes on with it, and
says which one that is."""

import hashlib
import os
import subprocess
import tempfile
import unittest

from lib.frames import create
from lib.program import EVERYDAY, TOP, run_plainly

FOLDER = os.path.dirname(EVERYDAY)
FORMER = sorted({name for name in os.listdir(FOLDER)} - {os.path.basename(EVERYDAY)})


def needed(folder):
    """Returns the MD5 of the registry of the journal `desk.journal` in a folder, by the command of docs/SERVICE.md."""
    with open(os.path.join(TOP, "docs", "SERVICE.md"), encoding="utf-8") as file:
        commands = [line for line in file if "dd if=desk.journal" in line]
    assert len(commands) == 1, commands
    return subprocess.run(["sh", "-c", commands[0]], cwd=folder, capture_output=True, text=True, check=True).stdout


def run_journal(journal, registry):
    return run_plainly(["run", "--registry", registry, "--journal", journal], create(1))


class Former(unittest.TestCase):
    def test_names(self):
        self.assertTrue(FORMER)
        for name in FORMER:
            with open(os.path.join(FOLDER, name), "rb") as file:
                self.assertEqual(name, hashlib.md5(file.read()).hexdigest() + ".csv")

    def test_a_journal_goes_on(self):
        for name in FORMER:
            with tempfile.TemporaryDirectory() as folder:
                journal = os.path.join(folder, "desk.journal")
                begun = run_journal(journal, os.path.join(FOLDER, name))
                self.assertEqual(begun[0], 0, begun)
                status, _, said = run_journal(journal, EVERYDAY)
                self.assertEqual((status, "Journal at 0" in said), (3, True), said)
                self.assertEqual(needed(folder) + ".csv", name)
                self.assertEqual(run_journal(journal, os.path.join(FOLDER, needed(folder) + ".csv")), begun)


if __name__ == "__main__":
    unittest.main()
