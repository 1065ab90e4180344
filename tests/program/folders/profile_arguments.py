"""The command line of `profile`, its faults, and the registry in the program."""
import os
import subprocess
import sys
import unittest

from lib.program import TOP
from lib.trees import ALL_SKIPPED, LINK, LINKS, OWN_REGISTRY, SKIPPED, InFolder, lines, profile


class Arguments(InFolder):
    def test_wrong(self):
        for words in ([], [self.top, self.top], [self.top, "--limit", "0"], [self.top, "--limit", "65537"], [self.top, "--hash", "sha1"], [self.top, "--output"], [self.top, "--manifest"], [self.top, "--skipped"]):
            status, out, err = profile(*words)
            self.assertEqual((status, out), (2, b""), words)
            self.assertNotEqual(err, b"")

    def test_checksums_without_a_hash(self):
        sentence = b"the option '--manifest <FILE>' writes checksums: it cannot be used with '--hash none'"
        for words in (["--hash", "none", "--manifest", self.work + b"/sums"], ["--manifest", self.work + b"/sums", "--hash", "none"]):
            status, out, err = profile(self.top, *words)
            self.assertEqual((status, out), (2, b""))
            self.assertIn(sentence, err)
        self.assertEqual(os.listdir(self.work), [b"tree"])

    def test_no_folder(self):
        self.file(b"/a.txt", b"a")
        for folder in (self.work + b"/none", self.top + b"/a.txt", b""):
            status, out, err = profile(folder)
            self.assertEqual((status, out, lines(err, b"fault: ")), (4, b"", [b"Folder"]))

    def test_registry_first(self):
        bad = self.work + b"/bad.csv"
        with open(bad, "wb") as file:
            file.write(b"X\n")
        bad_record = b": record 1: expected six fields, the first of them F, E, S, B or P: is it a registry file?\n"
        missing = b": no such file: check the path after --registry\n"
        for registry, fault, said in ((bad, b"BadRecord at 1", bad_record), (self.work + b"/none", b"Read", missing)):
            status, out, err = profile(self.work + b"/none", "--registry", registry, "--output", self.work + b"/out")
            self.assertEqual((status, out, err), (3, b"", b"fault: " + fault + b"\n" + registry + said))
        self.assertEqual(os.listdir(self.work).count(b"out"), 0)

    def test_quiet(self):
        self.file(b"/a.txt", b"a")
        status, out, err = profile(self.top, "--quiet")
        self.assertEqual(status, 0)
        self.assertEqual(err.splitlines(), [OWN_REGISTRY])
        os.symlink(b"nowhere", self.top + b"/link")
        status, out, err = profile(self.top, "--quiet")
        self.assertEqual(status, 0)
        self.assertEqual(err.splitlines(), [OWN_REGISTRY, SKIPPED + b"/link: " + LINK, ALL_SKIPPED + b"1", LINKS + b"1"])

    def test_registry_in_the_program(self):
        # the program's sources have the registry as it stands in registries/
        subprocess.run([sys.executable, os.path.join(TOP, "tools", "embed.py"), "--check"], check=True)


if __name__ == "__main__":
    unittest.main()
