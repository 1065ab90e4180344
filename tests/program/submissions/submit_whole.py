"""A folder is submitted. Its export has the rows of Python's own walk."""
import os
import unittest

from lib.program import SAMPLE, Serve
from lib.submissions import WithTree, fault, submit
from lib.trees import ALL_SKIPPED, LINK, profile, walk


class Whole(WithTree):
    def test_export_is_the_profile(self):
        rows, _ = walk(self.top)
        with Serve.lasting() as service:
            status, err = submit(self.top, service.port, 7, "--export", self.export)
        self.assertEqual((status, err), (0, b""))
        self.same(self.exported(), rows)
        self.assertEqual(self.beside(), [])

    def test_skipped(self):
        os.symlink(b"z.txt", self.top + b"/link")
        rows, skipped = walk(self.top)
        with Serve.lasting() as service:
            status, err = submit(self.top, service.port, 7, "--export", self.export)
        self.assertEqual(status, 5)
        self.assertIn(b"/link", err)
        self.assertEqual(skipped, {b"/link": LINK})
        self.same(self.exported(), rows)

    def test_same_text_as_profile(self):
        _, text, _ = profile(self.top, "--registry", SAMPLE, "--quiet")
        with Serve.lasting() as service:
            status, _ = submit(self.top, service.port, 7, "--export", self.export)
        self.assertEqual(status, 0)
        self.assertEqual(self.exported(), text)

    def test_hash_and_large_pieces(self):
        """Only version 2 has pieces of 4 MiB and SHA-256."""
        self.file(b"/large", bytes(range(256)) * 20_000)
        _, text, _ = profile(self.top, "--registry", SAMPLE, "--hash", "sha256", "--quiet")
        with Serve.lasting() as service:
            status, _ = submit(self.top, service.port, 7, "--hash", "sha256", "--export", self.export, piece=4_194_304)
        self.assertEqual(status, 0)
        self.assertEqual(self.exported(), text)

    def test_summary(self):
        with Serve.lasting() as service:
            status, err = submit(self.top, service.port, 7, quiet=False)
        self.assertEqual(status, 0)
        self.assertIn(ALL_SKIPPED + b"0\nfolders and files: 17\n", err)

    def test_export_that_can_not_be_made(self):
        """Nothing is sent then: nobody listens on port 1."""
        path = self.work + b"/none/export.csv"
        sentence = "%s: cannot be created: its folder does not exist: create it first" % os.fsdecode(path)
        for option in ("--export", "--skipped"):
            self.assertEqual(submit(self.top, 1, 7, option, path), (4, fault("Output", sentence)))

    def test_no_folder(self):
        path = self.top + b"/none"
        self.assertEqual(submit(path, 1, 7), (4, fault("Folder", "%s: no such folder: check the path" % os.fsdecode(path))))


if __name__ == "__main__":
    unittest.main()
