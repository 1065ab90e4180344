"""Reads of files that are interrupted, cut short, or fail."""
import os
import random
import unittest

from lib.trees import SKIPPED, InFolder, lines, profile, walk

# how many bytes are read at once
PIECE = 1 << 16


class Reads(InFolder):
    def setUp(self):
        super().setUp()
        some = random.Random(11)
        self.file(b"/a.bin", some.randbytes(3 * PIECE + 5))
        self.file(b"/b.txt", b"")
        self.file(b"/c.txt", b"some text")

    def with_reads(self, **how):
        return profile(self.top, env={**os.environ, "LD_PRELOAD": os.environ["PRELOAD_READS"], **how})

    def test_no_difference(self):
        for how in ({}, {"PREAD_INTERRUPTIONS": "64"}, {"PREAD_FAILS": "5", "PREAD_OF": "a.bin"}, {"PREAD_WIDTH": "1000"}, {"PREAD_WIDTH": "300000"}):
            status, out, err = self.with_reads(**how)
            self.assertEqual((status, lines(err, SKIPPED)), (0, []), how)
            self.same(out, walk(self.top)[0])

    def skipped(self, path, **how):
        """Checks that with these reads the file at this path is skipped, and no other."""
        status, out, err = self.with_reads(**how)
        self.assertEqual((status, lines(err, SKIPPED)), (5, [path + b": it could not be opened or read"]), how)
        rows = [row for row in walk(self.top)[0] if row["FILE_PATH"].encode() != path]
        for row in rows:
            # the number of the skipped file is not used again
            del row["ID"]
        self.same(out, rows)

    def test_interrupted_too_often(self):
        for path in (b"/a.bin", b"/b.txt", b"/c.txt"):
            self.skipped(path, PREAD_OF=path[1:], PREAD_INTERRUPTIONS="65")

    def test_failed(self):
        # each read of a file of four pieces, and the only one of the others
        for number, path in (*((number, b"/a.bin") for number in range(1, 5)), (1, b"/b.txt"), (1, b"/c.txt")):
            self.skipped(path, PREAD_OF=path[1:], PREAD_FAILS=str(number))

    def test_failed_in_one_of_two_files(self):
        # a file that takes two reads, and one that takes one
        self.top = self.work + b"/two"
        os.mkdir(self.top)
        self.file(b"/long", b"x" * 70_000)
        self.file(b"/short", b"a")
        for number, path in ((1, b"/long"), (2, b"/long"), (1, b"/short")):
            self.skipped(path, PREAD_OF=path[1:], PREAD_FAILS=str(number))


if __name__ == "__main__":
    unittest.main()
