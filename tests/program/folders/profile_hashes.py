"""The hashes of files that are read eight side by side, beside the digests of the standards and hashlib's."""
import hashlib
import os
import random
import unittest

from lib.digests import EXAMPLES, SUITE
from lib.trees import InFolder, profile, read

COLUMNS = {"md5": "MD5_HASH", "sha256": "SHA256_HASH", "none": "HASH"}
LANES = 8
# reads of so many bytes cut a file of 320 bytes in two, or in more pieces; a block of a hash has 64 bytes
CUTS = [1, 2, 3, 7, 20, 54, 55, 56, 57, 63, 64, 65, 66, 119, 120, 127, 128, 129, 160, 191, 192, 193, 200, 255, 256, 257, 299, 300, 319]


class Hashes(InFolder):
    def column(self, hash, **more):
        """Profiles the folder, and returns the digest of each file by its path."""
        status, out, _ = profile(self.top, "--hash", hash, **more)
        self.assertEqual(status, 0)
        return {row["FILE_PATH"]: row[COLUMNS[hash]] for row in read(out)}

    def write(self, contents):
        """Writes a file for each content, in the order of their names: the content of each path."""
        found = {}
        for number, content in enumerate(contents):
            found["/%04d" % number] = content
            with open(self.top + b"/%04d" % number, "wb") as file:
                file.write(content)
        return found

    def test_the_messages_of_the_standards(self):
        """Each in each place of eight, beside every other."""
        for hash, rows in (("md5", SUITE), ("sha256", EXAMPLES)):
            digests = dict(rows)
            found = self.write(rows[(turn + lane) % len(rows)][0] for turn in range(len(rows)) for lane in range(LANES))
            self.assertEqual(self.column(hash), {path: digests[content] for path, content in found.items()})
            for path in found:
                os.remove(self.top + path.encode())

    def test_each_length(self):
        """Each length up to 300 in each place, beside files of seven other lengths."""
        some = random.Random(1321).randbytes(1_000)
        found = self.write(some[lane : lane + (turn + 37 * lane) % 301] for turn in range(301) for lane in range(LANES))
        for hash in ("md5", "sha256"):
            due = {path: hashlib.new(hash, content).hexdigest() for path, content in found.items()}
            self.assertTrue(self.column(hash) == due, hash)
        self.assertEqual({*self.column("none").values()}, {""})

    def test_each_cut(self):
        """Short reads cut the files anywhere, while others go on or have ended. The last file goes on alone."""
        some = random.Random(1804).randbytes(4_000)
        found = self.write(some[:size] for size in (320, 0, 300, 320, 1, 319, 64, 320, 320, 55, 56, 119, 128, 320, 0, 7, 8, 0, 1, 3_000))
        for hash in ("md5", "sha256"):
            due = {path: hashlib.new(hash, content).hexdigest() for path, content in found.items()}
            for cut in CUTS:
                env = {**os.environ, "LD_PRELOAD": os.environ["PRELOAD_READS"], "PREAD_WIDTH": str(cut)}
                self.assertEqual(self.column(hash, env=env), due, cut)


if __name__ == "__main__":
    unittest.main()
