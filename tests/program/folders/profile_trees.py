"""The rows of a folder are those of Python's own walk."""
import hashlib
import os
import random
import unittest

from lib.program import EVERYDAY
from lib.trees import SKIPPED, InFolder, lines, profile, read, walk

PIECE = 1 << 20
# the digests of a million letters `a`, and their columns. SHA-256's is an example of FIPS 180-2
MILLION = {
    "md5": ("MD5_HASH", "7707d6ae4e027c70eea2a935c2296f21"),
    "sha256": ("SHA256_HASH", "cdc76e5c9914fb9281a1c7e284d73e67f1809a48a497200e046d39ccc7112cd0"),
}


class Trees(InFolder):
    def nested(self):
        """Makes folders in folders, names that a CSV has to quote, and files of about the size of a piece."""
        some = random.Random(7)
        for path in (b"/b/deep/er/still", b"/a", b"/B", "/mit Stöcken und Steinen".encode(), b'/a/say "ah", twice'):
            self.folder(path)
        self.file(b"/empty.txt", b"", 0)
        self.file(b"/a/three.txt", b"abc", -1)
        self.file(b"/a/no extension", b"\0\xff" * 40, 1.75)
        self.file(b"/a/line\nfeed.txt", b"x", -0.25)
        self.file(b"/B/.hidden", b"y", 2_000_000_000)
        self.file(b"/b/one_piece.bin", some.randbytes(PIECE))
        self.file(b"/b/one_more.bin", some.randbytes(PIECE + 1))
        self.file(b"/b/deep/one_less.bin", some.randbytes(PIECE - 1))
        self.file(b"/b/deep/er/three_pieces.bin", some.randbytes(2 * PIECE + 77))
        self.file(b"/b/deep/er/still/picture.png", b"\x89PNG\r\n\x1a\n\0\0\0\rIHDR" + some.randbytes(40))
        self.file(b"/b/" + b"n" * 255, b"long")

    def test_rows(self):
        self.nested()
        status, out, err = profile(self.top)
        rows, skipped = walk(self.top)
        self.assertEqual((status, skipped), (0, {}))
        self.same(out, rows)
        self.assertEqual(lines(err, SKIPPED), [])
        self.assertEqual(lines(err, b"folders and files: "), [str(len(rows)).encode()])
        self.assertEqual(lines(err, b"bytes read: "), [str(sum(int(row["SIZE"] or 0) for row in rows)).encode()])

    def test_order(self):
        """Folders come before what they contain, and siblings in the order of their names' bytes."""
        for path in (b"/b", b"/Zz/inside"):
            self.folder(path)
        for path in (b"/aaaa", b"/b/y2345", b"/b/x"):
            self.file(path)
        fronts = [
            b'"1","","file:/Zz/",',
            b'"2","","file:/aaaa",',
            b'"3","","file:/b/",',
            b'"4","1","file:/Zz/inside/",',
            b'"5","3","file:/b/x",',
            b'"6","3","file:/b/y2345",',
        ]
        status, out, _ = profile(self.top)
        rows = out.splitlines()[1:]
        self.assertEqual((status, [row[: len(front)] for row, front in zip(rows, fronts, strict=True)]), (0, fronts))

    def test_same_again(self):
        self.nested()
        first = profile(self.top)[1]
        self.assertEqual(profile(self.top + b"/")[1], first)
        self.assertEqual(profile(b"tree", cwd=self.work)[1], first)
        self.assertEqual(profile(b".", cwd=self.top)[1], first)
        os.symlink(self.top, self.work + b"/link")
        self.assertEqual(profile(self.work + b"/link")[1], first)

    def test_nothing(self):
        status, out, err = profile(self.top)
        self.assertEqual((status, read(out)), (0, []))
        self.assertEqual(len(out.splitlines()), 1)

    def test_own_registry(self):
        self.nested()
        status, out, err = profile(self.top)
        self.assertEqual(status, 0)
        with open(EVERYDAY, "rb") as file:
            digest = hashlib.md5(file.read()).hexdigest()
        named = f"the built-in registry of everyday formats, MD5 {digest}".encode()
        self.assertEqual(lines(err, b"registry: "), [named])
        given = profile(self.top, "--registry", EVERYDAY)
        self.assertEqual(given[:2], (0, out))
        self.assertEqual(lines(given[2], b"registry: "), [os.fsencode(f"{EVERYDAY}, MD5 {digest}")])
        rows = {row["FILE_PATH"]: row for row in read(out)}
        self.assertEqual(rows["/b/deep/er/still/picture.png"]["METHOD"], "Signature")
        self.assertEqual(rows["/a/three.txt"]["METHOD"], "Extension")
        self.assertEqual(rows["/a/no extension"]["METHOD"], "")

    def test_hashes(self):
        self.nested()
        rows = walk(self.top)[0]
        for hash, column in (("md5", "MD5_HASH"), ("sha256", "SHA256_HASH"), ("none", "HASH")):
            status, out, _ = profile(self.top, "--hash", hash)
            self.assertEqual(status, 0)
            for row in rows:
                digest = row.pop(next(name for name in row if name.endswith("HASH")))
                row[column] = digest if row["TYPE"] == "Folder" else self.digest(hash, row["FILE_PATH"])
            self.same(out, rows)

    def test_a_million_letters(self):
        """In sixteen files, twice as many as are read side by side. A shorter one before each lets them begin one after the
        other."""
        for number in range(16):
            self.file(b"/%02d.a" % number, b"a" * 1_000 * number)
            self.file(b"/%02d.million" % number, b"a" * 1_000_000)
        for hash, (column, digest) in MILLION.items():
            status, out, _ = profile(self.top, "--hash", hash)
            rows = read(out)
            self.assertEqual((status, len(rows)), (0, 32))
            for row in rows:
                due = digest if row["SIZE"] == "1000000" else self.digest(hash, row["FILE_PATH"])
                self.assertEqual(row[column], due, row["FILE_PATH"])

    def digest(self, hash, path):
        if hash == "none":
            return ""
        with open(self.top + path.encode(), "rb") as file:
            return hashlib.new(hash, file.read()).hexdigest()

    def test_options(self):
        # a signature that begins at byte 3 is found with a limit of 4 and not with one of 3
        self.file(b"/x.bin", b"...a")
        self.file(b"/y.one", b"...b")
        registry = self.work + b"/registry.csv"
        with open(registry, "w", encoding="ascii") as file:
            file.write("F,dev/1,One,,,\nE,dev/1,one,,,\nS,dev/1,BOF,3,3,61\n")

        def methods(*more):
            status, out, _ = profile(self.top, "--registry", registry, *more)
            self.assertEqual(status, 0)
            return [row["METHOD"] for row in read(out)]

        self.assertEqual(methods(), ["Signature", ""])
        self.assertEqual(methods("--limit", "4"), ["Signature", ""])
        self.assertEqual(methods("--limit", "3"), ["", ""])
        self.assertEqual(methods("--match-all"), ["Signature", "Extension"])

    def test_many(self):
        for folder in range(30):
            self.folder(b"/%d" % folder)
            for number in range(30):
                self.file(b"/%d/%d.txt" % (folder, number), b"%d" % (folder * number))
        status, out, _ = profile(self.top)
        self.assertEqual(status, 0)
        self.same(out, walk(self.top)[0])


if __name__ == "__main__":
    unittest.main()
