"""One file in each form: with PUIDs that PRONOM made public, and beside the rows of `profile`."""

import csv
import hashlib
import io
import os
import subprocess
import tempfile
import unittest
from random import Random

from asking import identify, json_lines, write
from lib.program import EVERYDAY, PROGRAM

# bytes whose format PRONOM names so: its signatures of these formats are these first bytes
KNOWN = {
    "a.gif": (b"GIF87a", "fmt/3"),
    "b.gif": (b"GIF89a", "fmt/4"),
    "c.png": (b"\x89PNG\r\n\x1a\n\x00\x00\x00\rIHDR", "fmt/11"),
    "d.pdf": (b"%PDF-1.4\n", "fmt/18"),
    "e.zip": (b"PK\x03\x04rest", "x-fmt/263"),
    "f.jpg": (b"\xff\xd8\xff\xe0\x00\x10JFIF\x00\x01\x01", "fmt/43"),
    "g.txt": (b"Dear all,", "x-fmt/111"),
}
COLUMNS = ["PATH", "SIZE", "METHOD", "MISMATCH", "PUID", "MIME_TYPE", "FORMAT_NAME", "FORMAT_VERSION", "BASIS", "HASH"]


def rows_of(out):
    return list(csv.reader(io.StringIO(out.decode("utf-8"), newline="")))


class Forms(unittest.TestCase):
    def setUp(self):
        self.made = tempfile.TemporaryDirectory()
        self.folder = self.made.name
        self.addCleanup(self.made.cleanup)
        self.names = [write(os.path.join(self.folder, name), content) for name, (content, _) in KNOWN.items()]
        self.puids = [puid for _, puid in KNOWN.values()]

    def test_public_puids(self):
        out, err, status = identify("--puid", *self.names)
        self.assertEqual((out.decode().split("\n"), err, status), ([*self.puids, ""], b"", 0))

    def test_lines(self):
        out, _, _ = identify(*self.names)
        lines = dict(zip(KNOWN, out.decode().splitlines(), strict=True))
        begin = os.path.join(self.folder, "")
        self.assertEqual(lines["a.gif"], f"{begin}a.gif: fmt/3 Graphics Interchange Format 87a (image/gif), bytes 0 to 5")
        self.assertEqual(lines["g.txt"], f"{begin}g.txt: x-fmt/111 Plain Text File (text/plain), extension txt")

    def test_a_warning(self):
        name = write(os.path.join(self.folder, "x.docx"), b"%PDF-1.4\n")
        out, _, status = identify(name)
        self.assertEqual(status, 0)
        self.assertTrue(out.decode().endswith(", bytes 0 to 7, warning: the format has other extensions\n"))

    def test_csv_beside_json(self):
        odd = write(os.path.join(self.folder, 'quo"te,\n'), b"\x00")
        out, _, _ = identify("--csv", *self.names, odd)
        lines = json_lines(identify("--json", *self.names, odd)[0])
        rows = rows_of(out)
        self.assertEqual(rows[0], COLUMNS)
        self.assertEqual([row[0] for row in rows[1:]], [*self.names, odd])
        for row, line in zip(rows[1:], lines, strict=True):
            form = line["formats"][0] if line["formats"] else dict.fromkeys(["puid", "mime", "name", "version"], "")
            self.assertEqual(row[1:4], [str(line["size"]), (line["method"] or "").capitalize(), str(line["mismatch"]).lower()])
            self.assertEqual(row[4:8], [form["puid"], form["mime"], form["name"], form["version"]])

    def test_rows_of_profile(self):
        """Method, mismatch and PUIDs are those of `profile`."""
        random = Random(7)
        contents = [content for content, _ in KNOWN.values()] + [b"", b"\x00\x01", b"plain"]
        endings = ["gif", "png", "pdf", "txt", "zip", "jpg", "docx", ""]
        tree = os.path.join(self.folder, "tree")
        os.makedirs(os.path.join(tree, "below"))
        for number in range(120):
            name = f"{number}.{random.choice(endings)}".rstrip(".")
            write(os.path.join(tree, random.choice(["", "below"]), name), random.choice(contents) + random.randbytes(random.randrange(40)))
        for options in ([], ["--match-all"], ["--limit", "4"]):
            done = subprocess.run([PROGRAM, "profile", *options, tree], capture_output=True, check=True)
            profiled = [row for row in csv.DictReader(io.StringIO(done.stdout.decode("utf-8"))) if row["TYPE"] == "File"]
            wanted = {(tree + row["FILE_PATH"], row["METHOD"], row["EXTENSION_MISMATCH"], row["PUID"]) for row in profiled}
            out, err, status = identify("-r", "--csv", *options, tree)
            self.assertEqual((err, status), (b"", 0))
            self.assertEqual({(row[0], row[2], row[3], row[4]) for row in rows_of(out)[1:]}, wanted)

    def test_hashes(self):
        for kind in ("md5", "sha256"):
            out, _, _ = identify("--json", "--hash", kind, *self.names)
            for line, (content, _) in zip(json_lines(out), KNOWN.values(), strict=True):
                self.assertEqual(line[kind], hashlib.new(kind, content).hexdigest())
            rows = rows_of(identify("--csv", "--hash", kind, self.names[0])[0])
            self.assertEqual(rows[1][9], hashlib.new(kind, KNOWN["a.gif"][0]).hexdigest())
            lines = identify("--hash", kind, self.names[0])[0].decode().splitlines()
            self.assertEqual(lines[0], f"{self.names[0]}: {kind} {rows[1][9]}")

    def test_hash_of_a_long_file(self):
        content = Random(3).randbytes(65_536 * 3 + 17)
        name = write(os.path.join(self.folder, "long"), content)
        out, _, _ = identify("--json", "--hash", "sha256", name)
        self.assertEqual(json_lines(out)[0]["sha256"], hashlib.sha256(content).hexdigest())

    def test_why(self):
        registry = write(
            os.path.join(self.folder, "r.csv"),
            b"F,t/1,One,,,\nF,t/2,Two,,,\nF,t/3,Three,,,\nS,t/1,BOF,0,0,6161\nB,t/1,EOF,0,0,62\nS,t/1,BOF,0,9,62\nS,t/2,BOF,0,0,61\nP,t/2,t/1,,,\n",
        )
        name = write(os.path.join(self.folder, "x"), b"aab.")
        out, _, status = identify("--registry", registry, "--why", "t/1", name)
        self.assertEqual(status, 0)
        self.assertEqual(
            out.decode().splitlines(),
            [
                f"{name}: t/2 Two, byte 0",
                f"{name}: t/1: signature 0: bytes 0 to 1; no match",
                f"{name}: t/1: signature 1: byte 2",
                f"{name}: t/1: t/2 has priority over it",
            ],
        )
        out, _, _ = identify("--registry", registry, "--why", "t/3", name)
        self.assertEqual(out.decode().splitlines()[1], f"{name}: t/3: it has no signature")
        out, err, status = identify("--registry", registry, "--why", "t/4", name)
        self.assertEqual((out, status), (b"", 3))
        self.assertTrue(err.startswith(b"fault: Format\n"))

    def test_the_built_in_registry(self):
        self.assertEqual(identify("--everyday", *self.names), identify("--registry", EVERYDAY, *self.names))


if __name__ == "__main__":
    unittest.main()
