"""The sample signature file: what its registry has, and which files it identifies, at the ends of each offset and one byte past
them; and that the registry of everyday formats identifies such files the same."""
import csv
import os
import subprocess
import tempfile
import unittest

from common import FORMATS, REGISTRY, SAMPLES
from conversions import PARTLY, convert, left_out, rows_of, stored
from identification import identify
from lib.program import PROGRAM
from signature_file import read_signature_file

LIMIT = 65_536

PNG = b"\x89PNG\r\n\x1a\n\0\0\0\rIHDR"
IEND = b"IEND\xaeB`\x82"
PDF = b"%PDF-1.4\n"
JFIF = b"\xff\xd8\xff\xe0\0\x10JFIF\0\1"
CENTRAL, END = b"PK\1\2", b"PK\5\6"


def dots(count):
    return b"." * count


def zip_file(before, between, behind):
    """So many bytes before a ZIP file, between the beginnings of its last two parts, and behind the last one's."""
    return dots(before) + b"PK\3\4" + b"PK\1" + dots(between) + END + dots(behind)


def wave(tag, before=0):
    return b"RIFF....WAVE" + dots(before) + b"fmt ...." + tag


# content, and the formats that hit
CONTENTS = [
    (PNG + dots(20) + IEND, ["fmt/11"]),
    (PNG + IEND, ["fmt/11"]),
    (PNG + dots(20) + IEND + b"\n", []),
    (b"." + PNG + IEND, []),
    (b"GIF87a" + dots(9) + b"\0;", ["fmt/3"]),
    (b"GIF87a" + dots(9) + b"\0;" + dots(4), ["fmt/3"]),
    (b"GIF87a" + dots(9) + b"\0;" + dots(5), []),
    (b"GIF87a" + dots(9) + b"\1;", []),
    (b"GIF87a" + dots(9) + b"\0.;", []),
    (b"GIF89a", ["fmt/4"]),
    (b".GIF89a", []),
    (PDF + b"%%EOF", ["fmt/18"]),
    (dots(1024) + PDF + b"%%EOF" + dots(1024), ["fmt/18"]),
    (dots(1025) + PDF + b"%%EOF" + dots(1024), []),
    (dots(1024) + PDF + b"%%EOF" + dots(1025), []),
    (b"%PDF-1.0%%EOF", ["fmt/18"]),
    (b"%PDF-1.7%%EOF", ["fmt/18"]),
    (b"%PDF-1.8%%EOF", []),
    (b"%PDF-1./%%EOF", []),
    (zip_file(0, 43, 18), ["x-fmt/263"]),
    (zip_file(4, 200, 18), ["x-fmt/263"]),
    (zip_file(5, 200, 18), []),
    (zip_file(0, 42, 18), []),
    (zip_file(0, 201, 18), []),
    (zip_file(0, 43, 17), []),
    (zip_file(0, 43, 65_531), []),
    (b"PK\3\4" + dots(70_000) + b"PK\1" + dots(43) + END + dots(65_486), ["x-fmt/263"]),
    (b"PK\3\4" + dots(70_000) + b"PK\1" + dots(43) + END + dots(65_487), []),
    (JFIF + b"\1" + dots(7) + b"!", ["fmt/43"]),
    (JFIF + b"\2" + dots(7) + b"!", ["fmt/43"]),
    (JFIF + b"\3" + dots(7) + b"!", []),
    (JFIF + b"\2" + dots(7) + b"\0", []),
    (JFIF + b"\2" + dots(7), []),
    (JFIF[:5] + JFIF[4:] + b"\1" + dots(7) + b"!", []),
    (wave(b"\1\0"), ["fmt/6"]),
    (wave(b"\1\xff", 99), ["fmt/6"]),
    (wave(b"\2\x80"), ["fmt/6"]),
    (wave(b"\3\0"), ["fmt/6"]),
    (wave(b"\3\1"), []),
    (wave(b"\0\xff"), []),
    (wave(b"\4\0"), []),
    (b"RIFF....WAV" + b"fmt ....\1\0", []),
    (b"RIFF....fmt ....\1\0WAVE", []),
    (dots(32_769) + b"CD001", ["fmt/468"]),
    (dots(32_768) + b"CD001", []),
    (dots(32_770) + b"CD001", []),
    (b"<html>", []),
    (b"\x1f\x8b\x08\1", []),
    (b"", []),
]
# formats with signatures that the registry of everyday formats has too
SHARED = ["fmt/3", "fmt/4", "fmt/6", "fmt/11", "fmt/18", "fmt/43", "fmt/468", "x-fmt/263"]


class Sample(unittest.TestCase):
    @classmethod
    def setUpClass(cls):
        cls.status, cls.registry, cls.said = convert(stored("sample.xml"))
        cls.model = read_signature_file(stored("sample.xml"))

    def test_rows(self):
        """The rows are those of sample.csv, which was written by hand."""
        self.assertEqual((self.status, rows_of(self.registry)), (PARTLY, rows_of(stored("sample.csv"))))
        lost = [row[:3] for row in left_out(self.said)]
        self.assertEqual(lost, [("fmt/96", "signature", "9"), ("x-fmt/266", "signature", "10"), ("fmt/96", "format", ""), ("x-fmt/266", "format", "")])

    def test_each_content(self):
        samples = [(None, f"{number}", content) for number, (content, _) in enumerate(CONTENTS)]
        found = [puids for _, _, puids in identify(self.registry, samples, LIMIT)]
        for (content, wanted), puids in zip(CONTENTS, found):
            self.assertEqual(puids, wanted, f"{content[:60]} of {len(content)} bytes")

    def test_profile(self):
        """The same through `profile`, which reads files of a folder."""
        with tempfile.TemporaryDirectory() as folder:
            os.mkdir(os.path.join(folder, "files"))
            for number, (content, _) in enumerate(CONTENTS):
                with open(os.path.join(folder, "files", f"{number}"), "wb") as file:
                    file.write(content)
            path = os.path.join(folder, "registry.csv")
            with open(path, "wb") as file:
                file.write(self.registry)
            done = subprocess.run([PROGRAM, "profile", os.path.join(folder, "files"), "--registry", path, "--quiet"], capture_output=True, check=True)
        rows = {int(row["NAME"]): [row["PUID"]] if row["PUID"] else [] for row in csv.DictReader(done.stdout.decode().splitlines())}
        self.assertEqual(rows, {number: wanted for number, (_, wanted) in enumerate(CONTENTS)})

    def test_each_byte_changed(self):
        """Files that hit, each with every one of its bytes changed, beside the model of the signature file."""
        short = [content for content, wanted in CONTENTS if wanted and len(content) < 300]
        changed = [content[:at] + bytes([content[at] ^ 1]) + content[at + 1 :] for content in short for at in range(len(content))]
        found = [puids for _, _, puids in identify(self.registry, [(None, f"{at}", it) for at, it in enumerate(changed)])]
        wanted = [self.model.find(it, LIMIT) for it in changed]
        self.assertGreater(wanted.count([]), len(short))
        for content, puids, due in zip(changed, found, wanted):
            self.assertEqual(puids, due, content)

    def test_extensions(self):
        """A format with no signature left is found by its extensions, as one that never had any is."""
        names = {"a.png": [], "a.htm": ["fmt/96"], "a.gz": ["x-fmt/266"], "a.TXT": ["x-fmt/111"], "a.jpg": ["fmt/41"]}
        found = identify(self.registry, [(None, name, b"") for name in names])
        self.assertEqual([puids for _, _, puids in found], list(names.values()))

    def test_as_the_registry_of_everyday_formats(self):
        """Files that have a signature of both registries, in the same formats, are identified the same by both."""
        self.assertLessEqual(set(SHARED), set(FORMATS))
        files = [*SAMPLES, *((None, "a", content) for content, wanted in CONTENTS if wanted)]
        own, everyday = (identify(registry, files) for registry in (self.registry, REGISTRY))
        seen = set()
        for (_, name, content), (method, _, here), (other, _, there) in zip(files, own, everyday):
            if method == other == "Signature" and set(there) <= set(SHARED):
                self.assertEqual(here, there, (name, content[:60]))
                seen.update(here)
        self.assertEqual(seen, set(SHARED))


if __name__ == "__main__":
    unittest.main()
