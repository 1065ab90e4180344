"""Formats by the extension, of files that match no signature."""

import unittest

from common import FORMATS, REGISTRY
from identification import identify

# name, the formats, and the formats in the mode `match_all`
BY_NAME = [
    ("a", [], []),
    (".txt", [], []),
    ("a.", [], []),
    ("a.txt", ["x-fmt/111"], ["x-fmt/111"]),
    ("LETTER.TXT", ["x-fmt/111"], ["x-fmt/111"]),
    ("letters.2026.csv", ["x-fmt/18"], ["x-fmt/18"]),
    ("letters.tsv", ["x-fmt/13"], ["x-fmt/13"]),
    ("letters.json", ["fmt/817"], ["fmt/817"]),
    ("README.md", ["fmt/1149"], ["fmt/1149"]),
    ("letters.yml", ["movkrin/yaml"], ["movkrin/yaml"]),
    ("fox.c", ["movkrin/c"], ["movkrin/c"]),
    ("fox.h", ["movkrin/c"], ["movkrin/c"]),
    ("fox.py", ["fmt/938"], ["fmt/938"]),
    ("fox.js", ["x-fmt/423"], ["x-fmt/423"]),
    ("Fox.java", ["movkrin/java"], ["movkrin/java"]),
    ("fox.ts", ["movkrin/typescript"], ["movkrin/mpeg-ts", "movkrin/typescript"]),
    ("fox.mp3", ["movkrin/mp3-by-name"], ["fmt/134", "movkrin/mp3-by-name"]),
    ("fox.tar", ["movkrin/tar-by-name"], ["x-fmt/265", "movkrin/tar-by-name"]),
    ("fox.ps", ["movkrin/postscript-by-name"], ["movkrin/postscript", "movkrin/postscript-by-name"]),
    ("fox.msg", [], ["fmt/111", "x-fmt/430"]),
    ("fox.tga", [], ["x-fmt/367", "fmt/402"]),
    ("fox.gif", [], ["fmt/3", "fmt/4"]),
    ("fox.flac", [], ["fmt/279"]),
    ("fox.zip", [], ["x-fmt/263"]),
    ("fox.docx", [], ["fmt/412"]),
    ("fox.unlisted", [], []),
]
CONTENT = b"\0"


class Names(unittest.TestCase):
    def test_names(self):
        samples = [(None, name, CONTENT) for name, _, _ in BY_NAME]
        for match_all in (False, True):
            for row, (method, mismatch, puids) in zip(BY_NAME, identify(REGISTRY, samples, match_all=match_all)):
                expected = row[2 if match_all else 1]
                self.assertEqual((method, mismatch, puids), ("Extension" if expected else "none", False, expected), row[0])

    def test_each_extension_of_a_format_without_signatures(self):
        samples = [
            (form.puid, "a." + extension, CONTENT)
            for form in FORMATS.values()
            if not form.signatures
            for extension in form.extensions
        ]
        for (puid, name, _), (method, _, puids) in zip(samples, identify(REGISTRY, samples)):
            self.assertEqual((method, puid in puids), ("Extension", True), name)


if __name__ == "__main__":
    unittest.main()
