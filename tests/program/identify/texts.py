"""Which files without a format are plain text.

Beside Python's own decoders: ASCII, UTF-8 and UTF-16 with a mark; control characters; characters of two to four bytes that are cut
off at each edge of both windows; odd sizes; empty files.
"""

import os
import tempfile
import unicodedata
import unittest

from asking import identify, json_lines, write

LIMIT = 64
USUAL = "\t\n\f\r"


def has_control(text):
    return any(unicodedata.category(letter) == "Cc" and letter not in USUAL for letter in text)


def whole_kind(content):
    """The kind of a short file."""
    if not content:
        return None
    if content[:2] in (b"\xff\xfe", b"\xfe\xff"):
        kind, code = "UTF-16", "utf-16"
    else:
        kind, code = ("ASCII" if content.isascii() else "UTF-8"), "utf-8"
    try:
        text = content.decode(code)
    except UnicodeDecodeError:
        return None
    return None if has_control(text) else kind


def short_cases():
    letters = ["a", "é", "€", "😀", "\u0085", "\u009f", "\u00a0", "\u200b", "\ufeff", "\ufffe", "\U0010ffff", "\x7f", "\x1b", "\x00"]
    texts = ["", "a", "a\tb\n\f\r", *letters, *[f"x{letter}y" for letter in letters], "\ufeffab"]
    for text in texts:
        for code in ("utf-8", "utf-16", "utf-16-be", "utf-16-le", "latin-1", "cp1252"):
            try:
                content = text.encode(code)
            except UnicodeEncodeError:
                continue
            yield content
            yield content[:-1]
            yield b"\xfe\xff" + content
    yield b"\xff\xfe\x00\xd8"
    yield b"\xfe\xff\xd8\x00\xdc\x00"
    yield b"\xfe\xff\xdc\x00\xd8\x00"
    yield b"\xc0\x80"
    yield b"\xed\xa0\x80"


def long_cases():
    """Files longer than both windows, with their kinds: whatever stands at the inner edges, a whole text stays one."""
    for letter in ("é", "€", "😀"):
        size = len(letter.encode())
        for before in range(size):
            for behind in range(size):
                yield ("." * before + letter * LIMIT + "." * behind).encode(), "UTF-8"
        for code, mark in (("utf-16-le", b"\xff\xfe"), ("utf-16-be", b"\xfe\xff")):
            for before in range(2):
                yield mark + ("." * before + letter * LIMIT).encode(code), "UTF-16"
                yield mark + ("." * before + letter * LIMIT).encode(code) + b"x", None
    yield b"a" * 3 * LIMIT, "ASCII"
    for bad in (b"\x00", b"\x7f", b"\x1b", b"\xff"):
        yield bad + b"a" * 3 * LIMIT, None
        yield b"a" * 3 * LIMIT + bad, None
    # what lies between the windows is not read
    yield b"a" * LIMIT + b"\x00" * LIMIT + b"a" * LIMIT, "ASCII"


class Texts(unittest.TestCase):
    def test_kinds_beside_the_decoders(self):
        cases = [(content, whole_kind(content)) for content in short_cases() if len(content) <= LIMIT] + list(long_cases())
        with tempfile.TemporaryDirectory() as folder:
            registry = write(os.path.join(folder, "registry.csv"), b"F,t/1,None,,,\nS,t/1,BOF,0,0,%s\n" % (b"EE" * 100))
            names = [write(os.path.join(folder, str(number)), content) for number, (content, _) in enumerate(cases)]
            options = ["--registry", registry, "--limit", str(LIMIT)]
            out, err, status = identify(*options, "--json", *names)
            plain, _, _ = identify(*options, *names)
        self.assertEqual((err, status), (b"", 0))
        for line, (content, kind) in zip(json_lines(out), cases, strict=True):
            self.assertEqual((line["text"], line["method"]), (kind, None), content)
        for line, name, (_, kind) in zip(plain.decode().splitlines(), names, cases, strict=True):
            self.assertEqual(line, f"{name}: unidentified" + (f", text, {kind}" if kind else ""))


if __name__ == "__main__":
    unittest.main()
