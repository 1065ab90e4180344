"""Names with each byte that UTF-8 uses, and names of the greatest length: the URIs of files, with the escaping of RFC 3986 by
Python's `quote`, and the rows of folders, byte for byte."""
import os
import shutil
import unittest
from urllib.parse import quote

from lib.trees import InFolder, profile, read

HEADER = (
    '"ID","PARENT_ID","URI","FILE_PATH","NAME","METHOD","STATUS","SIZE","TYPE","EXT","LAST_MODIFIED","EXTENSION_MISMATCH",'
    '"MD5_HASH","FORMAT_COUNT","PUID","MIME_TYPE","FORMAT_NAME","FORMAT_VERSION"\n'
)
# the first bytes of characters of several bytes (RFC 3629, section 4)
FIRST_BYTES = {2: range(0xC2, 0xE0), 3: range(0xE0, 0xF0), 4: range(0xF0, 0xF5)}


def decoded(text):
    try:
        return text.decode()
    except UnicodeDecodeError:
        return None


def characters(length):
    """64 characters of this many bytes. Together they have each first byte, and each further one at each place."""
    found = ""
    for place in range(64):
        further = [0x80 + place, 0x80 + (5 + 37 * place) % 64, 0x80 + (11 + 21 * place) % 64][: length - 1]
        fitting = [it for it in (decoded(bytes([first, *further])) for first in FIRST_BYTES[length]) if it]
        found += fitting[place % len(fitting)]
    return found


# names of 255 bytes, which is the greatest length
LONGEST = ["a" * 255, "%" * 255, "é" * 127 + "~", "€" * 85, "\U00010348" * 63 + "..."]
NAMES = [
    # each byte of ASCII but 0 and `/`, which a name can't have
    "".join(map(chr, range(1, 128))).replace("/", ""),
    characters(2),
    characters(3),
    characters(4)[:32],
    characters(4)[32:],
    # the first and the last characters of each length
    "\x7f\x80\u07ff\u0800\ud7ff\ue000\uffff\U00010000\U0010ffff",
    *LONGEST,
]
# paths, with the URIs and the extensions of their files
BY_HAND = {
    "/in": ("file:/in", ""),
    "/in/out/x.txt": ("file:/in/out/x.txt", "txt"),
    '/a "b" c%.txt': ("file:/a%20%22b%22%20c%25.txt", "txt"),
    "/AZaz09": ("file:/AZaz09", ""),
    "/@[`{/:^": ("file:/%40%5B%60%7B/%3A%5E", ""),
    "/!#$&'()*+,;=?": ("file:/%21%23%24%26%27%28%29%2A%2B%2C%3B%3D%3F", ""),
    "/\x01\n\r\t\x7f": ("file:/%01%0A%0D%09%7F", ""),
    "/\u00e9\u20ac\U00010348": ("file:/%C3%A9%E2%82%AC%F0%90%8D%88", ""),
    "/a.txt": ("file:/a.txt", "txt"),
    "/a.tar.gz": ("file:/a.tar.gz", "gz"),
    "/.profile": ("file:/.profile", ""),
    "/.a.b": ("file:/.a.b", "b"),
    "/a.": ("file:/a.", ""),
    "/a": ("file:/a", ""),
    "/\u00e4.\u00f6\u00e9": ("file:/%C3%A4.%C3%B6%C3%A9", "\u00f6\u00e9"),
}


def uri(name):
    return "file:/" + quote(name, safe="/~")


class Names(InFolder):
    def test_each_byte_at_each_place(self):
        for length, firsts in FIRST_BYTES.items():
            places = [{*it} for it in zip(*(it.encode() for it in characters(length)))]
            self.assertEqual(places, [{*firsts}] + [{*range(0x80, 0xC0)}] * (length - 1))
        self.assertEqual({len(name.encode()) for name in LONGEST}, {255})

    def test_uris_of_files(self):
        for name in NAMES:
            self.file(b"/" + name.encode())
        status, out, _ = profile(self.top)
        self.assertEqual((status, {row["NAME"]: row["URI"] for row in read(out)}), (0, {name: uri(name) for name in NAMES}))

    def test_by_hand(self):
        for path, due in BY_HAND.items():
            self.folder(os.path.dirname(path).encode())
            self.file(path.encode())
            status, out, _ = profile(self.top)
            found = {row["FILE_PATH"]: (row["URI"], row["EXT"]) for row in read(out) if row["TYPE"] == "File"}
            self.assertEqual((status, found), (0, {path: due}))
            shutil.rmtree(self.top)
            os.mkdir(self.top)

    def test_rows_of_folders(self):
        """The fields have the name as it is, but with each double quote doubled."""
        rows = []
        for number, name in enumerate(sorted(NAMES, key=str.encode), 1):
            path, field = self.top + b"/" + name.encode(), name.replace('"', '""')
            os.mkdir(path)
            os.utime(path, (0, 0))
            rows.append(
                f'"{number}","","{uri(name)}/","/{field}","{field}","","Done","","Folder","","1970-01-01T00:00:00","false","","","","","",""\n'
            )
        self.assertEqual(profile(self.top)[:2], (0, (HEADER + "".join(rows)).encode()))


if __name__ == "__main__":
    unittest.main()
