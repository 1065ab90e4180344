"""Lists that contradict themselves are none for `verify`: the record and the column are named. Other spellings of a list are that
list."""
import csv
import io
import os
import unittest

from lib.program import SAMPLE
from lib.trees import profile
from verify_lists import InLists, bytes_of, rows_in, verify

NAMES = "ID PARENT_ID URI FILE_PATH NAME METHOD STATUS SIZE TYPE EXT LAST_MODIFIED EXTENSION_MISMATCH MD5_HASH FORMAT_COUNT PUID MIME_TYPE FORMAT_NAME FORMAT_VERSION".split()
AT = {name: at for at, name in enumerate(NAMES)}


def read(text):
    return list(csv.reader(io.StringIO(text.decode(), newline=""), strict=True))


def spell(rows, end="\n", quoting=csv.QUOTE_ALL):
    text = io.StringIO()
    csv.writer(text, lineterminator=end, quoting=quoting).writerows(rows)
    return text.getvalue().encode()


class InProfiles(InLists):
    """A list of /a.msg (its ID is 1), /d (2), /e (3), /d/f (4), /d/g (5) and /e/x (6)."""

    def setUp(self):
        super().setUp()
        self.folder(b"/d/g")
        self.folder(b"/e")
        self.file(b"/a.msg", b"message of a file")
        self.file(b"/d/f", b"f")
        self.file(b"/e/x", b"")
        path = self.work + b"/list.csv"
        self.assertEqual(profile(self.top, "--registry", SAMPLE, "--output", path, "--quiet")[0], 0)
        self.text = bytes_of(path)
        self.rows = read(self.text)
        self.assertEqual(self.rows[0], NAMES)
        self.assertEqual([row[3] for row in self.rows[1:]], ["/a.msg", "/d", "/e", "/d/f", "/d/g", "/e/x"])
        # the records of the rows: the header is the first
        self.record = {row[3]: at + 1 for at, row in enumerate(self.rows)}

    def with_fields(self, path, **fields):
        """The list in which the row of a path has these fields."""
        rows = [list(row) for row in self.rows]
        for row in rows[1:]:
            if row[3] == path:
                for name, field in fields.items():
                    row[AT[name]] = field
        return rows

    def refused(self, rows, record, column, what=b"is wrong"):
        text = rows if isinstance(rows, bytes) else spell(rows)
        listed = self.write(b"bad.csv", text)
        status, out, said = verify(self.top, "--against", listed, "--quiet")
        due = b"fault: List\n%s: record %d: %s %s\n" % (listed, record, column.encode(), what)
        self.assertEqual((status, out, said), (3, b"", due))

    def taken(self, text):
        status, out, said = verify(self.top, "--against", self.write(b"other.csv", text), "--quiet")
        self.assertEqual((status, rows_in(out)), (0, []), said)


CONTRADICTS = b"contradicts another record"


class Contradictions(InProfiles):
    def test_paths(self):
        for path in ["", "/", "//f", "/d//f", "/d/f/", "/d/", "/../f", "/d/../f", "/d/..", "/./f", "/d/./f", "/d/.", "d/f"]:
            with self.subTest(path=path):
                name = path.rsplit("/", 1)[-1]
                self.refused(self.with_fields("/d/f", FILE_PATH=path, NAME=name), self.record["/d/f"], "FILE_PATH")
        self.refused(self.text.replace(b'"/d/f"', b'"/d/f\0"'), self.record["/d/f"], "FILE_PATH")

    def test_names(self):
        for name in ["", "d", "f ", "/f", "d/f", "F", ".", ".."]:
            with self.subTest(name=name):
                self.refused(self.with_fields("/d/f", NAME=name), self.record["/d/f"], "NAME")

    def test_moments(self):
        record = self.record["/d/f"]
        for moment in [
            "2026-13-01T00:00:00",
            "2026-00-01T00:00:00",
            "2026-01-00T00:00:00",
            "2026-01-32T00:00:00",
            "2026-04-31T00:00:00",
            "2026-02-29T00:00:00",
            "1900-02-29T00:00:00",
            "2024-02-30T00:00:00",
            "2026-01-01T24:00:00",
            "2026-01-01T00:60:00",
            "2026-01-01T00:00:60",
            "0000-01-01T00:00:00",
            "2026-01-01 00:00:00",
            "2026/01/01T00:00:00",
            "2026-01-01T00.00.00",
            "20x6-01-01T00:00:00",
            "2026-1 -01T00:00:00",
            "+026-01-01T00:00:00",
            "2026-01-01T00:00:0",
            "2026-01-01T00:00:00Z",
        ]:
            with self.subTest(moment=moment):
                self.refused(self.with_fields("/d/f", LAST_MODIFIED=moment), record, "LAST_MODIFIED")
        for moment in ["2024-02-29T23:59:59", "2000-02-29T00:00:00", "0001-01-01T00:00:00", "9999-12-31T23:59:59", ""]:
            with self.subTest(moment=moment):
                self.taken(spell(self.with_fields("/d/f", LAST_MODIFIED=moment)))

    def test_other_fields(self):
        record = self.record["/d/f"]
        for column, fields in {
            "ID": ["", "0", "x", "-1", "+4", "4294967296", "4 "],
            "SIZE": ["", "x", "-1", "1.0", "18446744073709551616"],
            "TYPE": ["", "file", "FILE", "Link"],
            "MD5_HASH": ["x", "00", "0" * 31, "0" * 33, "g" * 32],
            "FORMAT_COUNT": ["", "x", "-1"],
        }.items():
            for field in fields:
                with self.subTest(column=column, field=field):
                    self.refused(self.with_fields("/d/f", **{column: field}), record, column)
        for parent in ["x", "0", "-1", ""]:
            self.refused(self.with_fields("/d/f", PARENT_ID=parent), record, "PARENT_ID")
        # at the top there is no folder above
        self.refused(self.with_fields("/a.msg", PARENT_ID="2"), self.record["/a.msg"], "PARENT_ID")
        self.refused(self.with_fields("/d", SIZE="1"), self.record["/d"], "SIZE")
        self.refused(self.with_fields("/d", FORMAT_COUNT="1"), self.record["/d"], "FORMAT_COUNT")
        self.refused(self.with_fields("/d", MD5_HASH="0" * 32), self.record["/d"], "MD5_HASH")

    def test_other_counts_of_fields(self):
        for at, rows in {3: self.rows[:2] + [self.rows[2][:-1]] + self.rows[3:], 8: self.rows + [["a"]]}.items():
            listed = self.write(b"bad.csv", spell(rows))
            status, out, said = verify(self.top, "--against", listed, "--quiet")
            self.assertEqual((status, out, said), (3, b"", b"fault: List\n%s: record %d does not have a field for each column\n" % (listed, at)))

    def test_wrong_parents(self):
        """Another folder's ID, a file's, the row's own or nobody's; the folder's row stands in front, or behind."""
        for path in ["/d/f", "/d/g", "/e/x"]:
            [own] = [row[0] for row in self.rows if row[3] == path]
            [right] = [row[1] for row in self.rows if row[3] == path]
            for parent in {"1", "2", "3", "4", "5", "6", "7", "4294967295"} - {right}:
                with self.subTest(path=path, parent=parent):
                    rows = self.with_fields(path, PARENT_ID=parent)
                    status, out, said = verify(self.top, "--against", self.write(b"bad.csv", spell(rows)), "--quiet")
                    self.assertEqual((status, out), (3, b""), said)
                    self.assertRegex(said, rb": record \d+: (PARENT_ID|ID) contradicts another record\n$")
                    rows[1:] = rows[:0:-1]
                    status, out, said = verify(self.top, "--against", self.write(b"bad.csv", spell(rows)), "--quiet")
                    self.assertEqual((status, out), (3, b""), said)
        self.refused(self.with_fields("/d/f", PARENT_ID="77"), self.record["/d/f"], "PARENT_ID", CONTRADICTS)
        self.refused(self.with_fields("/e/x", PARENT_ID="2"), self.record["/e/x"], "PARENT_ID", CONTRADICTS)

    def test_wrong_ids(self):
        for path in ["/d", "/e"]:
            status, out, said = verify(self.top, "--against", self.write(b"bad.csv", spell(self.with_fields(path, ID="77"))), "--quiet")
            self.assertEqual((status, out), (3, b""), said)
        for path, id in [("/d/f", "1"), ("/d/g", "1"), ("/e/x", "4")]:
            self.refused(self.with_fields(path, ID=id), self.record[path], "ID", CONTRADICTS)

    def test_rows_twice(self):
        """A row again: behind the first, or elsewhere. A file of one format has one row."""
        for path in ["/a.msg", "/d", "/d/f", "/d/g"]:
            at = self.record[path] - 1
            rows = self.rows[: at + 1] + self.rows[at:]
            with self.subTest(path=path):
                self.refused(rows, at + 2, "FORMAT_COUNT", CONTRADICTS)
                self.refused(self.rows + [self.rows[at]], 8, "ID", CONTRADICTS)

    def test_rows_of_formats(self):
        """As many rows as FORMAT_COUNT says, one behind the other."""
        at = self.record["/a.msg"] - 1
        one, two = list(self.rows[at]), list(self.rows[at])
        for row in (one, two):
            row[AT["FORMAT_COUNT"]] = "2"
        two[AT["PUID"]] = "dev/9"
        self.taken(spell(self.rows[:at] + [one, two] + self.rows[at + 1 :]))
        self.refused(self.rows[:at] + [one] + self.rows[at + 1 :], at + 1, "FORMAT_COUNT", CONTRADICTS)
        self.refused(self.rows[:at] + [one, two, two] + self.rows[at + 1 :], at + 3, "FORMAT_COUNT", CONTRADICTS)
        self.refused(self.rows[:at] + self.rows[at + 1 :] + [one], 7, "FORMAT_COUNT", CONTRADICTS)

    def test_a_path_twice(self):
        """Under two IDs: the path is named."""
        rows = self.rows + [["7", *self.rows[self.record["/a.msg"] - 1][1:]]]
        status, out, said = verify(self.top, "--against", self.write(b"bad.csv", spell(rows)), "--quiet")
        self.assertEqual((status, out), (3, b""), said)
        self.assertIn(b"has a path twice: /a.msg", said)


class Spellings(InProfiles):
    """Other spellings of the same list, alone and together."""

    def test_spellings(self):
        orders = {"as it is": self.rows[1:], "reversed": self.rows[:0:-1], "by path": sorted(self.rows[1:], key=lambda row: row[3])}
        for order, rows in orders.items():
            for end in ("\n", "\r\n", "\r"):
                for quoting in (csv.QUOTE_ALL, csv.QUOTE_MINIMAL):
                    for mark in (b"", b"\xef\xbb\xbf"):
                        with self.subTest(order=order, end=end, quoting=quoting, mark=mark):
                            self.taken(mark + spell([NAMES, *rows], end, quoting))

    def test_digits_and_numbers(self):
        digest = self.rows[self.record["/d/f"] - 1][AT["MD5_HASH"]]
        self.taken(spell(self.with_fields("/d/f", MD5_HASH=digest.upper())))
        self.taken(spell(self.with_fields("/d/f", ID="77", URI="u", STATUS="", EXT="ext")))

    def test_rows_of_files_alone(self):
        """As an export of `type=File` has them: their folders have no rows, and are new. The rows below one folder still agree."""
        rows = [row for row in self.rows if row[AT["TYPE"]] != "Folder"]
        status, out, said = verify(self.top, "--against", self.write(b"files.csv", spell(rows)), "--quiet")
        self.assertEqual((status, [row[:2] for row in rows_in(out)]), (5, [(b"new", b"/d"), (b"new", b"/d/g"), (b"new", b"/e")]), said)
        other = [row[:1] + ["2" if row[3] == "/e/x" else row[1]] + row[2:] for row in rows]
        self.refused(other, 4, "PARENT_ID", CONTRADICTS)


class NoLists(InLists):
    def test_empty(self):
        """An empty FILE, as a `>` that failed leaves it, is no list: beside files and in an empty folder, also with --quick."""
        for content in (None, b"a"):
            if content:
                self.file(b"/a", content)
            for text in (b"", b"\xef\xbb\xbf", b"\n", b"\r\n\n", b"# a comment\n"):
                for words in ((), ("--quick",), ("--sizes-only",)):
                    with self.subTest(text=text, words=words):
                        listed = self.write(b"empty", text)
                        status, out, said = verify(self.top, "--against", listed, *words)
                        self.assertEqual((status, out), (3, b""), said)
                        self.assertIn(b"fault: List\n%s: it names no file" % listed, said)
        status, out, said = verify(self.top, "--against", os.devnull)
        self.assertEqual((status, out), (3, b""), said)


if __name__ == "__main__":
    unittest.main()
