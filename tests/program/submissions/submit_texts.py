"""A service whose export is no text that a profile has, or contradicts its own replies. `submit` refuses the first with
the record's number and the column's name, and reports the second as a difference with both. The tree has a.bin (number 1),
sub (2), z.bin (3) and sub/b.txt (4), so the records are numbered 2 to 5, behind the names of the columns."""
import os
import unittest

from lib.lying import Lying, exporting
from lib.submissions import NO_PROFILE, WithSmallTree, fault, submit


def row(text, number):
    """Returns the row of this record: 1 is that of the columns' names."""
    return text.splitlines(keepends=True)[number - 1]


def with_row(number, old, new):
    """Changes a row: `old` has to be in it."""

    def change(text):
        rows = text.splitlines(keepends=True)
        assert old in rows[number - 1], (rows[number - 1], old)
        rows[number - 1] = rows[number - 1].replace(old, new, 1)
        return b"".join(rows)

    return change


def with_rows(change):
    return lambda text: b"".join(change(text.splitlines(keepends=True)))


# a change of the text, the record that it makes wrong, and the column
WRONG = (
    # one spelling only
    (lambda text: text[:-2] + b"\n", 5, "FORMAT_VERSION"),
    (lambda text: text[:-1], 5, "FORMAT_VERSION"),
    (lambda text: text.replace(b"\n", b"\r\n"), 1, "FORMAT_VERSION"),
    (lambda text: b"\xef\xbb\xbf" + text, 1, "ID"),
    (lambda text: text + b"\n", 6, "ID"),
    (lambda text: text.replace(b'"', b""), 1, "ID"),
    (with_row(3, b'"2"', b"2"), 3, "ID"),
    (with_row(2, b'"a.bin"', b"a.bin"), 2, "NAME"),
    (with_row(2, b'"File"', b'"Fi""le"'), 2, "TYPE"),
    (with_row(2, b'","', b'", "'), 2, "PARENT_ID"),
    (lambda text: text[:-1] + b',""\n', 5, "FORMAT_VERSION"),
    (lambda _: b"", 1, "ID"),
    (lambda text: text.replace(b"MD5_HASH", b"SHA256_HASH"), 1, "MD5_HASH"),
    (lambda text: text.replace(b'"ID","PARENT_ID"', b'"PARENT_ID","ID"'), 1, "ID"),
    # the order of rows, a row twice, numbers
    (with_rows(lambda rows: rows[:1] + rows[:0:-1]), 2, "PARENT_ID"),
    (with_rows(lambda rows: [*rows[:2], rows[3], rows[2], rows[4]]), 4, "ID"),
    (with_rows(lambda rows: [*rows, rows[-1]]), 6, "ID"),
    (with_rows(lambda rows: [*rows, rows[-1].replace(b'"4"', b'"5"', 1)]), 6, "FILE_PATH"),
    (with_row(2, b'"1"', b'"01"'), 2, "ID"),
    (with_row(2, b'"1"', b'"0"'), 2, "ID"),
    (with_row(5, b'"4"', b'"100001"'), 5, "ID"),
    (with_row(5, b'"2"', b'"1"'), 5, "PARENT_ID"),
    (with_row(5, b'"2"', b'""'), 5, "PARENT_ID"),
    (with_row(2, b'"1",""', b'"1","2"'), 2, "PARENT_ID"),
    # each column
    (with_row(2, b'"file:/a.bin"', b'"file:/a%2Ebin"'), 2, "URI"),
    (with_row(3, b'"file:/sub/"', b'"file:/sub"'), 3, "URI"),
    (with_row(2, b'"/a.bin"', b'"/c.bin"'), 2, "NAME"),
    (with_row(2, b'"/a.bin"', b'"//a.bin"'), 2, "FILE_PATH"),
    (with_row(2, b'"/a.bin"', b'"a.bin"'), 2, "FILE_PATH"),
    (with_row(2, b'"/a.bin"', b'"/.."'), 2, "FILE_PATH"),
    (with_row(2, b'"/a.bin"', b'"/a.bin\xff"'), 2, "FILE_PATH"),
    (with_row(2, b'"a.bin"', b'"c.bin"'), 2, "NAME"),
    (with_row(5, b'"Extension"', b'"Guess"'), 5, "METHOD"),
    (with_row(3, b'"","Done"', b'"Signature","Done"'), 3, "METHOD"),
    (with_row(4, b'"Done"', b'"done"'), 4, "STATUS"),
    (with_row(4, b'"513"', b'"+513"'), 4, "SIZE"),
    (with_row(4, b'"513"', b'"0513"'), 4, "SIZE"),
    (with_row(4, b'"513"', b'"1099511627777"'), 4, "SIZE"),
    (with_row(3, b'"","Folder"', b'"0","Folder"'), 3, "SIZE"),
    (with_row(4, b'"File"', b'"file"'), 4, "TYPE"),
    (with_row(5, b'"txt"', b'"TXT"'), 5, "EXT"),
    (with_row(2, b'"2001-09-09T', b'"2001-13-09T'), 2, "LAST_MODIFIED"),
    (with_row(2, b'"2001-09-09T', b'"2001-02-29T'), 2, "LAST_MODIFIED"),
    (with_row(2, b"T01:46:40", b"T24:46:40"), 2, "LAST_MODIFIED"),
    (with_row(2, b"T01:46:40", b" 01:46:40"), 2, "LAST_MODIFIED"),
    (with_row(2, b'"false"', b'"FALSE"'), 2, "EXTENSION_MISMATCH"),
    (with_row(3, b'"false"', b'"true"'), 3, "EXTENSION_MISMATCH"),
    (with_row(5, b'"false"', b'"true"'), 5, "EXTENSION_MISMATCH"),
    (with_row(3, b'"false",""', b'"false","' + b"0" * 32 + b'"'), 3, "MD5_HASH"),
)


class WithTexts(WithSmallTree):
    def submitted(self, change):
        with Lying(exporting(change)) as service:
            status, err = submit(self.top, service.port, 7, "--export", self.export)
        return status, err, service.port


class Texts(WithTexts):
    def refuses(self, change, record, column):
        status, err, port = self.submitted(change)
        self.assertEqual((status, err), (4, fault("Reply", NO_PROFILE % (port, record, column))))
        with self.assertRaises(FileNotFoundError):
            self.exported()

    def test_each_text_that_no_profile_has(self):
        for change, record, column in WRONG:
            with self.subTest(record=record, column=column):
                self.refuses(change, record, column)

    def test_hashes(self):
        with Lying() as service:
            submit(self.top, service.port, 7, "--export", self.export)
        digest = row(self.exported(), 2).split(b'","')[12]
        os.remove(self.export)
        self.assertEqual(len(digest), 32)
        for other in (digest.upper() if digest.upper() != digest else b"A" * 32, digest[:-1], digest + b"0", b""):
            self.refuses(with_row(2, digest, other), 2, "MD5_HASH")

    def test_formats(self):
        """sub/b.txt is found by its extension in the sample registry, or not at all: the row is made so here."""
        for count, puid, more, column in (
            (b"1", b"", b"", "PUID"),
            (b"0", b"x/1", b"", "METHOD"),
            (b"01", b"x/1", b"", "FORMAT_COUNT"),
            (b"4097", b"x/1", b"", "FORMAT_COUNT"),
            (b"1", b"x 1", b"", "PUID"),
            (b"1", b"x" * 33, b"", "PUID"),
        ):
            self.refuses(formats(5, count, puid, more), 5, column)
        # a second row that is not there, of another count, of one PUID twice, and of another name for it
        self.refuses(formats(5, b"2", b"x/1", b""), 6, "ID")
        self.refuses(formats(5, b"2", b"x/1", b"x/1"), 6, "PUID")
        self.refuses(formats(5, b"1", b"x/1", b"x/2"), 6, "ID")
        self.refuses(named_twice, 5, "FORMAT_NAME")


def formats(number, count, puid, more):
    """Gives a record the method Extension, this count and PUID, and if named a second row of another PUID."""

    def change(text):
        rows = text.splitlines(keepends=True)
        fields = rows[number - 1][1:-2].split(b'","')
        fields[5], fields[13:] = b"Extension", [count, puid, b"", b"A format", b""]
        rows[number - 1] = spelled(fields)
        if more:
            rows.insert(number, spelled([*fields[:14], more, b"", b"A format" if more == puid else b"Another", b""]))
        return b"".join(rows)

    return change


def named_twice(text):
    """Two files have one PUID with two names."""
    rows = text.splitlines(keepends=True)
    for number, name in ((4, b"One"), (5, b"Other")):
        fields = rows[number - 1][1:-2].split(b'","')
        fields[5], fields[13:] = b"Extension", [b"1", b"x/1", b"", name, b""]
        rows[number - 1] = spelled(fields)
    return b"".join(rows)


def spelled(fields):
    return b'"' + b'","'.join(fields) + b'"\n'


class Contradictions(WithTexts):
    """What the service replied when it added and finished a file, and what its export says of it."""

    def reports(self, change, *lines):
        status, err, _ = self.submitted(change)
        self.assertEqual((status, err.splitlines()), (5, list(lines)))

    def test_numbers(self):
        def change(text):
            return text.replace(b'\n"4","2"', b'\n"7","2"')

        self.reports(change, b"differs: /sub/b.txt: the profile has another ID (record 5)")

    def test_known_columns(self):
        for number, old, new, line in (
            (4, b'"513"', b'"514"', b"differs: /z.bin: the profile has another SIZE (record 4)"),
            (2, b"T01:46:40", b"T01:46:39", b"differs: /a.bin: the profile has another LAST_MODIFIED (record 2)"),
            (3, b"T02:40:00", b"T02:40:01", b"differs: /sub: the profile has another LAST_MODIFIED (record 3)"),
        ):
            self.reports(with_row(number, old, new), line)

    def test_formats_of_a_finished_file(self):
        self.reports(formats(4, b"1", b"x/1", b""), b"differs: /z.bin: the profile has another METHOD (record 4)")
        self.reports(formats(4, b"2", b"x/1", b"x/2"), b"differs: /z.bin: the profile has another METHOD (record 4)")

    def test_puid_of_a_finished_file(self):
        """The file b.abc has the format dev/2 of the sample registry; the export says another one of the same count."""
        self.file(b"/b.abc", b"abcdefghijklmnopqrstuvwxyz")

        def change(text):
            assert b'"dev/2"' in text
            return text.replace(b'"dev/2"', b'"dev/3"')

        self.reports(change, b"differs: /b.abc: the profile has another PUID (record 3)")

    def test_hash_of_a_file_that_is_not_read_again(self):
        """The second run reads no file. The hash that the service replied before is known from its Finished."""
        with Lying() as service:
            self.assertEqual(submit(self.top, service.port, 7), (0, b""))
            service.lie = exporting(other_digest)
            status, err = submit(self.top, service.port, 7)
        self.assertEqual((status, err.splitlines()), (5, [b"differs: /a.bin: the profile has another MD5_HASH (record 2)"]))


def other_digest(text):
    rows = text.splitlines(keepends=True)
    fields = rows[1][1:-2].split(b'","')
    fields[12] = b"0" * 32
    rows[1] = spelled(fields)
    return b"".join(rows)


if __name__ == "__main__":
    unittest.main()
