"""What `verify` did not compare: a file without a hash of both sides is a row `unchecked`, and no status 0 is left to it."""
import hashlib
import os
import re
import unittest

from lib.trees import profile
from verify_lists import InLists, bytes_of, rows_in, sums, verify

REASON = b"no hash to compare"
MD5 = lambda content: hashlib.md5(content).hexdigest().encode()
COUNTS = re.compile(rb"^([a-z ]+): (\d+)$", re.MULTILINE)


class Unchecked(InLists):
    def setUp(self):
        super().setUp()
        self.folder(b"/d")
        self.file(b"/a", b"aaa")
        self.file(b"/d/b", b"bb")
        self.file(b"/c", b"c")
        self.path = self.work + b"/list.csv"

    def listed(self, hash="md5", without=()):
        """The CSV of the tree, in which the hashes of these contents are blank."""
        self.assertEqual(profile(self.top, "--hash", hash, "--output", self.path, "--quiet")[0], 0)
        text = bytes_of(self.path)
        for content in without:
            self.assertIn(hashlib.new(hash, content).hexdigest().encode(), text)
            text = text.replace(hashlib.new(hash, content).hexdigest().encode(), b"")
        return self.write(b"other.csv", text)

    def seen(self, list, *words):
        """The status, the rows, and the counts of the summary by their names."""
        status, out, said = verify(self.top, "--against", list, *words)
        return status, rows_in(out), {name.decode(): int(count) for name, count in COUNTS.findall(said)}

    def row(self, path, size, found_hash):
        return (b"unchecked", path, b"%d" % size, b"", path, b"%d" % size, found_hash, REASON)

    def test_a_blank_hash(self):
        """The file has other bytes and the same size, or the same bytes: nobody knows."""
        for hash in ("md5", "sha256"):
            list = self.listed(hash, [b"aaa"])
            for content in (b"aaa", b"AAA"):
                with self.subTest(hash=hash, content=content):
                    self.file(b"/a", content)
                    status, rows, counts = self.seen(list)
                    self.assertEqual((status, rows), (5, [self.row(b"/a", 3, hashlib.new(hash, content).hexdigest().encode())]))
                    self.assertEqual((counts["files compared"], counts["bytes compared"], counts["unchecked"], counts["changed"]), (2, 3, 1, 0))
            self.file(b"/a", b"aaa")

    def test_no_hash_at_all(self):
        rows = [self.row(b"/a", 3, b""), self.row(b"/c", 1, b""), self.row(b"/d/b", 2, b"")]
        for list in (self.listed("none"), self.listed("md5", [b"aaa", b"bb", b"c"])):
            status, found, counts = self.seen(list)
            self.assertEqual((status, found), (5, rows))
            self.assertEqual((counts["files compared"], counts["bytes compared"], counts["unchecked"]), (0, 0, 3))
            # folders are not unchecked, and nothing is with these options
            status, found, counts = self.seen(list, "--sizes-only")
            self.assertEqual((status, found, counts.get("unchecked")), (0, [], None))
            self.assertEqual((counts["files compared by size alone"], counts["bytes not compared"]), (3, 6))
            status, found, counts = self.seen(list, "--quick")
            self.assertEqual((status, found, counts.get("unchecked")), (0, [], None))
            self.assertEqual((counts["files compared by size and modification time alone"], counts["bytes not read"]), (3, 6))
            # it is said before the walk, which may take long; but not with these options
            said = b"has no hash of any file: each will be unchecked; --sizes-only and --quick compare without\n"
            for words, times in (((), 1), (("--sizes-only",), 0), (("--quick",), 0), (("--quiet",), 0)):
                self.assertEqual(verify(self.top, "--against", list, *words)[2].count(said), times, words)

    def test_sizes_only_sees_sizes(self):
        list = self.listed("none")
        self.file(b"/a", b"AAA", when=1_700_000_000)
        self.assertEqual(self.seen(list, "--sizes-only")[:2], (0, []))
        self.file(b"/a", b"AAAA")
        self.file(b"/e", b"e")
        rows = [(b"changed", b"/a", b"3", b"", b"/a", b"4", b"", b""), (b"new", b"/e", b"", b"", b"/e", b"1", b"", b"")]
        status, found, counts = self.seen(list, "--sizes-only")
        self.assertEqual((status, found), (5, rows))
        # a new file is compared with nothing
        self.assertEqual((counts["files compared by size alone"], counts["bytes not compared"]), (3, 7))

    def test_sizes_only_is_for_lists_without_hashes(self):
        """A list with a hash is one to compare by hashes, be it the hash of one file."""
        for list in (self.listed(), self.listed("md5", [b"aaa", b"c"]), self.write(b"list", sums({b"/a": b"aaa"}, "md5"))):
            status, out, said = verify(self.top, "--against", list, "--sizes-only")
            self.assertEqual((status, out), (3, b""), said)
            self.assertIn(b"fault: Hashes\n", said)

    def test_options_that_contradict_each_other(self):
        status, out, said = verify(self.top, "--against", self.listed("none"), "--sizes-only", "--quick")
        self.assertEqual((status, out), (2, b""), said)

    def test_changed_is_not_unchecked(self):
        """What differs is `changed`; a file whose hash is known is compared also beside others that have none."""
        list = self.listed("md5", [b"aaa"])
        self.file(b"/a", b"aaaa")
        self.file(b"/c", b"C")
        rows = [
            (b"changed", b"/a", b"3", b"", b"/a", b"4", MD5(b"aaaa"), b""),
            (b"changed", b"/c", b"1", MD5(b"c"), b"/c", b"1", MD5(b"C"), b""),
        ]
        status, found, counts = self.seen(list)
        self.assertEqual((status, found), (5, rows))
        # /c and /d/b by their hashes; the size of /a differs, and its bytes were compared with nothing
        self.assertEqual((counts["files compared"], counts["bytes compared"], counts["unchecked"]), (2, 3, 0))

    def test_what_counts_as_compared(self):
        """New files do not; a file that moved does: its hash is that of the list."""
        list = self.listed()
        self.file(b"/moved", b"aaa")
        self.file(b"/new", b"12345")
        os.remove(self.top + b"/a")
        status, found, counts = self.seen(list)
        self.assertEqual((status, [row[0] for row in found]), (5, [b"moved", b"new"]))
        self.assertEqual((counts["files compared"], counts["bytes compared"]), (3, 6))
        status, found, counts = self.seen(list, "--quick")
        self.assertEqual((counts["files compared by size and modification time alone"], counts["bytes not read"]), (2, 3))

    def test_status_0_means_equal_hashes(self):
        """Over all lists in which hashes stand or are blank: status 0 is there only where none is."""
        for blank in range(8):
            contents = [content for bit, content in enumerate([b"aaa", b"bb", b"c"]) if blank >> bit & 1]
            status, found, counts = self.seen(self.listed("sha256", contents))
            self.assertEqual((status, len(found), counts["unchecked"]), (5 if blank else 0, len(contents), len(contents)), contents)


if __name__ == "__main__":
    unittest.main()
