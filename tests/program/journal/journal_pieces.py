"""`compact` of journals with as many long pieces as checksums are computed side by side, with fewer, and with more. Each becomes
the smaller journal of the model (smaller_file.py), which computes the checksum of each request alone."""

import unittest

from journal_compact import compact, is_smaller_of, made_small
from journal_file import Record, header_of, journal_bytes, md5, read
from journal_session import InJournal, contents, sample_bytes, store
from lib.frames import ABANDON, ABANDONED, PIECE, TAKEN, frame, numbers, reply

CLIENT = 7
# the first file of the first profile
FILE = numbers(1, 1)
ABANDONS_IT = Record(False, frame(ABANDON, CLIENT, 1_000, FILE, 2), frame(ABANDONED, CLIENT, 1_000, b"", 2))

# how many bytes pieces have: around the blocks of a hash, and far from them
SIZES = [0, 1, 37, 38, 2_000, 46, 47, 500, 3, 101, 102, 64, 63, 1_100, 5, 5, 119, 120]
# long requests with short ones between them, none or several: fewer than eight, and then more
MIXED = [1_200, 3, 2_000, 1_024, 0, 5, 7, 1_500, 998, 997, 1_000, 1_001, 70, 3_000, 2]
MIXED += [4_000, 1, 1, 1, 1_100, 1_023, 6, 1_024, 1_025, 9, 5_000, 8, 8, 1_300, 4]
# more than what is read at once
LARGE = [3_000_000, 2_500_001, 4_100_000, 10, 3_999_999, 1_000_000, 2_000_000, 4_000_000, 3]


def piece_record(number, size):
    """The record of a piece of this size. The checksum of a request has the bytes behind its header."""
    request = frame(PIECE, CLIENT, number, FILE + bytes([number % 251]) * size, 2)
    return Record(False, request, reply(TAKEN, number, 1, client=CLIENT, version=2))


class Pieces(InJournal):
    def compacted(self, sizes, ends):
        """A journal of pieces of these sizes, and then, if it ends, the end of their file: its records, and those that
        `compact` makes of them."""
        records = [piece_record(number, size) for number, size in enumerate(sizes)]
        records += [ABANDONS_IT] if ends else []
        old = journal_bytes(header_of(sample_bytes(), md5(b"random")), records)
        store(self.path, old)
        found = compact(self.path)
        new = contents(self.path)
        self.assertTrue(is_smaller_of(new, old), sizes)
        self.assertEqual(found, (0, b"", made_small(self.path, old, new)), sizes)
        return records, read(new).records

    def become_bare(self, sizes):
        old, new = self.compacted(sizes, True)
        if sizes:
            self.assertNotEqual(old, new)

    def stay(self, sizes):
        old, new = self.compacted(sizes, False)
        self.assertEqual(old, new)

    def test_many_sizes(self):
        for count in range(len(SIZES) + 1):
            self.become_bare(SIZES[:count])

    def test_long_ones_with_short_ones_between(self):
        for count in range(len(MIXED) + 1):
            self.become_bare(MIXED[:count])
        self.stay(MIXED)

    def test_a_file_that_goes_on(self):
        """No piece becomes bare."""
        self.stay(SIZES)
        self.stay([7] * 130)

    def test_the_end_of_what_is_read_at_once(self):
        self.become_bare(LARGE)


if __name__ == "__main__":
    unittest.main()
