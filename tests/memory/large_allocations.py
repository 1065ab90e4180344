"""Every allocation above a limit is refused. An unfinished file takes twice the scan limit and 16 places, whatever
its size and the number of its pieces; a piece takes the body of its frame."""

import os
import unittest

from allocations import REFUSING, run_over
from lib.frames import LARGEST_FILE, LIMITS, MADE, MOST_PIECES, NODE, PROGRESS, SCAN_LIMIT, TAKEN
from lib.frames import create, file, piece, reply, status
from lib.program import run_plainly
from lib.session import rows_in_version

PIECE_FIELDS = 12


class LargeAllocations(unittest.TestCase):
    def answers(self, version, limit, rows, ended=0, said=""):
        """Checks that with this limit `run` answers the requests of these rows, in a version, and ends so."""
        requests, replies = zip(*rows_in_version(version, rows))
        with self.subTest(version=version):
            end = run_over(b"".join(requests), LIMIT=limit)
            self.assertEqual(end[::2], (ended, said))
            self.assertTrue(end[1] == b"".join(replies), end[1][-100:])

    def test_a_file_of_2_to_the_40_bytes(self):
        """Fifteen pieces wait for the first, and five more follow."""
        order = [*range(15, 0, -1), *range(0, 1), *range(16, 21)]
        for version, limits in LIMITS.items():
            content = bytes(limits.piece)
            rows = [(create(1), reply(MADE, 1, 1)), (file(2, b"n", LARGEST_FILE, limits.piece), reply(NODE, 2, 1))]
            rows += [(piece(3 + at, 1, index, content), reply(TAKEN, 3 + at, 1 + at)) for at, index in enumerate(order)]
            rows.append((status(50, 1), reply(PROGRESS, 50, 21, 21)))
            self.answers(version, PIECE_FIELDS + limits.piece, rows)

    def test_a_file_of_a_million_pieces(self):
        rows = [(create(1), reply(MADE, 1, 1)), (file(2, b"n", MOST_PIECES, 1), reply(NODE, 2, 1))]
        rows += [(piece(3 + index, 1, index, b"a"), reply(TAKEN, 3 + index, 1 + index)) for index in range(100)]
        for version in LIMITS:
            self.answers(version, SCAN_LIMIT, rows)

    def test_a_byte_less_refuses_a_window(self):
        """In a script, since `run` reads into a buffer of the window's size."""
        sizes = SCAN_LIMIT, SCAN_LIMIT - 1
        lines = ["1 1 create 65536 0", *(f"1 {2 + place} file 1 0 0 {size} 1 n" for place, size in enumerate(sizes)), ""]
        limited = {"LD_PRELOAD": REFUSING, "LIMIT": str(SCAN_LIMIT - 1)}
        ended = run_plainly(["script"], "\n".join(lines).encode("ascii"), env={**os.environ, **limited})
        self.assertEqual(ended[:2], (0, b"made 1\nrefused 18\nnode 1\n"))

    def test_a_byte_less_refuses_the_body_of_a_piece(self):
        for version, limits in LIMITS.items():
            rows = [(create(1), reply(MADE, 1, 1)), (file(2, b"n", LARGEST_FILE, limits.piece), reply(NODE, 2, 1))]
            rows.append((piece(3, 1, 0, bytes(limits.piece)), b""))
            self.answers(version, PIECE_FIELDS + limits.piece - 1, rows, 4, "fault: Memory\n")


if __name__ == "__main__":
    unittest.main()
