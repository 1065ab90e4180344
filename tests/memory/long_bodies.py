"""`run` allocates nothing for a body that is longer than allowed, and nothing before the first byte of a body came: as much as for
a header without its last byte. For a body that has come in part it allocates at most twice as much as came, and at most its
length."""

import unittest

from allocations import COUNTS_FILE, FILLED, READ, Counts, filled, run_over
from lib.frames import HEADER, LIMITS, MADE, create, reply

# the difference that the fault's name may make
ROOM = 64


def header(version, length):
    return HEADER.pack(version, 4, 1, 2, length)


def asked_over(rest, **variables):
    """Runs `run` over a request and then these bytes: the fault, and the counts."""
    ended, written, said = run_over(filled(create(1)) + rest, COUNTS=COUNTS_FILE, **variables)
    assert (ended, written) == (4, reply(MADE, 1, 1) + FILLED), (ended, written)
    with open(COUNTS_FILE, encoding="ascii") as counts:
        return said, Counts(*map(int, counts.read().split()))


class LongBodies(unittest.TestCase):
    def setUp(self):
        said, self.without = asked_over(header(1, 0xFFFFFFFF)[:-1])
        self.assertEqual(said, "fault: Truncated\n")

    def test_none_past_the_limit(self):
        for version, limits in LIMITS.items():
            for length in (limits.body + 1, 2 * limits.body, 1 << 31, 0xFFFFFFFF):
                for rest in (b"", bytes(1_000)):
                    with self.subTest(version=version, length=length, rest=len(rest)):
                        said, asked = asked_over(header(version, length) + rest)
                        self.assertEqual(said, "fault: TooLong\n")
                        self.assertEqual(asked.asked, self.without.asked)
                        self.assertLess(abs(asked.less(self.without).bytes), ROOM)

    def test_a_body_that_comes(self):
        """By one allocation if it comes by one read, and else by one more each time that twice as many reads come."""
        for version, limits in LIMITS.items():
            for came in (0, 1, 1_000, READ - HEADER.size, READ, 3 * READ, limits.body // 2, limits.body - 1):
                with self.subTest(version=version, came=came):
                    said, asked = asked_over(header(version, limits.body) + bytes(came))
                    self.assertEqual(said, "fault: Truncated\n")
                    count, size, _ = asked.less(self.without)
                    reads = -(-(came + HEADER.size) // READ)
                    self.assertGreaterEqual(count, min(came, 1))
                    self.assertLessEqual(count, min(came, 1) if reads == 1 else 1 + reads.bit_length())
                    self.assertLessEqual(size, came if reads == 1 else 4 * came)

    def test_at_most_twice_as_much_as_came(self):
        """No allocation is larger, nor than the whole body."""
        for version, limits in LIMITS.items():
            for came in (READ + 1, 3 * READ, limits.body // 2, limits.body - 1):
                with self.subTest(version=version, came=came):
                    said, _ = asked_over(header(version, limits.body) + bytes(came), LIMIT=min(2 * came, limits.body))
                    self.assertEqual(said, "fault: Truncated\n")


if __name__ == "__main__":
    unittest.main()
