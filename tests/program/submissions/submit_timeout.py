"""A reply has to be whole within --timeout, however its bytes come."""

import time
import unittest

from lib.links import Link
from lib.program import Serve
from lib.submissions import WithSmallTree, fault, submit

# a byte each half second: no silence is longer than a second, and a reply of 22 bytes takes eleven
TRICKLE = (1, 0.5)


class Trickling(WithSmallTree):
    def test_a_byte_each_half_second(self):
        """Each connection is given up after a second, and the whole run when the time to wait is over."""
        with Serve(None, ["--at-once", "8", "--forever"], killed=True) as service, Link(service.port, trickle=TRICKLE) as link:
            start = time.monotonic()
            status, said = submit(self.top, link.port, 7, "--timeout", "1", "--wait", "3")
            took = time.monotonic() - start
            self.assertEqual((status, said.splitlines(True)[0]), (4, fault("Broken", "").splitlines(True)[0]))
            self.assertGreaterEqual(len(link.pairs), 2)
            self.assertLess(took, 9)

    def test_slow_but_in_time(self):
        """A reply that takes a while, but less than that, is taken."""
        with Serve(None, ["--at-once", "8", "--forever"], killed=True) as service, Link(service.port, trickle=(8, 0.01)) as link:
            self.assertEqual(submit(self.top, link.port, 7, "--timeout", "5", "--export", self.export), (0, b""))
            self.assertEqual(len(link.pairs), 1)


if __name__ == "__main__":
    unittest.main()
