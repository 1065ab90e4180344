"""Runs `send` again and again, and refuses another of its allocations each time (tests/memory/refuse.c)."""

import os
import struct
import tempfile
import unittest

from lib.connections import connect, read_frame
from lib.frames import LIMITS, REFUSED, lines_in_version
from lib.program import Serve, preloaded, send
from lib.rows import COLUMNS, folder_row
from serve_command import EXPORT_1

# lines, a name and a reply that need more than a few bytes
NAME = b"n" * 255
LINES = b"create 65536 0\nfolder 1 0 0 " + NAME + b"\nexport 1 0 1048576 any type=Folder ext=" + b"e" * 255 + b",f\n"
TEXT = COLUMNS + folder_row(1, NAME)
PRINTED = [b"made 1\n", b"node 1\n", b"part 2 %d %d\n" % (len(TEXT), len(TEXT)) + TEXT]
FRONTS = [b"".join(PRINTED[:count]) for count in range(4)]
MEMORY = "fault: Memory\n"


def commands_accepted(port):
    """Asks how many commands the service has accepted. Before the first one there is no profile to ask for."""
    with connect(port) as stream:
        stream.sendall(EXPORT_1)
        kind, _, _, body = read_frame(stream)
    return 0 if kind == REFUSED else struct.unpack(">Q", body[:8])[0]


class SendMemory(unittest.TestCase):
    def allocations(self, lines):
        """Counts the allocations of a `send` of these lines."""
        with tempfile.TemporaryDirectory() as folder, Serve() as service:
            path = os.path.join(folder, "count")
            counting = preloaded("REFUSE", ALLOCATIONS=path)
            self.assertEqual(send(service.port, 7, lines, env=counting), (0, FRONTS[3], ""))
            with open(path, encoding="ascii") as file:
                return int(file.read())

    def with_refused(self, lines, number):
        """Runs `send` with this allocation refused: its end, how many replies it printed, and how many commands were
        accepted. The same lines sent again have to be answered as if nothing had been."""
        with Serve(3) as service:
            status, out, said = send(service.port, 7, lines, env=preloaded("REFUSE", REFUSE=number))
            self.assertIn(out, FRONTS)
            if status == 6:
                connect(service.port).close()
            accepted = commands_accepted(service.port)
            self.assertEqual(send(service.port, 7, lines), (0, FRONTS[3], ""))
        return (status, said), FRONTS.index(out), accepted

    def test_each_allocation_refused(self):
        for version in LIMITS:
            self.each_allocation_refused(lines_in_version(version, LINES))

    def each_allocation_refused(self, lines):
        found = set()
        for number in range(1, self.allocations(lines) + 1):
            with self.subTest(lines=lines[:9], number=number):
                ending, printed, accepted = self.with_refused(lines, number)
                found.add((ending[0], printed, accepted))
                if ending[0] == 0:
                    self.assertEqual((ending, printed), ((0, ""), 3))
                elif ending[0] == 6:
                    self.assertEqual((ending, printed, accepted), ((6, MEMORY), 0, 0))
                else:
                    self.assertEqual(ending, (4, MEMORY))
                    self.assertLess(printed, 3)
                    self.assertIn(accepted, (min(printed, 2), min(printed + 1, 2)))
        # no memory before the connection; before a command is sent, and when its reply comes, for both; and for the
        # query
        self.assertLessEqual({(6, 0, 0), (4, 0, 0), (4, 0, 1), (4, 1, 1), (4, 1, 2), (4, 2, 2)}, found)


if __name__ == "__main__":
    unittest.main()
