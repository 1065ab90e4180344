"""`send` with many lines, the longest lines, the largest replies, and the least and greatest client numbers."""

import unittest
from hashlib import md5

from lib.frames import LIMITS, lines_in_version
from lib.program import Serve, send
from lib.rows import COLUMNS, folder_row

# the largest part of an export, and the length of a line
MEBIBYTE = 1_048_576
# lengths of pieces, and the versions whose frames hold them: the largest piece of version 1, and the bytes that a body
# of each version has room for
HELD = [(1_048_576, (1, 2)), (1_048_628, (1, 2)), (1_048_629, (2,)), (4_194_356, (2,)), (4_194_357, ())]
LINES = 1_500


class SendSizes(unittest.TestCase):
    def test_many_lines(self):
        folders = b"".join(b"folder 1 0 0 f%d\n" % number for number in range(1, LINES + 1))
        nodes = b"".join(b"node %d\n" % number for number in range(1, LINES + 1))
        with Serve() as service:
            lines = b"create 65536 0\n" + folders + b"status 1 %d\n" % (LINES + 1) * LINES
            printed = b"made 1\n" + nodes + b"refused 4\n" * LINES
            self.assertEqual(send(service.port, 7, lines), (0, printed, ""))

    def test_the_largest_pieces(self):
        """And pieces of other lengths, of an index that the file doesn't have."""
        for version, limits in LIMITS.items():
            content = bytes(range(256)) * (limits.piece // 256)
            lines = [b"create 65536 0", b"file 1 0 0 %d %d x.bin" % (2 * limits.piece, limits.piece)]
            lines += [b"piece 1 1 %d " % index + content.hex().encode("ascii") for index in (1, 0)]
            lines += [b"piece 1 1 2 " + b"61" * count for count, _ in HELD]
            lines += [b"finish 1 1", b""]
            digest = md5(content * 2).hexdigest().encode("ascii")
            answers = b"".join(b"refused 13\n" if version in versions else b"bad line\n" for _, versions in HELD)
            printed = b"made 1\nnode 1\ntaken 1\ntaken 2\n%sfinished none false %s -\n" % (answers, digest)
            with self.subTest(version=version), Serve() as service:
                ended = send(service.port, 7, lines_in_version(version, b"\n".join(lines)))
                self.assertEqual(ended, (5, printed, ""))

    def test_lines_of_a_mebibyte(self):
        """With a line feed after the last one and without."""
        name = b"n" * (MEBIBYTE - len(b"folder 1 0 0 "))
        line = b"folder 1 0 0 " + name
        for lines, status, printed in (
            (line, 0, b"refused 3\n"),
            (line + b"\n" + line + b"\n", 0, b"refused 3\nrefused 3\n"),
            (b"x" * MEBIBYTE + b"\n" + line, 5, b"bad line\nrefused 3\n"),
        ):
            with self.subTest(size=len(lines)), Serve() as service:
                self.assertEqual(send(service.port, 7, lines), (status, printed, ""))

    def test_the_largest_reply(self):
        """A part of a mebibyte, and the rest of the text."""
        names = [b"%04d" % number + b"n" * 251 for number in range(1, LINES + 1)]
        folders = b"".join(b"folder 1 0 0 %s\n" % name for name in names)
        text = COLUMNS + b"".join(folder_row(number, name) for number, name in enumerate(names, 1))
        self.assertLess(MEBIBYTE, len(text))
        shown = b"".join(
            b"part %d %d %d\n" % (LINES + 1, len(text), len(part)) + part
            for part in (text[:MEBIBYTE], text[MEBIBYTE:])
        )
        lines = b"create 65536 0\n" + folders + b"export 1 0 1048576\nexport 1 1048576 1048576\n"
        with Serve() as service:
            status, out, said = send(service.port, 7, lines)
        self.assertEqual((status, said), (0, ""))
        printed = b"made 1\n" + b"".join(b"node %d\n" % number for number in range(1, LINES + 1)) + shown
        self.assertTrue(out == printed, len(out))

    def test_clients(self):
        clients = [0, 1, 2, 255, 256, 65_535, 65_536, 2**31 - 1, 2**31, 2**32 - 2, 2**32 - 1]
        with Serve(2 * len(clients)) as service:
            for profile, client in enumerate(clients, 1):
                for _ in range(2):
                    lines = b"create 65536 0\nfolder %d 0 0 in\n" % profile
                    printed = b"made %d\nnode 1\n" % profile
                    self.assertEqual(send(service.port, client, lines), (0, printed, ""))


if __name__ == "__main__":
    unittest.main()
