"""The last valid value of each field and the first invalid one, as frames: through `run`, and each on a connection
of its own to `serve`."""

import unittest
from struct import pack

from lib.connections import connect, read_until_reset, send_until_reset
from lib.frames import HEADER, LARGEST_FILE, LARGEST_PART, LIMITS, MADE, MOST_PIECES, NODE, PART, REFUSED, TAKEN
from lib.frames import export_body, file_body, folder_body, frame, in_version, node_body, numbers, piece_body
from lib.frames import profile_body, refusal
from lib.program import Serve, run
from lib.rows import COLUMNS, folder_row

LAST_NUMBER = 2**63 - 1


def export(count, criteria, start=0):
    """Asks for the text from this place, with this many criteria and a count that may differ. Each criterion is
    that the node is a file, and no file is finished."""
    return export_body(start, criteria=bytes([1, count]) + b"\7\0" * criteria)


LONGEST_NAME = b"n" * 255
TOTAL = len(COLUMNS) + len(folder_row(1, LONGEST_NAME))


def rows(largest):
    """Returns rows of a name; a request's kind, number and body; and its reply's kind and body. They are of
    version 1 but with pieces of up to this size, and come in this order to one service."""
    return [
        ("the last number", 1, LAST_NUMBER, profile_body(), MADE, numbers(1)),
        ("a number past the last", 1, LAST_NUMBER + 1, profile_body(), REFUSED, b"\1"),
        ("a number past the last, of another kind", 5, LAST_NUMBER + 1, node_body(2), REFUSED, b"\1"),
        ("the highest number", 1, 2**64 - 1, profile_body(), REFUSED, b"\1"),
        ("the longest name", 2, 2, folder_body(LONGEST_NAME), NODE, numbers(1)),
        ("a name of a byte more", 2, 3, folder_body(LONGEST_NAME + b"n"), REFUSED, b"\7"),
        ("the most pieces", 3, 4, file_body(b"a", MOST_PIECES, 1), NODE, numbers(2)),
        ("a piece more", 3, 5, file_body(b"b", MOST_PIECES + 1, 1), REFUSED, b"\x0b"),
        ("the largest file", 3, 6, file_body(b"c", LARGEST_FILE, largest), NODE, numbers(3)),
        ("a file of a byte more", 3, 7, file_body(b"d", LARGEST_FILE + 1, largest), REFUSED, b"\x0b"),
        ("pieces of no byte", 3, 7, file_body(b"d", 0, 0), REFUSED, b"\x0a"),
        ("pieces of a byte more than the largest", 3, 7, file_body(b"d", 0, largest + 1), REFUSED, b"\x0a"),
        ("pieces as large as a number can be", 3, 7, file_body(b"d", 0, 2**32 - 1), REFUSED, b"\x0a"),
        ("the largest piece is due", 3, 8, file_body(b"e", largest, largest), NODE, numbers(4)),
        ("a piece of a byte more", 4, 9, piece_body(4, 0, bytes(largest + 1)), REFUSED, b"\x0d"),
        ("as many bytes as a frame holds", 4, 9, piece_body(4, 0, bytes(largest + 52)), REFUSED, b"\x0d"),
        ("the largest piece", 4, 10, piece_body(4, 0, bytes(largest)), TAKEN, numbers(1)),
        ("the last index", 4, 11, piece_body(2, 2**32 - 1, b"a"), REFUSED, b"\x0d"),
        ("the most criteria", 8, 12, export(255, 255), PART, pack(">QQ", 6, len(COLUMNS)) + COLUMNS),
        ("one criterion more than the count", 8, 13, export(255, 256), REFUSED, b"\1"),
        ("one criterion less", 8, 14, export(255, 254), REFUSED, b"\1"),
        ("256 more", 8, 15, export(0, 256), REFUSED, b"\1"),
        ("a part past the end", 8, 16, export(0, 0, 2**64 - 1), PART, pack(">QQ", 6, TOTAL)),
        ("a part larger than there are", 8, 17, export_body(0, LARGEST_PART + 1), REFUSED, b"\x0a"),
    ]


# malformed bodies of CreateProfile: no truth value, no hash, a byte too few, a byte too many, and in each version
# what is a profile in the other
PROFILES = {
    1: ["00010000 02", "00010000", "00010000 00 00", "00010000 00 01", "00010000 00 02"],
    2: ["00010000 02", "00010000 02 01", "00010000 00 03", "00010000 00 ff", "00010000 00", "00010000 01", "00010000 00 01 00"],
}
# kinds and malformed bodies of both versions: a byte less than the shortest, a byte too many, a name that isn't UTF-8,
# unknown kinds, and kinds of replies
MALFORMED = [
    (2, "00000001 00000000 00000000000000"),
    (3, "00000001 00000002 ffffffffffffffff 000000000000000e 000000"),
    (4, "00000001 00000001 000000"),
    *((kind, "00000001 000000") for kind in (5, 6, 7)),
    (8, "00000001 0000000000000000 00100000 01 01 07"),
    *((kind, "00000001 00000002 00") for kind in (5, 6, 7)),
    (2, "00000001 00000000 0000000000000000 ff"),
    (0, ""),
    (9, "00000001 00000002"),
    (129, "00000001"),
    (133, ""),
    (136, "02"),
    (255, ""),
]
# malformed filters of an Export: none, no count, truth values of 2, a method of 3, a kind of 2, tags 0 and 8, too few
# criteria, a list, a text and a number cut short, a text that isn't UTF-8, and a byte too many
FILTERS = [
    "", "01", "02 00", "01 01 04 02", "01 01 01 03", "01 01 07 02", "01 01 00 00", "01 01 08 00", "01 02 04 00",
    "01 01 03 02 01 61", "01 01 03 01 02 61", "01 01 03 01 01 ff", "01 01 05 00000000000000", "01 00 00",
]
# the shortest bodies of four kinds, which are well formed: empty names, an empty piece, and a Status; and 255 criteria, each a
# list of no text, in 528 bytes
SHORTEST = [
    (2, "00000001 00000000 0000000000000000"),
    (3, "00000001 00000002 ffffffffffffffff 000000000000000e 00000004"),
    (4, "00000001 00000001 00000003"),
    (7, "00000001 00000002"),
    (8, "00000001 0000000000000009 00000001 00 ff" + "03 00" * 255),
]


def judged_by_their_bodies(version):
    """Returns rows of a kind, a number, a body in hexadecimal, and why it is refused: it is malformed, or there is no
    profile yet."""
    malformed = [(1, body) for body in PROFILES[version]] + MALFORMED
    malformed += [(8, f"00000001 0000000000000009 00000001 {text}") for text in FILTERS]
    return [(kind, 1, body, 1) for kind, body in malformed] + [(kind, LAST_NUMBER, body, 3) for kind, body in SHORTEST]


def frames(version):
    """Returns rows of a name, a frame and its reply."""
    found = []
    for kind, number, body, cause in judged_by_their_bodies(version):
        request = frame(kind, 1, number, bytes.fromhex(body), version)
        found.append((f"{kind} {body}", request, refusal(number, cause, version=version)))
    for name, kind, number, body, reply, reply_body in rows(LIMITS[version].piece):
        sides = frame(kind, 1, number, body), frame(reply, 1, number, reply_body)
        found.append((name, *(in_version(version, side) for side in sides)))
    return found


def too_long(version):
    """Returns headers after which nothing more is read."""
    return [HEADER.pack(version, 1, 1, 1, length) for length in (LIMITS[version].body + 1, 0xFFFFFFFF)]


class HostileRows(unittest.TestCase):
    maxDiff = 500

    def test_through_run(self):
        for version in LIMITS:
            with self.subTest(version=version):
                _, requests, replies = zip(*frames(version))
                further = requests[0]
                requests, replies = b"".join(requests), b"".join(replies)
                self.assertEqual(run(["run"], requests), (0, replies, ""))
                for header in too_long(version):
                    for rest in (b"", b"\0", further):
                        self.assertEqual(run(["run"], requests + header + rest), (4, replies, "fault: TooLong\n"))

    def test_through_serve(self):
        """A length that is too long ends its connection, and no other one."""
        for version in LIMITS:
            found = frames(version)
            with self.subTest(version=version), Serve(3 * len(found)) as service:
                for name, request, reply in found:
                    for rest in (b"", *(header + request for header in too_long(version))):
                        with connect(service.port) as stream:
                            send_until_reset(stream, request + rest)
                            self.assertEqual(read_until_reset(stream, len(reply) + 1), reply, name)


if __name__ == "__main__":
    unittest.main()
