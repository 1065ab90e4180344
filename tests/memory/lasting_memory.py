"""The bytes that `run` holds after long streams. The same stream always has the same counts, so they are compared
exactly."""

import hashlib
import unittest

from allocations import FILLED, counted, filled
from lib.frames import ABANDONED, FINISHED, LIMITS, MADE, NODE, TAKEN
from lib.frames import abandon, create, file, finish, folder, frame, in_version, piece, refusal, reply
from lib.session import KEPT, NOT_KEPT, replies_of, requests_of, rows_in_version

FEW, MANY = 1_000, 100_000
TIMES = MANY // FEW
PIECES = 1_000_000
# each version with the hashes that a profile can have in it: their numbers, and the hash of no byte
HASHES = [(1, 1, hashlib.md5().digest()), (2, 0, b""), (2, 1, hashlib.md5().digest()), (2, 2, hashlib.sha256().digest())]


class Repeats(unittest.TestCase):
    """The database's statements and working rows have their final sizes after a thousand requests. After a hundred
    thousand no byte more is held, and each thousand allocates as much as the thousand before. (They are whole reads, so that
    each thousand is read in the same way.)"""

    def after(self, requests, replies, times):
        """Returns the counts after the session and then these requests, this many times."""
        written, counts = counted(filled(requests_of(KEPT)) + requests * times)
        self.assertTrue(written == replies_of(KEPT) + FILLED + replies * times)
        return counts

    def leave_nothing(self, rows, few=FEW, times=TIMES):
        with self.subTest(rows=rows):
            requests, replies = filled(requests_of(rows) * few), replies_of(rows) * few + FILLED
            once, twice, often = (self.after(requests, replies, count) for count in (1, 2, times))
            self.assertEqual(often.held, once.held)
            self.assertEqual(often.less(once), tuple(count * (times - 1) for count in twice.less(once)))

    def test_no_repeat_leaves_anything(self):
        for row in KEPT:
            self.leave_nothing([row])

    def test_repeats_in_turn_leave_nothing(self):
        self.leave_nothing(KEPT, FEW // 10)

    def test_no_query_or_refusal_leaves_anything(self):
        kept_in_version_1 = rows_in_version(2, [(folder(2, b"in"), refusal(2, 2))])
        for row in NOT_KEPT + kept_in_version_1:
            self.leave_nothing([row], times=TIMES // 10)


# An entry of a table or of an index has a node of its tree, and a row that the trees before and after a change share.
# Each is an allocation, and so are the row's bytes, a record of SQLite.
ENTRY = 64 + 40
PROFILE = 1
AT_THE_TOP = 0
FINISHED_STATE = 2


def width(number):
    """Counts the bytes that a record has of an integer beside its type, which is enough for 0, 1 and NULL."""
    if number in (0, 1):
        return 0
    return next(size for size in (1, 2, 3, 4, 6, 8) if -(1 << 8 * size - 1) <= number < 1 << 8 * size - 1)


def entry(numbers, lengths=()):
    """Counts the bytes of a row of these integers, and of texts and blobs of these lengths, 57 at most: a byte for
    the length of its types, a type for each value, and the values."""
    return ENTRY + 1 + len(numbers) + sum(map(width, numbers)) + len(lengths) + sum(lengths)


def reply_row(place, number, kind, body, version=1):
    """Counts the bytes of the reply in this place, with a body of this length: a row with its rowid, a NULL in the
    place of its key, its mark of 16 bytes and its body, and an entry in the index by client and number."""
    return entry((place, 0, 1, number, version, kind), (16, body)) + entry((1, number, place))


def file_row(rowid, node, state, piece_size, name, digest):
    """Counts the bytes of an empty file at the top without formats, with a name and a digest of these lengths: a
    row with its rowid, and an entry in the index by number and in that by name."""
    numbers = (rowid, PROFILE, node, AT_THE_TOP, 0, state, 0, piece_size, 0, 0)
    row = entry(numbers, (name, name + 1, 0, digest))
    return row + entry((PROFILE, node, rowid)) + entry((PROFILE, AT_THE_TOP, rowid), (name,))


def sent(order):
    """Returns the frames of a file of pieces of one byte, and of these of its pieces, in this order."""
    pieces = (piece(3 + place, 1, index, b"\7") for place, index in enumerate(order))
    return create(1) + file(2, b"n", PIECES, 1) + b"".join(pieces)


def answered(count):
    """Returns the replies to that, where this many pieces are taken."""
    return reply(MADE, 1, 1) + reply(NODE, 2, 1) + b"".join(reply(TAKEN, 3 + place, 1 + place) for place in range(count))


class Pieces(unittest.TestCase):
    """Of a piece that was hashed only the reply is kept, at most 255 bytes. Not a byte more may be held: a list
    with one number of eight bytes for each piece would be seen."""

    def held_after(self, order):
        written, counts = counted(sent(order))
        self.assertTrue(written == answered(len(order)))
        return counts.held

    def test_memory_grows_by_the_replies_alone(self):
        few = self.held_after(range(FEW))
        for count in (10_000, 50_000, MANY):
            with self.subTest(count=count):
                replies = sum(reply_row(number, number, TAKEN, 4) for number in range(3 + FEW, 3 + count))
                self.assertEqual(self.held_after(range(count)) - few, replies)

    def test_the_same_where_pieces_wait(self):
        """The first of each sixteen pieces comes last, so that fifteen wait."""
        count = 10_000
        backwards = [start + 15 - place for start in range(0, count, 16) for place in range(16)]
        self.assertEqual(self.held_after(backwards), self.held_after(range(count)))


def abandoned(node):
    """Returns rows of a file of one piece that is added and abandoned."""
    number = 3 * node
    return [
        (file(number, b"%08d" % node, 1, 1), reply(NODE, number, node)),
        (piece(number + 1, node, 0, b"a"), reply(TAKEN, number + 1, 1)),
        (abandon(number + 2, node), reply(ABANDONED, number + 2)),
    ]


def found(version, hash, digest):
    """Returns the body of Finished with this hash and without formats."""
    return b"\0\0" + (bytes([hash]) if version == 2 else b"") + digest + b"\0\0"


def finished(node, version, body):
    """Returns rows of an empty file that is added and finished, with this body of Finished."""
    number = 2 * node
    added = file(number, b"%08d" % node, 0, 1), reply(NODE, number, node)
    ended = in_version(version, finish(number + 1, node)), frame(FINISHED, 1, number + 1, body, version)
    return [*rows_in_version(version, [added]), ended]


class Files(unittest.TestCase):
    """Of a finished or abandoned file only its rows and the replies are kept."""

    COUNT = 10_000

    def held_after(self, rows_of, count, version=1, hash=1):
        rows = [(create(1, version=version, hash=hash), in_version(version, reply(MADE, 1, 1)))]
        for node in range(1, 1 + count):
            rows += rows_of(node)
        written, counts = counted(requests_of(rows))
        self.assertTrue(written == replies_of(rows))
        return counts.held

    def grow_by(self, rows_of, kept, *profile):
        """Checks that each file leaves as many bytes as `kept` counts."""
        few, many = (self.held_after(rows_of, count, *profile) for count in (FEW, self.COUNT))
        self.assertEqual(many - few, sum(kept(node) for node in range(1 + FEW, 1 + self.COUNT)))

    def test_abandoned_files_leave_their_replies(self):
        for version in LIMITS:

            def kept(node):
                number = 3 * node
                taken = reply_row(number - 1, number, NODE, 4, version) + reply_row(number, number + 1, TAKEN, 4, version)
                return taken + reply_row(number + 1, number + 2, ABANDONED, 0, version)

            with self.subTest(version=version):
                self.grow_by(lambda node: rows_in_version(version, abandoned(node)), kept, version)

    def test_finished_files_leave_their_rows(self):
        for version, hash, digest in HASHES:
            body = found(version, hash, digest)

            def kept(node):
                number = 2 * node
                replies = reply_row(number, number, NODE, 4, version)
                replies += reply_row(number + 1, number + 1, FINISHED, len(body), version)
                return replies + file_row(node, node, FINISHED_STATE, 1, 8, len(digest))

            with self.subTest(version=version, hash=hash):
                self.grow_by(lambda node: finished(node, version, body), kept, version, hash)


if __name__ == "__main__":
    unittest.main()
