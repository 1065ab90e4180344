"""`run` with a journal that was made smaller (smaller_file.py): the service answers each request as one does that has the whole
journal, and goes on with it."""

import random
import unittest

from journal_file import header_size, journal_bytes, read
from journal_session import InJournal, contents, cut_off, damaged, other_reply, run_journal, store
from lib.frames import EXPORT, HEADER, NODE, REFUSED, TAKEN, abandon, create, cut, export_body, file, finish, folder, frame, piece, reply, status
from model_frames import answer, service_of_the_sample
from smaller_file import smaller

SEED = 20_271_128
# a file that is finished, one that is abandoned, and one that goes on
ASKED = [
    create(1),
    file(2, b"a.msg", 10, 4),
    piece(3, 1, 1, b"age "),
    folder(4, b"in"),
    file(5, b"b.msg", 8, 4),
    piece(6, 1, 0, b"mess"),
    piece(7, 3, 1, b"wxyz"),
    file(8, b"c", 4, 4),
    piece(9, 4, 0, b"abcd"),
    abandon(10, 4),
    piece(11, 1, 2, b"st"),
    finish(12, 1),
    file(13, b"d", 0, 4, version=2),
    finish(14, 5, version=2),
]
MORE = [status(20, 3), piece(21, 3, 0, b"mess"), finish(22, 3), status(23, 1), piece(24, 1, 0, b"mess"), finish(25, 4), folder(26, b"in")]
EXPORT_ALL = frame(EXPORT, 1, 90, export_body())


class AskedByModel(InJournal):
    """Tests in which a model is asked all that the service of a journal is asked, in all of its lives."""

    def setUp(self):
        super().setUp()
        self.models = {}

    def due(self, asked, path=None):
        """The replies of the journal's model."""
        model = self.models.setdefault(path or self.path, service_of_the_sample())
        return answer(model, b"".join(asked))[0]

    def asks(self, asked, path=None):
        """A service begins with the journal, and answers as its model does."""
        path = path or self.path
        self.assertEqual(run_journal(path, b"".join(asked)), (0, self.due(asked, path), b""))


class Smaller(AskedByModel):
    def make(self, asked, path=None):
        """Writes a journal of these requests, and makes it smaller by the model: its records before."""
        path = path or self.path
        self.asks(asked, path)
        found = read(contents(path))
        store(path, smaller(found.header, found.records))
        return found.records

    def records(self):
        return read(contents(self.path)).records

    def test_the_same_answers(self):
        """What comes again, what goes on with each file, and the export; before and after a further start."""
        self.make(ASKED)
        for _ in range(2):
            self.asks(ASKED + MORE + [EXPORT_ALL])

    def test_no_bytes(self):
        """The pieces of the finished and of the abandoned file are not in the file, and what it has stays as it is."""
        self.make(ASKED)
        data = contents(self.path)
        for given, there in ((b"mess", False), (b"age ", False), (b"abcd", False), (b"wxyz", True)):
            self.assertEqual(given in data, there)
        self.assertEqual(run_journal(self.path, folder(30, b"new"))[0], 0)
        self.assertTrue(contents(self.path).startswith(data))

    def test_smaller_again(self):
        """A journal that was made smaller goes on, and is made smaller again: also where another file has ended since."""
        self.make(ASKED)
        self.make(ASKED + MORE)
        self.assertNotIn(b"wxyz", contents(self.path))
        self.asks(ASKED + MORE + [EXPORT_ALL])

    def test_random_sessions(self):
        """Files of random pieces, in a random order, with repeats; the journal is made smaller behind each fifth of it."""
        chance = random.Random(SEED)
        for place in range(8):
            asked = self.session(chance)
            path = f"{self.path}{place}"
            for part in range(1, 6):
                self.make(asked[: len(asked) * part // 5], path)
            self.asks(asked + [EXPORT_ALL], path)

    def session(self, chance):
        asked = [create(1)]
        left = []
        for number in range(12):
            pieces = chance.randrange(0, 6)
            asked.append(file(len(asked) + 1, b"%d" % number, 4 * pieces, 4))
            left += [(chance.random(), number + 1, index) for index in range(pieces)]
            left.append((chance.random() + chance.choice((0, 1)), number + 1, None))
        for _, node, index in sorted(left, key=lambda one: one[0]):
            last = abandon if chance.random() < 0.3 else finish
            asked.append(last(len(asked) + 1, node) if index is None else piece(len(asked) + 1, node, index, chance.randbytes(4)))
            if chance.random() < 0.2:
                asked.append(chance.choice(asked))
        return asked

    def test_a_torn_end(self):
        """Bytes behind the last whole record are cut off and saved."""
        self.make(ASKED)
        data = contents(self.path)
        store(self.path, data + b"\1\0\0")
        self.assertEqual(run_journal(self.path, EXPORT_ALL), (0, self.due([EXPORT_ALL]), cut_off(3, self.path)))
        self.assertEqual(contents(self.path), data)

    def test_each_front(self):
        """A front of its bytes has its first records; a byte that was changed in any but the last one is damage."""
        self.make(ASKED)
        data = contents(self.path)
        records = self.records()
        for size in range(header_size(), len(data), 61):
            store(self.path, data[:size])
            self.assertEqual(run_journal(self.path, b"")[0], 0)
            self.assertEqual(self.records(), records[: len(self.records())])
        changed = bytearray(data)
        changed[header_size() + 30] ^= 1
        store(self.path, bytes(changed))
        self.ends(run_journal(self.path, ASKED[0]), 3, "Journal at 1", damaged(0))

    def test_a_reply_that_was_changed(self):
        """The reply of a bare piece, and that of a whole request behind it, as no service gives it."""
        self.make(ASKED)
        records = self.records()
        for place, other in ((2, reply(TAKEN, 3, 2)), (3, reply(NODE, 4, 7))):
            changed = [it._replace(reply=other) if at == place else it for at, it in enumerate(records)]
            store(self.path, journal_bytes(read(contents(self.path)).header, changed))
            self.ends(run_journal(self.path, ASKED[0]), 3, f"Journal at {place + 1}", other_reply(place + 1))

    def test_a_bare_frame_of_a_client(self):
        """No client can send one: it is malformed, and does not go into the journal."""
        self.make(ASKED)
        data = contents(self.path)
        bare = self.records()[2].request
        self.assertEqual(HEADER.unpack_from(bare)[1], 68)
        _, _, client, number, _ = HEADER.unpack_from(bare)
        asked = frame(68, client, 99, bare[HEADER.size :])
        (found,) = cut(run_journal(self.path, asked)[1])
        self.assertEqual(found.kind, REFUSED)
        self.assertEqual(contents(self.path), data)


if __name__ == "__main__":
    unittest.main()
