"""The format of journals of version 4 by itself, without the program: each changed bit, and each truncation, of random journals;
turns that are torn in any way; and copies of a journal in its own pieces."""

import random
import unittest

from journal_file import MARK, Record, first_place, header_of, header_size, journal_bytes, md5, read, record_bytes, behind
from lib.frames import NODE, TAKEN, folder, piece, reply

SEED = 20_271_130


def some_records(chance, count, content=None):
    """Records, of which some begin a turn: the first does."""
    records = []
    for number in range(1, count + 1):
        if content is not None and number == count:
            request, answer = piece(number, 1, 0, content), reply(TAKEN, number, 1)
        else:
            request, answer = folder(number, chance.randbytes(chance.randrange(1, 9)).hex().encode()), reply(NODE, number, number)
        records.append(Record(number == 1 or chance.random() < 0.5, request, answer))
    return records


def flipped(data, at, bit):
    return data[:at] + bytes([data[at] ^ 1 << bit]) + data[at + 1 :]


class Format(unittest.TestCase):
    def setUp(self):
        self.chance = random.Random(SEED)

    def header(self):
        return header_of(b"a registry", self.chance.randbytes(16))

    def test_whole(self):
        for count in range(6):
            records = some_records(self.chance, count)
            for ahead in (False, True):
                data = journal_bytes(self.header(), records, ahead)
                found = read(data)
                self.assertEqual((found.records, found.end, found.damaged), (records, len(data), False))

    def test_each_bit(self):
        """The header is refused, damage is seen behind the whole records, or the change is in the mark at the end."""
        for count in (0, 1, 2, 5):
            records = some_records(self.chance, count)
            data = journal_bytes(self.header(), records)
            for at in range(len(data)):
                for bit in range(8):
                    found = read(flipped(data, at, bit))
                    if at < header_size():
                        self.assertIsNone(found)
                    elif at < len(data) - MARK:
                        self.assertTrue(found.damaged, (at, bit))
                        self.assertEqual(found.records, records[: len(found.records)])
                    else:
                        self.assertEqual((found.records, found.damaged), (records, False))

    def test_smaller(self):
        """No record of a journal that was made smaller begins a turn, and the mark at its end shows each change."""
        records = [it._replace(first=False) for it in some_records(self.chance, 5)]
        data = journal_bytes(self.header(), records)
        for at in range(header_size(), len(data) - MARK):
            self.assertTrue(read(flipped(data, at, at % 8)).damaged)

    def test_each_front(self):
        """What is cut off anywhere is no damage."""
        records = some_records(self.chance, 6)
        data = journal_bytes(self.header(), records)
        for size in range(header_size(), len(data)):
            found = read(data[:size])
            self.assertFalse(found.damaged)
            self.assertEqual(found.records, records[: len(found.records)])

    def test_a_torn_turn(self):
        """Whatever stands in the place of a turn, in part or whole, before or behind its mark: it is torn, and what is before is there."""
        for _ in range(300):
            header, records = self.header(), some_records(self.chance, 4)
            turn = [Record(place == 0, *it[1:]) for place, it in enumerate(some_records(self.chance, 3))]
            synced = journal_bytes(header, records, False)
            whole = journal_bytes(header, records + turn, False)
            torn = bytearray(whole[len(synced) :][: self.chance.randrange(0, len(whole) - len(synced) + 1)])
            for _ in range(self.chance.randrange(1, 4)):
                if torn:
                    at = self.chance.randrange(len(torn))
                    torn[at : at + 7] = self.chance.choice((bytes(7), self.chance.randbytes(7)))[: len(torn) - at]
            found = read(synced + torn)
            self.assertFalse(found.damaged)
            self.assertEqual(found.records[:4], records)

    def test_two_torn_turns(self):
        """Of two turns the second has begun: then what is before it was on the disk, and a change in the first is damage."""
        header, records = self.header(), some_records(self.chance, 4)
        one = [Record(True, folder(20, b"one"), reply(NODE, 20, 20))]
        two = [Record(True, folder(21, b"two"), reply(NODE, 21, 21))]
        before, first, both = (journal_bytes(header, its, False) for its in (records, records + one, records + one + two))
        for size in range(len(first) + MARK, len(both) + 1):
            for at in range(len(before), len(first)):
                self.assertTrue(read(flipped(both[:size], at, 0)).damaged)

    def test_a_copy_in_a_piece(self):
        """A piece has a copy of the journal, and its record is torn: no record and no mark of the copy counts."""
        header, records = self.header(), some_records(self.chance, 5)
        data = journal_bytes(header, records)
        start, place = md5(header), first_place(header)
        for it in records:
            place = behind(start, place, it)
        whole = record_bytes(start, place, Record(True, piece(30, 1, 0, data + data), reply(TAKEN, 30, 1)))
        for size in range(1, len(whole)):
            found = read(data[: -MARK] + whole[:size])
            self.assertEqual((found.records, found.damaged), (records, False))
        for at in range(MARK, len(whole), 5):
            found = read(data[: -MARK] + flipped(whole, at, 3))
            self.assertEqual((found.records, found.damaged), (records, False))


if __name__ == "__main__":
    unittest.main()
