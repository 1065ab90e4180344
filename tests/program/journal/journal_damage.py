"""A journal of twenty records of which one byte is changed, dropped or doubled, and one that is cut anywhere: a start finds
damage, or the first records, as a reader of its own says (journal_file.py); never another history. And journals of three
records, of which the last two are of one turn or not, with the mark of the next turn behind them or without it."""

import os
import unittest
from concurrent.futures import ThreadPoolExecutor

from journal_file import MARK, Record, header_in, header_of, header_size, header_text, journal_bytes, left_by_a_start, md5, read
from journal_session import OTHER_HEADER, InJournal, commands, contents, cut_off, damaged, printed, run_journal, sample_bytes, serving, store
from lib.connections import connect, read_exactly
from lib.frames import EXPORT, export_body, file, frame
from model_frames import answer, service_of_the_sample

STEP = int(os.environ.get("STEP", "9"))
ASKED = commands(20)
EXPORT_ALL = frame(EXPORT, 1, 21, export_body())


class Starts(InJournal):
    """Tests of many starts. Each has a file's bytes, how many records a start finds in them, and where these end, with the mark behind
    them, if it is there. There is no end where damage is reported, and no number of records where the header is another one."""

    def setUp(self):
        super().setUp()
        self.exports = [export_behind(count) for count in range(len(ASKED) + 1)]

    def start(self, numbered):
        """Starts with these bytes, and returns what is wrong with that."""
        place, (data, count, end) = numbered
        path = f"{self.path}{place}"
        store(path, data)
        status, written, said = run_journal(path, EXPORT_ALL)
        left = contents(path)
        torn = contents(path + ".torn") if os.path.exists(path + ".torn") else b""
        found = (status, written, said, left, torn)
        due = self.due(path, data, count, end)
        for name in (path, path + ".torn"):
            if os.path.exists(name):
                os.remove(name)
        return None if found == due else (place, found[:3], due[:3])

    def due(self, path, data, count, end):
        if count is None:
            return 3, b"", printed("Journal at 0", OTHER_HEADER, path), data, b""
        if end is None:
            return 3, b"", printed(f"Journal at {count + 1}", damaged(count), path), data, b""
        return 0, self.exports[count], cut_off(len(data) - end, path), left_by_a_start(data), data[end:]

    def all_start(self, rows):
        with ThreadPoolExecutor(len(os.sched_getaffinity(0))) as pool:
            wrong = [it for it in pool.map(self.start, enumerate(rows)) if it]
        self.assertEqual(wrong, [])


class Damage(Starts):
    def setUp(self):
        super().setUp()
        # each reply is waited for, so that each record has a turn of its own
        with serving(self.path, connections=1) as service, connect(service.port) as stream:
            for request, reply in zip(ASKED, replies_to(ASKED)):
                stream.sendall(request)
                self.assertEqual(read_exactly(stream, len(reply)), reply)
        self.whole = contents(self.path)
        self.assertEqual(len(read(self.whole).records), len(ASKED))

    def all_start(self, changed):
        """Starts with each of these bytes. The reader says what is found."""
        super().all_start((data, *found_in(data)) for data in changed)

    def places(self, first=0):
        return range(first, len(self.whole), STEP)

    def test_changed(self):
        self.all_start(self.whole[:at] + bytes([self.whole[at] ^ 1 << at % 8]) + self.whole[at + 1 :] for at in self.places())

    def test_dropped(self):
        self.all_start(self.whole[:at] + self.whole[at + 1 :] for at in self.places(1))

    def test_doubled(self):
        self.all_start(self.whole[: at + 1] + self.whole[at:] for at in self.places(2))

    def test_cut(self):
        """(Where less than the header is left, the file is made whole: journal_files.py.)"""
        self.all_start(self.whole[:size] for size in range(header_size(), len(self.whole) + 1, STEP))

    def test_swapped_records(self):
        """Two records in the other order, one twice, one that is missing."""
        ends = [place.at for place in read(self.whole).places]
        parts = [self.whole[start:end] for start, end in zip(ends, ends[1:])]
        head = header_in(self.whole)
        changed = []
        for at in range(len(parts) - 1):
            changed.append(head + b"".join(parts[:at] + [parts[at + 1], parts[at]] + parts[at + 2 :]))
            changed.append(head + b"".join(parts[: at + 1] + parts[at:]))
            changed.append(head + b"".join(parts[:at] + parts[at + 1 :]))
        self.all_start(changed)


class Turns(Starts):
    """A journal of three records. A changed record is a torn end, unless a later mark shows that it had been on the disk."""

    def all_start(self, rows):
        """Starts with each of these bytes. The reader agrees with what has to be found."""
        for data, *found in rows:
            self.assertEqual(found_in(data), tuple(found))
        super().all_start(rows)

    def test_cut(self):
        """At each byte: the records are there that are whole in what is left, and the mark behind them, if that is."""
        whole, ends = journal_of(True, True, False)
        rows = []
        for size in range(ends[0], len(whole) + 1):
            count = sum(end <= size for end in ends[1:])
            # (the third record begins no turn)
            has_mark = count != 2 and size >= ends[count] + MARK
            rows.append((whole[:size], count, ends[count] + (MARK if has_mark else 0)))
        self.all_start(rows)

    def test_a_flipped_bit(self):
        """Of each byte. In a record a later mark shows that it had been on the disk. In the last mark it is a torn end."""
        whole, ends = journal_of(True, True, False)
        rows = [(0, None)] * (ends[1] - ends[0]) + [(1, None)] * (ends[2] - ends[1]) + [(2, None)] * (ends[3] - ends[2])
        rows += [(3, ends[3])] * MARK
        self.all_start([(flipped(whole, at), *found) for at, found in enumerate(rows, ends[0])])

    def test_a_flipped_bit_of_the_last_turn(self):
        """The same without the last mark. The last turn, of two records, is a torn end, and not more than that: its own mark shows
        damage before it, and stays where it is whole."""
        whole, ends = journal_of(True, True, False)
        rows = [(0, None)] * (ends[1] - ends[0]) + [(1, ends[1])] * MARK
        rows += [(1, ends[1] + MARK)] * (ends[2] - ends[1] - MARK) + [(2, ends[2])] * (ends[3] - ends[2])
        self.all_start([(flipped(whole[:-MARK], at), *found) for at, found in enumerate(rows, ends[0])])

    def test_a_flipped_bit_of_the_header(self):
        whole, ends = journal_of(True, True, True)
        self.all_start([(flipped(whole, at), None, None) for at in range(ends[0])])

    def test_two_torn_turns(self):
        """Of two turns that are lost, the second had begun: what is there of it shows that the first was on the disk."""
        whole, ends = journal_of(True, True, True)
        lost = bytes(ends[2] - ends[1])
        rows = []
        for size in (ends[2], ends[2] + MARK - 1, ends[2] + MARK, ends[3], len(whole)):
            shown = size >= ends[2] + MARK
            rows.append(((whole[: ends[1]] + lost + whole[ends[2] :])[:size], 1, None if shown else ends[1]))
        self.all_start(rows)

    def test_a_mark_elsewhere(self):
        """A mark counts at its own offset alone."""
        whole, ends = journal_of(True, True, True)
        for at in (ends[1], ends[2], ends[3]):
            mark = whole[at : at + MARK]
            torn = whole[: ends[3]] + bytes(9)
            self.all_start([(torn + mark + bytes(count), 3, ends[3]) for count in (0, 50)])

    def test_zeros(self):
        """Behind the records they are no record, however many."""
        whole, ends = journal_of(True, False)
        for data in (whole, whole[:-MARK]):
            self.all_start([(data + bytes(count), 2, len(data)) for count in (1, 24, 25, 300)])


def journal_of(*begun):
    """A journal of as many records, each of which begins a turn or goes on with one, with a mark behind them: its bytes, and where its
    header and each record end."""
    records = [Record(*row) for row in zip(begun, ASKED, replies_to(ASKED))]
    header = header_of(sample_bytes(), md5(b"random"))
    fronts = [journal_bytes(header, records[:count], False) for count in range(len(records) + 1)]
    return journal_bytes(header, records), [len(front) for front in fronts]


def flipped(data, at):
    return data[:at] + bytes([data[at] ^ 16]) + data[at + 1 :]


def found_in(data):
    """What the reader finds in a file: how many records, and where they end. None: there is no such end, since that is damage; or
    neither, since the header is another one."""
    found = read(data) if data.startswith(header_text(sample_bytes())) else None
    if found is None:
        return None, None
    return len(found.records), None if found.damaged else found.end


def replies_to(asked):
    """The model's reply to each request."""
    model = service_of_the_sample()
    return [answer(model, request)[0] for request in asked]


def export_behind(count):
    """The model's export behind the first `count` requests."""
    return replies_to(ASKED[:count] + [EXPORT_ALL])[-1]


if __name__ == "__main__":
    unittest.main()
