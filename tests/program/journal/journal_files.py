"""`run` and `serve` with a journal: what a start finds, and what is refused."""

import os
import random
import socket
import unittest

from journal_file import CHECK, LIMITS, LINE, MARK, RANDOM, header_in, header_size, header_text, journal_bytes, left_by_a_start, md5, read
from journal_session import IN_USE, NO_FILE, OTHER_HEADER, REGISTRY, InJournal, contents, cut_off, damaged, other_reply, run_journal
from journal_session import sample_bytes, serving, store, unopened
from lib.connections import connect, free_port, read_exactly
from lib.frames import ADD_FOLDER, EXPORT, HEADER, NODE, create, export_body, file, finish, folder, frame, piece, reply, status
from lib.program import EVERYDAY, Serve, faults, preloaded, run_plainly
from model_frames import answer, service_of_the_sample

ASKED = [create(1), folder(2, b"in"), file(3, b"a.msg", 7, 7), piece(4, 2, 0, b"message"), finish(5, 2), folder(6, b"out", version=2)]
EXPORT_ALL = frame(EXPORT, 1, 7, export_body())
REFUSED_ONES = [folder(8, b"in"), folder(2, b"other"), status(9, 1), status(10, 2), frame(ADD_FOLDER, 1, 11, b"\0")]


def by_model(requests):
    """The replies of the model to these requests."""
    replies, fault = answer(service_of_the_sample(), b"".join(requests))
    assert fault is None
    return replies


class Starts(InJournal):
    def test_a_new_file(self):
        """It is made, with a header of this registry and no record. A further start leaves it as it is."""
        for _ in range(2):
            self.assertEqual(run_journal(self.path), (0, b"", b""))
            data = contents(self.path)
            self.assertTrue(data.startswith(header_text(sample_bytes())))
            self.assertEqual(data, journal_bytes(header_in(data), []))
            self.assertEqual(read(data).records, [])
            self.assertEqual(os.listdir(self.folder), ["desk.journal"])

    def test_headers_end_differently(self):
        ends = set()
        for place in range(20):
            path = f"{self.path}{place}"
            self.assertEqual(run_journal(path)[0], 0)
            ends.add(header_in(contents(path))[-CHECK - RANDOM : -CHECK])
        self.assertEqual(len(ends), 20)

    def test_an_empty_file_and_a_begun_header(self):
        self.assertEqual(run_journal(self.path), (0, b"", b""))
        whole = contents(self.path)
        for size in range(header_size() + 1):
            store(self.path, whole[:size])
            self.assertEqual(run_journal(self.path, ASKED[0]), (0, by_model(ASKED[:1]), b""))
            data = contents(self.path)
            self.assertEqual((data[:size], len(read(data).records)), (whole[:size], 1), size)

    def test_a_begun_turn(self):
        """Of the beginning of the next turn a part came to the disk: that is cut off, and written anew."""
        self.assertEqual(run_journal(self.path, b"".join(ASKED)), (0, by_model(ASKED), b""))
        whole = contents(self.path)
        for count in range(MARK + 1):
            store(self.path, whole[: len(whole) - MARK + count])
            self.assertEqual(run_journal(self.path), (0, b"", cut_off(count % MARK, self.path)))
            self.assertEqual(contents(self.path), whole)

    def test_records(self):
        """Each accepted command has one record with its reply. Refusals, questions and repeats have none."""
        asked = ASKED + [EXPORT_ALL] + REFUSED_ONES + ASKED
        self.assertEqual(run_journal(self.path, b"".join(asked)), (0, by_model(asked), b""))
        found = read(contents(self.path))
        self.assertEqual([record.request for record in found.records], ASKED)
        self.assertEqual(b"".join(record.reply for record in found.records), by_model(ASKED))
        self.assertEqual((found.ahead, found.end, found.damaged), (True, len(contents(self.path)), False))

    def test_one_after_the_other(self):
        """Each request by a process of its own: their replies are those of one service."""
        asked = ASKED + REFUSED_ONES + [EXPORT_ALL] + ASKED + [EXPORT_ALL]
        got = [run_journal(self.path, request) for request in asked]
        self.assertEqual([(code, said) for code, _, said in got], [(0, b"")] * len(asked))
        self.assertEqual(b"".join(written for _, written, _ in got), by_model(asked))

    def test_run_and_serve_alike(self):
        """What one of them wrote the other one reads; `serve` one by one and many at once."""
        self.assertEqual(run_journal(self.path, b"".join(ASKED[:2]))[1], by_model(ASKED[:2]))
        for place, more in enumerate((["--at-once", "3"], [])):
            request = ASKED[2 + place]
            due = by_model(ASKED[: 3 + place])[len(by_model(ASKED[: 2 + place])) :]
            with Serve(1, [*more, *REGISTRY, "--journal", self.path]) as service, connect(service.port) as stream:
                stream.sendall(request)
                stream.shutdown(socket.SHUT_WR)
                self.assertEqual(read_exactly(stream, len(due) + 1), due)
        self.assertEqual(run_journal(self.path, b"".join(ASKED) + EXPORT_ALL)[1], by_model(ASKED + [EXPORT_ALL]))

    def test_a_stream_that_breaks(self):
        """Whole frames are answered and kept."""
        due = by_model(ASKED[:2])
        for size in range(1, len(ASKED[2])):
            path = f"{self.path}{size}"
            code, written, said = run_journal(path, b"".join(ASKED[:2]) + ASKED[2][:size])
            self.assertEqual((code, written, faults(said)), (4, due, b"fault: Truncated\n"))
            self.assertEqual(len(read(contents(path)).records), 2)
        code, written, said = run_journal(self.path, ASKED[0] + b"\3" + bytes(17))
        self.assertEqual((code, written, faults(said)), (4, by_model(ASKED[:1]), b"fault: BadVersion\n"))

    def test_a_repeat_that_is_no_longer_cached(self):
        """The service caches 256 replies. A command that comes again has no further record, however many came since."""
        asked = [create(1)] + [folder(number, b"%d" % number) for number in range(2, 4)]
        asked += asked[:2] + [folder(number, b"%d" % number) for number in range(4, 258)] + asked[2:3]
        self.assertEqual(run_journal(self.path, b"".join(asked)), (0, by_model(asked), b""))
        self.assertEqual(len(read(contents(self.path)).records), 257)
        before = contents(self.path)
        self.assertEqual(run_journal(self.path, b"".join(asked)), (0, by_model(asked), b""))
        self.assertEqual(contents(self.path), before)

    def test_many_turns(self):
        """More frames than one turn has, in one stream."""
        asked = [create(1)] + [folder(number, b"%d" % number) for number in range(2, 1_000)]
        self.assertEqual(run_journal(self.path, b"".join(asked)), (0, by_model(asked), b""))
        records = read(contents(self.path)).records
        self.assertEqual([record.request for record in records], asked)
        self.assertTrue(records[0].first)
        self.assertEqual(run_journal(self.path, b"".join(asked)), (0, by_model(asked), b""))
        self.assertEqual(read(contents(self.path)).records, records)

    def test_many_in_a_turn(self):
        """Of frames that come at once, 64 are handled in a turn. The first record of each turn begins with a mark: all before it was
        on the disk."""
        for count in (0, 1, 63, 64, 65, 200):
            path = f"{self.path}{count}"
            asked = ([create(1)] + [folder(number, b"%d" % number, version=1 + number % 2) for number in range(2, 201)])[:count]
            self.assertEqual(run_journal(path, b"".join(asked)), (0, by_model(asked), b""))
            self.assertEqual([it.first for it in read(contents(path)).records], [place % 64 == 0 for place in range(count)])


class LongBodies(InJournal):
    """A body goes into the check value whole, however long it is."""

    # the sizes of bodies: around the blocks of MD5, which takes the kind in front of them, and far from them
    SIZES = (54, 55, 56, 62, 63, 64, 118, 119, 126, 127, 1_024, 65_548)

    def setUp(self):
        super().setUp()
        self.asked = [create(1)]
        for node, size in enumerate(self.SIZES, 1):
            # the numbers of profile, file and piece stand in front of the content
            content = random.Random(size).randbytes(size - 12)
            self.asked += [file(2 * node, b"%d" % size, size - 12, size - 12), piece(2 * node + 1, node, 0, content)]
        self.assertEqual(run_journal(self.path, b"".join(self.asked)), (0, by_model(self.asked), b""))
        self.whole = contents(self.path)

    def test_records(self):
        found = read(self.whole)
        self.assertEqual([record.request for record in found.records], self.asked)
        self.assertEqual((found.ahead, found.end, found.damaged), (True, len(self.whole), False))
        self.assertEqual(run_journal(self.path, self.asked[-1]), (0, by_model(self.asked)[-len(found.records[-1].reply) :], b""))

    def test_a_changed_byte(self):
        """One at both ends of each eighth of the last record's body. The mark behind it shows the damage. Without the mark a start
        takes it for one that was cut off."""
        body = self.whole.index(self.asked[-1], read(self.whole).places[-2].at) + HEADER.size
        part = -(-self.SIZES[-1] // 8)
        for place in range(8):
            for at in (body + place * part, min(body + (place + 1) * part, body + self.SIZES[-1]) - 1):
                changed = self.whole[:at] + bytes([self.whole[at] ^ 1]) + self.whole[at + 1 :]
                store(self.path, changed)
                count = len(self.asked) - 1
                self.ends(run_journal(self.path), 3, f"Journal at {count + 1}", damaged(count))
                self.assertEqual(contents(self.path), changed)
                torn = changed[:-MARK]
                kept = read(torn).end
                store(self.path, torn)
                self.assertEqual(run_journal(self.path), (0, b"", cut_off(len(torn) - kept, self.path)))
                self.assertEqual((contents(self.path), contents(self.path + ".torn")), (left_by_a_start(torn), torn[kept:]))
                os.remove(self.path + ".torn")


class Refused(InJournal):
    def refuses(self, status, fault, sentence):
        """The start ends so, and the file is as it was."""
        before = contents(self.path)
        self.ends(run_journal(self.path, ASKED[1]), status, fault, sentence)
        self.assertEqual(contents(self.path), before)

    def test_another_registry(self):
        self.assertEqual(run_journal(self.path, ASKED[0])[0], 0)
        before = contents(self.path)
        code, written, said = run_plainly(["run", "--registry", EVERYDAY, "--journal", self.path], ASKED[1])
        self.ends((code, written, said.encode("ascii")), 3, "Journal at 0", OTHER_HEADER)
        self.assertEqual(contents(self.path), before)

    def test_no_journal(self):
        for version in (b"2", b"3", b"5"):
            store(self.path, b"droid_desk journal " + version + b"\n64 profiles, 100000 nodes, 64 unfinished files\n" + bytes(32))
            self.refuses(3, "Journal at 0", OTHER_HEADER)
        for data in (b"x", sample_bytes(), bytes(200), header_text(sample_bytes())[:-1] + b"x"):
            store(self.path, data)
            self.refuses(3, "Journal at 0", OTHER_HEADER)

    def test_other_limits(self):
        """A header with a right check value, of a service with other limits, or with limits that this program does not know."""
        front = header_text(sample_bytes()) + bytes(RANDOM)
        for at in (len(LINE) + 3, len(LINE) + 7, len(LINE) + 11, len(LINE) + len(LIMITS), len(front) - RANDOM - 17):
            changed = front[:at] + bytes([front[at] + 1]) + front[at + 1 :]
            store(self.path, changed + md5(changed))
            self.refuses(3, "Journal at 0", OTHER_HEADER)
        store(self.path, front + md5(front))
        self.assertEqual(run_journal(self.path, ASKED[0]), (0, by_model(ASKED[:1]), b""))

    def test_two_processes(self):
        with serving(self.path, "--forever", killed=True):
            self.ends(run_journal(self.path, ASKED[0]), 4, "Journal in use", IN_USE)
            code, written, said = run_plainly(["serve", "--port", free_port(), *REGISTRY, "--journal", self.path])
            self.ends((code, written, said.encode("ascii")), 4, "Journal in use", IN_USE)
        self.assertEqual(run_journal(self.path, ASKED[0])[0], 0)

    def test_a_file_that_lost_its_name(self):
        """Another file takes the journal's name when the journal was opened and is not locked yet. Whatever were appended now
        nobody would find again."""
        other = self.path + ".new"
        self.assertEqual(run_journal(self.path, ASKED[0])[0], 0)
        self.assertEqual(run_journal(other, b"".join(ASKED[:2]))[0], 0)
        before = contents(other)
        env = preloaded("SYNCED", JOURNAL="/desk.journal", SYNCED=os.path.join(self.folder, "synced"), REPLACEMENT=other)
        self.ends(run_journal(self.path, ASKED[2], env=env), 4, "Journal in use", IN_USE)
        self.assertEqual(contents(self.path), before)
        self.assertEqual(run_journal(self.path, b"".join(ASKED[:3])), (0, by_model(ASKED[:3]), b""))

    def test_no_regular_file(self):
        link = os.path.join(self.folder, "link")
        os.symlink(self.path, link)
        pipe = os.path.join(self.folder, "pipe")
        os.mkfifo(pipe)
        for path in (self.folder, link, "/dev/null", "/dev/full", pipe):
            self.ends(run_journal(path, ASKED[0]), 4, "Journal", NO_FILE, path)
        self.assertFalse(os.path.exists(self.path))

    def test_a_folder_that_is_missing(self):
        for path in (os.path.join(self.folder, "none", "file"), os.path.join(self.path, "file"), ""):
            self.ends(run_journal(path, ASKED[0]), 4, "Journal", unopened("entity not found"), path)
        self.ends(run_journal("x" * 300, ASKED[0]), 4, "Journal", unopened("invalid filename"), "x" * 300)

    @unittest.skipIf(os.geteuid() == 0, "root may read each file")
    def test_unreadable(self):
        self.assertEqual(run_journal(self.path, ASKED[0])[0], 0)
        for mode in (0o000, 0o200, 0o400):
            os.chmod(self.path, mode)
            self.ends(run_journal(self.path, ASKED[1]), 4, "Journal", unopened("permission denied"))
        os.chmod(self.path, 0o600)
        self.assertEqual(len(read(contents(self.path)).records), 1)

    def test_a_reply_that_was_changed(self):
        """The check value is right, and the record names a reply that no service gives."""
        self.assertEqual(run_journal(self.path, b"".join(ASKED[:3]))[0], 0)
        found = read(contents(self.path))
        found.records[1] = found.records[1]._replace(reply=reply(NODE, 2, 9))
        store(self.path, journal_bytes(found.header, found.records))
        self.refuses(3, "Journal at 2", other_reply(2))


if __name__ == "__main__":
    unittest.main()
