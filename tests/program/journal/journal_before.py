"""Journals of version 3 (the folder before/): whole, with commands that came again, with a torn end, made smaller and gone on with,
begun, and damaged. A start answers by them and goes on in their own form; `compact` writes version 4. BITS is of how many bits one
is changed (1 for all)."""

import os
import shutil
import subprocess
import unittest
from concurrent.futures import ThreadPoolExecutor

import journal_file
from journal_file_before import header_size, read
from journal_session import OTHER_HEADER, REGISTRY, InJournal, commands, contents, cut_off, damaged, printed, run_journal, store
from lib.frames import EXPORT, create, export_body, file, finish, folder, frame, piece
from lib.program import PROGRAM
from model_frames import answer, service_of_the_sample

ASKED = [*commands(12), file(13, b"open", 8, 4, version=2), piece(14, 8, 1, b"wxyz", version=2)]
# so many that a command before them is no longer cached when it comes again
MANY = [folder(number, b"%d" % number) for number in range(100, 360)]
LATER = [folder(20, b"later"), piece(21, 8, 0, b"stuv", version=2)]
NEW = [finish(30, 8, version=2), folder(31, b"new")]
# what is written of them where file 8 lacks a piece
WRITTEN = NEW[1:]
EXPORT_ALL = frame(EXPORT, 1, 99, export_body())
# how many bytes of a further record the torn one has
TORN = 50
BEFORE = os.path.join(os.path.dirname(os.path.abspath(__file__)), "before")
BITS = int(os.environ.get("BITS", "61"))
LINE_3, LINE_4 = b"droid_desk journal 3\n", b"droid_desk journal 4\n"


class Before(InJournal):
    def take(self, name):
        shutil.copy(os.path.join(BEFORE, f"{name}.journal"), self.path)
        self.data = contents(self.path)
        self.assertTrue(self.data.startswith(LINE_3))

    def compact(self):
        done = subprocess.run([PROGRAM, "compact", *REGISTRY, "--quiet", self.path], capture_output=True)
        self.assertEqual(done.returncode, 0, done.stderr)
        self.assertTrue(contents(self.path).startswith(LINE_4), contents(self.path)[:20])
        found = journal_file.read(contents(self.path))
        self.assertEqual((found.ahead, found.damaged, found.end), (True, False, len(contents(self.path))))
        return found

    def goes_on(self, asked, new=NEW, written=WRITTEN):
        """What was accepted is there, and the service goes on; so it does when the journal was made smaller then, and again."""
        model = service_of_the_sample()
        answer(model, b"".join(asked))
        for sent in ([EXPORT_ALL], [*asked, *new, EXPORT_ALL]):
            self.assertEqual(run_journal(self.path, b"".join(sent)), (0, answer(model, b"".join(sent))[0], b""))
            self.assertTrue(contents(self.path).startswith(self.data))
        self.has_gone_on(written)
        for number in (40, 41):
            self.compact()
            sent = [*asked, *new, folder(number, b"%d" % number), EXPORT_ALL]
            self.assertEqual(run_journal(self.path, b"".join(sent)), (0, answer(model, b"".join(sent))[0], b""))

    def has_gone_on(self, new):
        """Behind what was there it has records of version 3 of the new commands, and nothing else: nothing that came again, no mark."""
        before, found = read(self.data), read(contents(self.path))
        self.assertEqual(found.records[: len(before.records)], before.records)
        self.assertEqual([it.request for it in found.records[len(before.records) :]], new)
        self.assertEqual(found.end, len(contents(self.path)))

    def test_whole(self):
        self.take("whole")
        self.goes_on(ASKED)

    def test_repeated(self):
        self.take("repeated")
        self.assertEqual(len(read(self.data).records), 2 * len(ASKED) + len(MANY))
        self.goes_on([*ASKED, *MANY])

    def test_repeated_and_made_smaller(self):
        """Each command has one record then."""
        self.take("repeated")
        self.assertEqual(len(self.compact().records), len(ASKED) + len(MANY))

    def test_small(self):
        self.take("small")
        self.goes_on([*ASKED, *LATER], written=NEW)

    def test_torn(self):
        self.take("torn")
        self.assertEqual(run_journal(self.path), (0, b"", cut_off(TORN, self.path)))
        self.assertEqual(contents(self.path), self.data[:-TORN])
        self.data = self.data[:-TORN]
        self.goes_on(ASKED)

    def test_torn_and_made_smaller(self):
        self.take("torn")
        self.compact()
        self.assertEqual(contents(self.path + ".torn"), self.data[-TORN:])
        model = service_of_the_sample()
        due = answer(model, b"".join([*ASKED, EXPORT_ALL]))[0]
        self.assertEqual(run_journal(self.path, b"".join([*ASKED, EXPORT_ALL])), (0, due, b""))

    def test_begun(self):
        """Its random bytes stay, as far as they are there."""
        self.take("begun")
        new = [create(1), folder(2, b"new")]
        self.goes_on([], new, written=new)

    def test_damaged(self):
        self.take("damaged")
        self.ends(run_journal(self.path, EXPORT_ALL), 3, "Journal at 1", damaged(0))
        done = subprocess.run([PROGRAM, "compact", *REGISTRY, self.path], capture_output=True)
        self.ends((done.returncode, done.stdout, done.stderr), 3, "Journal at 1", damaged(0))
        self.assertEqual(contents(self.path), self.data)

    def test_each_bit(self):
        """What is found is what version 3 always found: by its records damage, or a torn end; and another header."""
        self.take("whole")
        self.all_start(flipped(self.data, bit) for bit in range(0, 8 * len(self.data), BITS))

    def test_each_front(self):
        self.take("whole")
        self.all_start(self.data[:size] for size in range(header_size(), len(self.data) + 1, 7))

    def all_start(self, changed):
        with ThreadPoolExecutor(len(os.sched_getaffinity(0))) as pool:
            wrong = [it for it in pool.map(self.is_wrong, enumerate(changed)) if it]
        self.assertEqual(wrong, [])

    def is_wrong(self, numbered):
        """What is wrong with a start over these bytes, by the reader of version 3."""
        place, data = numbered
        path = f"{self.path}{place}"
        store(path, data)
        status, written, said = run_journal(path, EXPORT_ALL)
        left = contents(path)
        for name in (path, path + ".torn"):
            if os.path.exists(name):
                os.remove(name)
        due = self.due(path, data)
        return None if (status, written, said, left) == due else (place, status, said, due[0], due[2])

    def due(self, path, data):
        if data[: header_size() - 16] != self.data[: header_size() - 16]:
            return 3, b"", printed("Journal at 0", OTHER_HEADER, path), data
        found = read(data)
        count = len(found.records)
        if found.damaged:
            return 3, b"", printed(f"Journal at {count + 1}", damaged(count), path), data
        model = service_of_the_sample()
        answer(model, b"".join(it.request for it in found.records))
        return 0, answer(model, EXPORT_ALL)[0], cut_off(len(data) - found.end, path), data[: found.end]

    def test_a_new_one(self):
        self.assertEqual(run_journal(self.path)[0], 0)
        self.assertTrue(contents(self.path).startswith(LINE_4))


def flipped(data, bit):
    at = bit // 8
    return data[:at] + bytes([data[at] ^ 1 << bit % 8]) + data[at + 1 :]


if __name__ == "__main__":
    unittest.main()
