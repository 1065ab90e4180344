"""The stored sessions (../cases) with a journal: behind each accepted command the service crashes, with rubbish behind what is on the
disk or with a journal that was made smaller, is started again, and its client repeats that command and goes on. It gets the replies
of the session that never crashed, the exports too."""

import os
import random
import subprocess
import unittest
from concurrent.futures import ThreadPoolExecutor

from cases_as_frames import cases_of_scripts, frames_of
from journal_file import md5, read, turn_mark
from journal_session import InJournal, contents, store
from lib.connections import SECONDS
from lib.frames import HEADER
from lib.program import PROGRAM
from smaller_file import smaller

SEED = 20_271_128


def whole_frames(stream):
    found, start = [], 0
    while start < len(stream):
        end = start + HEADER.size + HEADER.unpack_from(stream, start)[4]
        found.append(stream[start:end])
        start = end
    return found


def run(options, path, given):
    done = subprocess.run([PROGRAM, "run", *options, "--journal", path], input=given, capture_output=True, timeout=SECONDS)
    return done.returncode, done.stdout


class Session:
    """A stored session: its frames, their replies, and the journal of it."""

    def __init__(self, case, options, path):
        self.case, self.options, self.path = case, options, path
        sent, due = frames_of(case)
        self.sent, self.due = whole_frames(sent), whole_frames(due)
        self.found = run(options, path, sent)
        self.data = contents(path)
        self.read = read(self.data)
        self.records = self.read.records

    def places(self):
        """For each record the place of its frame in the session."""
        pairs, at = list(zip(self.sent, self.due)), 0
        for it in self.records:
            at = pairs.index((it.request, it.reply), at)
            yield at
            at += 1

    def end_of(self, count):
        """Where the first `count` records end, or all, where there are fewer."""
        return self.read.places[min(count, len(self.records))].at

    def turn_behind(self, count):
        """The bytes of the records behind the first `count`, up to the end of the turn."""
        last = count + 1
        while last < len(self.records) and not self.records[last].first:
            last += 1
        return self.data[self.end_of(count) : self.end_of(last)]


def left_by(session, count, chance):
    """What a crash behind `count` records may leave; or these records in a journal that was made smaller."""
    front, behind = session.data[: session.end_of(count)], session.turn_behind(count)
    if chance < 0.25:
        return smaller(session.read.header, session.records[:count])
    if chance < 0.35:
        # all of it was on the disk
        return front + turn_mark(md5(session.read.header), len(front))
    if chance < 0.5:
        # the first bytes of what was written last did not come to the disk, and those behind did
        return front + bytes(min(len(behind), 40)) + behind[40:]
    if chance < 0.8:
        # a part of the next record
        return front + behind[: 2 * (session.end_of(count + 1) - session.end_of(count)) // 3]
    return front


class Rows(InJournal):
    def crashed(self, session, number, count, place, chance):
        """What is wrong where it crashed behind `count` records, of which the last has this place in the session."""
        path = f"{session.path}-{number}"
        store(path, left_by(session, count, chance))
        found = run(session.options, path, b"".join(session.sent[place:]))
        for name in (path, path + ".torn"):
            if os.path.exists(name):
                os.remove(name)
        return None if found == (0, b"".join(session.due[place:])) else (session.case, count, chance, found[0])

    def test_each_session(self):
        chance = random.Random(SEED)
        sessions = [Session(case, options, f"{self.path}-{case}") for case, options in cases_of_scripts()]
        self.assertGreater(len(sessions), 40)
        tried = []
        for session in sessions:
            self.assertEqual(session.found, (0, b"".join(session.due)), session.case)
            for count, place in enumerate(session.places(), 1):
                tried.append((session, len(tried), count, place, chance.random()))
        self.assertGreater(len(tried), 400)
        with ThreadPoolExecutor(len(os.sched_getaffinity(0))) as pool:
            wrong = [it for it in pool.map(lambda one: self.crashed(*one), tried) if it]
        self.assertEqual(wrong, [])


if __name__ == "__main__":
    unittest.main()
