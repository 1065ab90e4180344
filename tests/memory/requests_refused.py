"""Refuses each allocation within a request in turn, in a stream that sends each request twice in a row: after a
session, and as the first requests of a service. The request is answered Refused 18 and changes nothing, so that it
and all later requests get their usual replies when it comes again. One refused allocation has to give one answer 18:
a program that repeats a refused commit would give none.

The first allocation of a request is its body, and the last one the frame in which its reply waits to be written. If one of these
is refused, the stream ends behind the replies before. Each request begins with a turn of its own, so that it has both.

These allocations may be refused without a trace. The last ones before the frame: the cache of a kept reply, after the commit
(droid_core): without it the next repeat reads the reply from the database. The database allocates nothing once a commit stands. In
the first request to a service, within its first query: the list in which the database keeps its working rows for the next query,
which otherwise allocates them again. And the first one of a repeat after its body, a copy of the cached reply: without it the
database is read.
"""

import os
import unittest
from concurrent.futures import ThreadPoolExecutor
from typing import NamedTuple

from allocations import FILLED, MEMORY, counted, filled, run_over
from lib.frames import ABANDONED, FINISHED, HEADER, LIMITS, MADE, NODE, PROGRESS, TAKEN
from lib.frames import abandon, create, export, file, finish, folder, frame, in_version, part, piece, refusal, reply
from lib.frames import status
from lib.rows import LETTERS_ROW, folder_row
from lib.session import ALL, ALL_TEXT, FOUND, LETTERS, replies_of, requests_of, rows_in_version
from out_of_order import HASHES, out_of_order

# the body of a cached reply, which Abandoned does not have, and its place
BODY = 1
PLACE = 1
KEPT_FOR_THE_NEXT = 1

TEXT = ALL_TEXT + folder_row(8, b"f") + LETTERS_ROW.replace(b'"2","1"', b'"9","8"').replace(b"/in/", b"/f/")

# requests after the session, their replies, and how many allocations may be refused without a trace: of a new one before its
# last, of a repeat after its first
REQUESTS = [
    (create(40), reply(MADE, 40, 6), BODY + PLACE, BODY),
    (folder(41, b"f"), reply(NODE, 41, 8), BODY + PLACE, BODY),
    (file(42, b"a.abc", 26, 16, parent=8), reply(NODE, 42, 9), BODY + PLACE, BODY),
    (piece(43, 9, 1, LETTERS[16:]), reply(TAKEN, 43, 1), BODY + PLACE, BODY),
    (piece(44, 9, 0, LETTERS[:16]), reply(TAKEN, 44, 2), BODY + PLACE, BODY),
    (status(45, 9), reply(PROGRESS, 45, 2, 2), 0, 0),
    (finish(46, 9), frame(FINISHED, 1, 46, FOUND), BODY + PLACE, BODY),
    (abandon(47, 4), reply(ABANDONED, 47), PLACE, 0),
    (status(48, 9), reply(PROGRESS, 48, 2, 2), 0, 0),
    (folder(49, b"f"), refusal(49, 9), 0, 0),
    (export(50), part(50, 25, TEXT), 0, 0),
]

# the same numbers for a command and for its repeat, as the first requests of a service
OF_A_COMMAND = BODY + PLACE, BODY


class Step(NamedTuple):
    """A request of the stream with its reply, the first and the last of its own allocations, and how many of those
    after the first and before the last one it can do without."""

    request: bytes
    answer: bytes
    first: int
    last: int
    copied: int
    spared: int

    def version(self):
        return HEADER.unpack_from(self.request)[0]

    def number(self):
        return HEADER.unpack_from(self.request)[3]

    def place_of(self, allocation):
        """Describes an allocation in a failure."""
        _, kind, _, number, _ = HEADER.unpack_from(self.request)
        return f"request {number} of kind {kind}, allocation {allocation - self.first + 1} of {self.last - self.first + 1}"


class Stream:
    """The steps of these requests, each sent twice, after these rows."""

    def __init__(self, before, requests):
        self.bytes = requests_of(before)
        self.replies = replies_of(before)
        self.steps = []
        for request, answer, spared, copied in requests:
            for behind, ahead in ((0, spared), (copied, 0)):
                front = filled(self.bytes)
                self.bytes = front + request
                first, last = counted(front)[1].asked + 1, counted(self.bytes)[1].asked
                self.steps.append(Step(request, answer, first, last, behind, ahead))

    def answered(self, answers):
        """The replies to all, where the steps have these answers."""
        return self.replies + b"".join(FILLED + answer for answer in answers)

    def whole(self):
        return 0, self.answered(step.answer for step in self.steps), ""

    def due(self, place, allocation):
        """Returns how `run` has to end where this allocation of the step at this place is refused."""
        step = self.steps[place]
        answers = [step.answer for step in self.steps]
        if allocation in (step.first, step.last):
            return 4, self.answered(answers[:place]) + FILLED, "fault: Memory\n"
        if step.first + step.copied < allocation < step.last - step.spared:
            answers[place] = in_version(step.version(), refusal(step.number(), MEMORY))
        return 0, self.answered(answers), ""


class RefusedOnce(unittest.TestCase):
    def each_in_turn(self, stream, spared=0):
        """Refuses each allocation. This many of the first request, besides the last ones, leave no trace."""
        for step in stream.steps:
            self.assertLess(step.first + step.copied + step.spared, step.last, "its allocations were not counted")
        whole = stream.whole()
        self.assertEqual(run_over(stream.bytes), whole)
        rows = [(place, at) for place, step in enumerate(stream.steps) for at in range(step.first, step.last + 1)]
        with ThreadPoolExecutor(os.cpu_count()) as pool:
            ends = list(pool.map(lambda row: run_over(stream.bytes, REFUSE=row[1]), rows))
        others = [(row, ended) for row, ended in zip(rows, ends) if ended != stream.due(*row)]
        unseen = [row for row, ended in others if row[0] == 0 and ended == whole]
        wrong = [row for row, _ in others if spared == 0 or row not in unseen]
        self.assertEqual(wrong, [], "\n".join(stream.steps[place].place_of(at) for place, at in wrong))
        self.assertEqual(len(unseen), spared)

    def test_after_a_session(self):
        for version in LIMITS:
            with self.subTest(version=version):
                self.each_in_turn(Stream(rows_in_version(version, ALL), rows_in_version(version, REQUESTS)))

    def test_in_an_empty_service(self):
        for version, of in HASHES:
            *commands, exported = out_of_order(version, of)
            requests = [(*row, *OF_A_COMMAND) for row in commands] + [(*exported, 0, 0)]
            with self.subTest(version=version, of=of):
                self.each_in_turn(Stream([], requests), KEPT_FOR_THE_NEXT)


if __name__ == "__main__":
    unittest.main()
