"""Runs `run` with a journal again and again, over a new file, over one with records and a torn end, and over one that was made
smaller, and refuses another of its allocations each time. The file then has what it had, and each accepted command whose reply was
written. And `compact`: the file is the old one or the smaller one."""

import os
import subprocess
import sys
import tempfile
import unittest
from concurrent.futures import ThreadPoolExecutor

from lib.frames import REFUSED, create, cut, file, finish, folder, piece
from lib.program import PROGRAM, SAMPLE, TOP, faults

sys.path += [os.path.join(TOP, "tests", "program", folder) for folder in ("journal", "model", "wire")]
from journal_compact import is_smaller_of  # noqa: E402
from journal_file import read  # noqa: E402
from model_frames import answer, service_of_the_sample  # noqa: E402
from smaller_file import smaller  # noqa: E402

# the status without memory: 3 and 6 before the journal is read, 4 while it is read and later, 0 where only a request was refused
STATUSES = {0, 3, 4, 6}
# with fewer allocations, the library did not count them
FEWEST = 20
EARLIER = [create(1), file(2, b"a.msg", 7, 7), piece(3, 1, 0, b"message")]
LATER = [finish(4, 1), folder(5, b"in"), folder(6, b"out")]
TORN = bytes(30)
NOTED = b"journal: 30 bytes behind the last whole record are now in "
# what may be printed by the status, where PATH is the journal's (a file that could not be opened or written is `fault: Journal`)
OF_JOURNAL = b"PATH: out of memory: close other programs, or allow this one more, and start again\n"
NO_MEMORY = b"out of memory: close other programs, or allow this one more, and try again\n"
SENTENCES = {
    3: {os.fsencode(SAMPLE) + b": " + NO_MEMORY},
    4: {OF_JOURNAL, NO_MEMORY},
    6: {NO_MEMORY, b"out of memory while the command line was read\n"},
}
# the body of a refusal for memory
MEMORY = bytes([18])


def due_to(requests):
    """The replies that the model gives to these requests, one after another."""
    return list(cut(answer(service_of_the_sample(), b"".join(requests))[0]))


def is_fault(status, said):
    """Whether this is printed where memory ended the command with this status."""
    return faults(said) == b"fault: Journal\n" or said in {b"fault: Memory\n" + it for it in SENTENCES[status]}


class Refused(unittest.TestCase):
    def setUp(self):
        folder_of_all = tempfile.TemporaryDirectory()
        self.addCleanup(folder_of_all.cleanup)
        self.path = os.path.join(folder_of_all.name, "desk.journal")

    def run_over(self, data, requests, variables):
        """Runs over a journal of these bytes, in a file of its own: the status, what was written, what was said, and the
        records and the torn end that are left."""
        name = f"{self.path}{variables.get('REFUSE', '')}"
        if data is not None:
            with open(name, "wb") as made:
                made.write(data)
        environment = {**os.environ, "LD_PRELOAD": os.environ["REFUSING"], **variables}
        words = [PROGRAM, "run", "--registry", SAMPLE, "--journal", name]
        done = subprocess.run(words, input=b"".join(requests), capture_output=True, timeout=60, env=environment)
        left = b""
        if os.path.exists(name):
            with open(name, "rb") as found:
                left = found.read()
            os.remove(name)
        if os.path.exists(name + ".torn"):
            os.remove(name + ".torn")
        return done.returncode, done.stdout, done.stderr.replace(os.fsencode(name), b"PATH"), left

    def is_right(self, before, requests, stored):
        """Whether an end is right, where records of these requests were there, which the file has as `stored`: nothing of them is
        gone, each accepted command that was answered is there, and nothing else. A command that ran out of memory has changed nothing for
        those behind it."""
        whole = dict(zip(stored, before))

        def check(status, written, said, left):
            said = b"".join(line for line in said.splitlines(True) if not line.startswith(NOTED))
            found = list(cut(written))
            answered = [(request, reply) for request, reply in zip(requests, found) if (reply.kind, reply.body) != (REFUSED, MEMORY)]
            accepted = [(request, reply) for request, reply in answered if reply.kind != REFUSED]
            records = read(left).records if left else []
            kept = [(whole.get(record.request, record.request), next(cut(record.reply))) for record in records]
            return (
                (said == b"" if status == 0 else status in STATUSES and is_fault(status, said))
                and [request for request, _ in kept[: len(before)]] == before[: len(kept)]
                and (not before or len(kept) >= len(before))
                and kept[len(before) :][: len(accepted)] == accepted
                and [reply for _, reply in kept] == due_to(request for request, _ in kept)
                and [reply for _, reply in answered] == due_to([*before, *(request for request, _ in answered)])[len(before) :]
                and (status != 0 or (len(found) == len(requests) and len(kept) == len(before) + len(accepted)))
            )

        return check

    def each_in_turn(self, data, before, requests, stored=()):
        with tempfile.NamedTemporaryFile("r") as file:
            self.run_over(data, requests, {"ALLOCATIONS": file.name})
            numbers = range(1, int(file.read()) + 1)
        self.assertGreaterEqual(len(numbers), FEWEST)
        with ThreadPoolExecutor(len(os.sched_getaffinity(0))) as pool:
            ended = list(pool.map(lambda number: self.run_over(data, requests, {"REFUSE": str(number)}), numbers))
        is_right = self.is_right(before, requests, stored)
        wrong = [f"allocation {number} of {len(numbers)}: {end[:3]}" for number, end in zip(numbers, ended) if not is_right(*end)]
        self.assertEqual(wrong, [], "\n".join(wrong))
        self.assertEqual({end[0] for end in ended}, STATUSES)
        self.assertTrue(any(end[2].endswith(b"fault: Memory\n" + OF_JOURNAL) for end in ended))


class JournalsRefused(Refused):
    def test_a_new_journal(self):
        self.each_in_turn(None, [], EARLIER)

    def test_records_and_a_torn_end(self):
        _, _, said, data = self.run_over(None, EARLIER, {})
        self.assertEqual((said, len(read(data).records)), (b"", 3))
        self.each_in_turn(data + TORN, EARLIER, LATER)


class SmallerJournalsRefused(Refused):
    """A journal with a finished file, whose bytes it lacks once it is made smaller."""

    ASKED = [*EARLIER, finish(4, 1)]

    def setUp(self):
        super().setUp()
        _, _, said, self.data = self.run_over(None, self.ASKED, {})
        self.assertEqual(said, b"")
        found = read(self.data)
        self.new = smaller(found.header, found.records)

    def test_a_start(self):
        stored = [record.request for record in read(self.new).records]
        self.each_in_turn(self.new, self.ASKED, [folder(5, b"in"), folder(6, b"out")], stored)

    def test_compact(self):
        """Nothing but the file is left, and `compact` ends well where it is the smaller one."""
        with tempfile.NamedTemporaryFile("r") as counted:
            status, said, left, files = self.compacted({"ALLOCATIONS": counted.name})
            self.assertEqual((status, said, files), (0, b"", 1))
            self.assertTrue(is_smaller_of(left, self.data))
            numbers = range(1, int(counted.read()) + 1)
        self.assertGreaterEqual(len(numbers), FEWEST)
        with ThreadPoolExecutor(len(os.sched_getaffinity(0))) as pool:
            ended = list(pool.map(lambda number: self.compacted({"REFUSE": str(number)}), numbers))
        for number, (status, said, left, files) in zip(numbers, ended):
            self.assertIn(status, STATUSES, number)
            self.assertTrue(said == b"" if status == 0 else is_fault(status, said), (number, said))
            self.assertTrue(is_smaller_of(left, self.data) if status == 0 else left == self.data, number)
            self.assertEqual(files, 1, number)
        self.assertIn(4, {end[0] for end in ended})

    def compacted(self, variables):
        """Makes a journal of these bytes smaller: the status, what was said, what is left of it, and how many files."""
        with tempfile.TemporaryDirectory() as place:
            path = os.path.join(place, "desk.journal")
            with open(path, "wb") as made:
                made.write(self.data)
            environment = {**os.environ, "LD_PRELOAD": os.environ["REFUSING"], **variables}
            words = [PROGRAM, "compact", "--registry", SAMPLE, "--quiet", path]
            done = subprocess.run(words, capture_output=True, timeout=60, env=environment)
            with open(path, "rb") as found:
                return done.returncode, done.stderr.replace(os.fsencode(path), b"PATH"), found.read(), len(os.listdir(place))


if __name__ == "__main__":
    unittest.main()
