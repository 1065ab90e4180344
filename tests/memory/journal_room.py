"""Runs `run` with a journal again and again, and refuses another of its allocations each time. Once a reply was written, a refused
allocation costs at most the one request that met it: that gets Refused 18, all others their replies, and the status is 0. What was
answered is in the journal, and nothing else."""

import contextlib
import os
import subprocess
import sys
import tempfile
import unittest
from concurrent.futures import ThreadPoolExecutor

from lib.frames import EXPORT, REFUSED, abandon, cut, export_body, file, folder, frame, piece
from lib.program import PROGRAM, SAMPLE, TOP

sys.path += [os.path.join(TOP, "tests", "program", folder) for folder in ("journal", "model", "wire")]
from journal_session import commands  # noqa: E402
from model_frames import answer, service_of_the_sample  # noqa: E402

MEMORY = bytes([18])
# the one stream of `run` may end where there is no memory for its next frame, or for a reply that waits; the journal does not end
OF_STREAM = b"fault: Memory\nout of memory: close other programs, or allow this one more, and try again\n"
EXPORT_ALL = frame(EXPORT, 1, 99, export_body())
EARLIER = 20
# of how many allocations one is refused
STEP = int(os.environ.get("STEP", "3"))
# each command by a turn of its own, so that each is answered before the next
ASKED = [
    *commands(5),
    file(6, b"gone", 70_000, 70_000),
    piece(7, 2, 0, bytes(70_000)),
    file(8, b"left", 3, 3),
    abandon(9, 3),
    folder(10, b"in"),
]


class Room(unittest.TestCase):
    def run_over(self, variables, asked=ASKED):
        """Each request once a reply to the one before came: the status, the replies, what was said, and the answer to an
        export in a further start."""
        with tempfile.TemporaryDirectory() as place:
            path = os.path.join(place, "desk.journal")
            words = [PROGRAM, "run", "--registry", SAMPLE, "--journal", path]
            environment = {**os.environ, "LD_PRELOAD": os.environ["REFUSING"], **variables}
            pipe = subprocess.PIPE
            found = []
            run = subprocess.Popen(words, stdin=pipe, stdout=pipe, stderr=pipe, env=environment)
            try:
                for request in asked:
                    run.stdin.write(request)
                    run.stdin.flush()
                    header = run.stdout.read(18)
                    if len(header) < 18:
                        break
                    found.append(next(cut(header + run.stdout.read(int.from_bytes(header[14:], "big")))))
            except BrokenPipeError:
                pass
            with contextlib.suppress(BrokenPipeError):
                run.stdin.close()
            said = run.stderr.read()
            run.stdout.close()
            run.stderr.close()
            run.wait()
            again = subprocess.run(words, input=EXPORT_ALL, capture_output=True)
            return run.returncode, found, said, again.stdout

    def is_wrong(self, number):
        status, found, said, exported = self.run_over({"REFUSE": str(number)})
        if not found:
            return None if status in (3, 4, 6) else (number, status, said)
        taken = [(reply.kind, reply.body) != (REFUSED, MEMORY) for reply in found]
        asked = [request for request, was in zip(ASKED, taken) if was]
        model = service_of_the_sample()
        due = list(cut(answer(model, b"".join(asked))[0]))
        answered = taken.count(False) <= 1 and [reply for reply, was in zip(found, taken) if was] == due
        went_on = (status, said, len(found)) == (0, b"", len(ASKED)) and exported == answer(model, EXPORT_ALL)[0]
        right = answered and (went_on or (status, said) == (4, OF_STREAM))
        return None if right else (number, status, len(found), taken.count(False), said[:80])

    def count(self, asked):
        """The number of allocations for these requests."""
        with tempfile.NamedTemporaryFile("r") as file:
            status, found, said, _ = self.run_over({"ALLOCATIONS": file.name}, asked)
            self.assertEqual((status, len(found), said), (0, len(asked), b""))
            return int(file.read())

    def test_each_allocation(self):
        """Of those before the first request the last ones alone: journals_refused.py has the others."""
        numbers = range(self.count([]) - EARLIER, self.count(ASKED) + 1, STEP)
        with ThreadPoolExecutor(len(os.sched_getaffinity(0))) as pool:
            wrong = [it for it in pool.map(self.is_wrong, numbers) if it]
        self.assertEqual(wrong, [], f"{len(wrong)} of {len(numbers)}")


if __name__ == "__main__":
    unittest.main()
