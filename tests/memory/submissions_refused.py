"""Submits a folder again and again, and refuses another allocation of `submit` each time; the service has memory.
Such a submission ends with status 0, its export and its page, or with `fault: Memory` and no file, or none but the whole
export. The same command with memory to spare resumes it, and writes the same files. So it is with --check, of a folder that was
submitted whole before. As many services run at once as there are processors."""
import os
import re
import tempfile
import unittest
from concurrent.futures import ThreadPoolExecutor

from lib.program import Serve, faults
from lib.submissions import WithTree, submit

# the most profiles of a service
PROFILES = 64
# the statuses without memory
STATUSES = (4, 6)


class Refused(WithTree):
    def submit(self, port, client, *words, **more):
        """Runs `submit`: its status, its standard error, and the files that it wrote, by name. The page is without the moment
        when it was made."""
        with tempfile.TemporaryDirectory(dir=self.work) as made:
            outputs = ["--export", os.path.join(made, b"export.csv"), "--report", os.path.join(made, b"page.html")]
            variables = {name: str(value) for name, value in more.items()}
            status, err = submit(self.top, port, client, *words, *outputs, env={**os.environ, **variables})
            files = {}
            for name in os.listdir(made):
                with open(os.path.join(made, name), "rb") as file:
                    files[name] = re.sub(rb" at [^ ]+ \(UTC\)", b"", file.read())
        return status, faults(err), files

    def count(self, port, *words):
        """Counts the allocations of a whole submission, and returns its files too."""
        with tempfile.NamedTemporaryFile("r") as counted:
            ended = self.submit(port, 1, *words, LD_PRELOAD=os.environ["REFUSING"], ALLOCATIONS=counted.name)
            self.assertEqual((ended[:2], sorted(ended[2])), ((0, b""), [b"export.csv", b"page.html"]))
            return int(counted.read()), ended[2]

    def test_each_in_turn(self):
        with Serve.lasting() as service:
            count, files = self.count(service.port)
        self.each(count, self.some_refused, files)

    def test_each_in_turn_of_a_check(self):
        with Serve.lasting() as service:
            _, files = self.count(service.port)
            count, checked = self.count(service.port, "--check")
        self.assertEqual(checked, files)
        self.each(count, self.some_refused_of_a_check, files)

    def each(self, count, some_refused, files):
        """Has each of these allocations refused, some of them with one service."""
        self.assertGreater(count, 100)
        numbers = range(1, count + 1)
        with ThreadPoolExecutor(len(os.sched_getaffinity(0))) as pool:
            ended = pool.map(lambda at: some_refused(numbers[at : at + PROFILES], files), range(0, count, PROFILES))
            self.assertEqual({status for statuses in ended for status in statuses}, {0, *STATUSES})

    def some_refused(self, numbers, files):
        """Submits with each of these allocations refused, each time as another client, and then again with memory to
        spare. Returns the statuses without it."""
        with Serve.lasting() as service:
            statuses = []
            for number in numbers:
                statuses.append(self.refused(service.port, number, number, files))
                self.assertEqual(self.submit(service.port, number), (0, b"", files), number)
            return statuses

    def some_refused_of_a_check(self, numbers, files):
        """Submits, and then again with --check and each of these allocations refused. Returns these statuses."""
        with Serve.lasting() as service:
            self.assertEqual(self.submit(service.port, 1), (0, b"", files))
            statuses = [self.refused(service.port, 1, number, files, "--check") for number in numbers]
            self.assertEqual(self.submit(service.port, 1, "--check"), (0, b"", files))
            return statuses

    def refused(self, port, client, number, files, *words):
        """Submits with this allocation refused, and returns the status."""
        status, said, made = self.submit(port, client, *words, LD_PRELOAD=os.environ["REFUSING"], REFUSE=number)
        if status in STATUSES:
            alone = {b"export.csv": files[b"export.csv"]}
            self.assertEqual((said, made in [{}, alone]), (b"fault: Memory\n", True), number)
        else:
            self.assertEqual((status, said, made), (0, b"", files), number)
        return status


if __name__ == "__main__":
    unittest.main()
