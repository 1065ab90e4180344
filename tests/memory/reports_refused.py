"""Makes the page of a profile's CSV again and again, and refuses another of the allocations of `report` each time. As many
run at once as there are processors."""
import os
import random
import re
import subprocess
import sys
import tempfile
import unittest
from concurrent.futures import ThreadPoolExecutor

from lib.program import PROGRAM, TOP

sys.path.insert(0, os.path.join(TOP, "tests", "program", "report"))
from sample_profiles import profile  # noqa: E402

# the statuses without memory: before the command began, and within it
BEFORE, WITHIN = (3, 6), 4
# with fewer allocations, the library did not count them
FEWEST = 200


def report(**variables):
    """Makes a page of a CSV of six files: the status, standard error, and the files that are there with what is in them.
    A page is without the moment when it was made."""
    with tempfile.TemporaryDirectory() as made:
        source = os.path.join(made, "profile.csv")
        with open(source, "w", encoding="utf-8") as file:
            file.write(profile(random.Random(3), 6))
        environment = {**os.environ, "LD_PRELOAD": os.environ["REFUSING"], **variables}
        done = subprocess.run([PROGRAM, "report", source, "--output", os.path.join(made, "page.html")], capture_output=True, timeout=60, env=environment)
        files = {}
        for name in os.listdir(made):
            with open(os.path.join(made, name), "rb") as file:
                files[name] = re.sub(rb" at [^ ]+ \(UTC\)", b"", file.read())
    return done.returncode, done.stdout + done.stderr, files


class Refused(unittest.TestCase):
    def test_report(self):
        """The page is complete, or there is no file but the CSV, and the fault is memory."""
        with tempfile.NamedTemporaryFile("r") as file:
            whole = report(ALLOCATIONS=file.name)
            numbers = range(1, int(file.read()) + 1)
        self.assertEqual((whole[0], whole[1], sorted(whole[2])), (0, b"", ["page.html", "profile.csv"]))
        self.assertGreaterEqual(len(numbers), FEWEST)
        with ThreadPoolExecutor(len(os.sched_getaffinity(0))) as pool:
            ended = list(pool.map(lambda number: report(REFUSE=str(number)), numbers))
        wrong = []
        for number, end in zip(numbers, ended):
            status, said, files = end
            refused = status in (*BEFORE, WITHIN) and said.startswith(b"fault: Memory\n") and list(files) == ["profile.csv"]
            if not refused and end != whole:
                wrong.append(f"allocation {number} of {len(numbers)}: {status} {said}")
        self.assertEqual(wrong, [], "\n".join(wrong))
        self.assertIn(WITHIN, {end[0] for end in ended})


if __name__ == "__main__":
    unittest.main()
