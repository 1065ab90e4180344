"""Runs tests of the crates again and again, and refuses another of their allocations each time. Such a test asks again
where memory ran out, so it passes whichever allocation it was.

The tests are those that `rt ci` or `rt test` left in the crates' out/. As many run at once as there are processors. The
variable REFUSING has the path of the built refuse.c.
"""
import os
import subprocess
import tempfile
import unittest
from concurrent.futures import ThreadPoolExecutor

CRATES = os.path.join(os.path.dirname(os.path.abspath(__file__)), "..", "..", "crates")
# the tests of each crate that pass whichever allocation is refused
TESTS = {
    "droid_base_tests": [
        "formats::export::memory::each_growth_of_an_export",
        "formats::export::memory::each_growth_of_small_texts",
        "formats::export::row_texts::each_growth_of_rows",
        "formats::pronom::memory::each_growth_of_a_registry",
        "formats::pronom::memory::each_growth_of_a_search",
        "frames::client::allocations::short_and_again",
        "frames::memory::each_growth_of_a_reply",
        "frames::memory::each_growth_of_a_request",
        "frames::streams::frame_streams::growths_refused",
        "hashes::assembly::memory::each_growth_refused",
        "store::memory::each_growth_of_the_store",
    ],
    "droid_service_tests": [
        "requests::memory::in_one_run",
        "requests::memory::in_one_run_of_version_2",
        "requests::memory::one_after_the_other",
        "requests::memory::worked_row",
        "requests::script_memory::each_growth_of_a_script",
        "requests::script_memory::each_growth_of_version_2",
        "server::sending::memory::each_growth_of_a_sending",
        "server::serving::memory::each_growth_of_serving",
        "server::turns::memory::each_growth_of_turns",
    ],
    "droid_folder_tests": [
        "folders::lists::memory::each_growth_of_a_list",
        "folders::lists::memory::each_growth_of_a_report",
        "folders::lists::memory::each_growth_of_pairs",
        "folders::lists::texts::each_growth_of_a_text",
        "folders::manifests::memory::each_growth_of_a_list",
        "folders::manifests::memory::each_growth_of_a_manifest",
        "folders::manifests::memory::each_growth_of_a_text",
        "folders::profiles::memory::each_allocation",
        "folders::verify::memory::each_allocation",
    ],
}
# with fewer allocations, the library did not count them
FEWEST = 3


def run(crate, test, **variables):
    """Runs one test: its status and its output."""
    program = os.path.join(CRATES, crate, "out", f"{crate}_tests")
    environment = {**os.environ, "LD_PRELOAD": os.environ["REFUSING"], **variables}
    done = subprocess.run([program, test], stdout=subprocess.PIPE, stderr=subprocess.STDOUT, env=environment)
    return done.returncode, done.stdout.decode(errors="replace")


def count(crate, test):
    """Counts its allocations with memory to spare."""
    with tempfile.NamedTemporaryFile("r") as file:
        status, said = run(crate, test, ALLOCATIONS=file.name)
        if status:
            raise AssertionError(f"{test}, with memory to spare: {said}")
        return int(file.read())


class Growths(unittest.TestCase):
    def test_each_in_turn(self):
        rows = []
        for crate, tests in TESTS.items():
            for test in tests:
                asked = count(crate, test)
                self.assertGreaterEqual(asked, FEWEST, test)
                rows += [(crate, test, number) for number in range(1, asked + 1)]
        with ThreadPoolExecutor(len(os.sched_getaffinity(0))) as pool:
            ended = list(pool.map(lambda row: run(*row[:2], REFUSE=str(row[2])), rows))
        failed = [f"{test}, with allocation {number} refused: {said}" for (_, test, number), (status, said) in zip(rows, ended) if status]
        self.assertEqual(failed, [], "\n".join(failed))
        print(f"{len(rows)} allocations refused", flush=True)

    def test_an_assembly_allocates_only_when_it_is_made(self):
        """The test that makes every call allocates as often as the one that makes none."""
        with_calls, without = (count("droid_base_tests", f"hashes::assembly::memory::{test}") for test in ("each_growth_refused", "growths_without_calls"))
        self.assertEqual(with_calls, without)


if __name__ == "__main__":
    unittest.main()
