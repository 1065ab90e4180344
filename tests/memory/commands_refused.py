"""Runs `script` over its stored script, in both versions, `profile` and `verify` of a folder, and `registry` again and again, and
refuses another of their allocations each time. As many run at once as there are processors."""
import hashlib
import os
import re
import subprocess
import tempfile
import unittest
from concurrent.futures import ThreadPoolExecutor

from lib.program import PROGRAM, SAMPLE, TOP, faults
from lib.trees import InFolder

STORED = os.path.join(TOP, "crates", "droid_desk", "stdin")
SIGNATURES = os.path.join(TOP, "tests", "program", "signatures", "sample.xml")
FAULT = b"fault: Memory\n"
# the status without memory: 3 and 6 before the command began, 4 within it, 0 where only a request was refused
STATUSES = {0, 3, 4, 6}
# with fewer allocations, the library did not count them
FEWEST = 20

# the replies to the stored script's four requests, and those where one of the four is refused for memory
REPLIES = b"made 1\nnode 1\nnode 1\nrefused 2\n"
SHORT = [
    b"refused 18\nrefused 3\nrefused 3\nrefused 3\n",
    b"made 1\nrefused 18\nnode 1\nrefused 2\n",
    b"made 1\nnode 1\nrefused 18\nrefused 2\n",
    b"made 1\nnode 1\nnode 1\nrefused 18\n",
]


def run(*words, given=b"", start=None, **variables):
    """Runs a command, in the folder `start` if one is given, and counts its allocations or refuses one: its status, its
    standard output and its standard error."""
    environment = {**os.environ, "LD_PRELOAD": os.environ["REFUSING"], **variables}
    done = subprocess.run([PROGRAM, *words], input=given, capture_output=True, timeout=60, env=environment, cwd=start)
    return done.returncode, done.stdout, faults(done.stderr)


class Refused(InFolder):
    def each_in_turn(self, command, is_right, statuses=STATUSES, perhaps=frozenset()):
        """Runs a command with each of its allocations refused. Each end has to be right, and each of these statuses has to
        occur, and no other but perhaps some."""
        with tempfile.NamedTemporaryFile("r") as file:
            command(ALLOCATIONS=file.name)
            numbers = range(1, int(file.read()) + 1)
        self.assertGreaterEqual(len(numbers), FEWEST)
        with ThreadPoolExecutor(len(os.sched_getaffinity(0))) as pool:
            ended = list(pool.map(lambda number: command(REFUSE=str(number)), numbers))
        wrong = [f"allocation {number} of {len(numbers)}: {end}" for number, end in zip(numbers, ended) if not is_right(*end)]
        self.assertEqual(wrong, [], "\n".join(wrong))
        self.assertEqual({end[0] for end in ended} - perhaps, statuses)

    def each_of_a_script(self, script):
        self.each_in_turn(lambda **variables: run("script", given=script, **variables), script_is_right)

    def test_script(self):
        with open(STORED, "rb") as file:
            self.each_of_a_script(file.read())

    def test_script_of_version_2(self):
        """It has the same replies."""
        with open(STORED, "rb") as file:
            lines = file.read().splitlines()
        hashed = [line + b" md5" * (b" create " in line) for line in lines]
        self.each_of_a_script(b"".join(b"v2 %s\n" % line for line in hashed))

    def made_by(self, *words, beside=(), **variables):
        """Runs a command in a new folder with an output file there, and others beside it (their options and names): the status,
        the output with the fault, and the files that are there, by name. A page is without the moment when it was made."""
        with tempfile.TemporaryDirectory(dir=self.work) as made:
            for option_and_name in beside:
                words += option_and_name
            status, written, said = run(*words, "--output", b"output", start=made, **variables)
            named = b"".join(line for line in said.splitlines(True) if line.startswith(b"fault: "))
            files = {}
            for name in os.listdir(made):
                with open(os.path.join(made, name), "rb") as file:
                    files[name] = re.sub(rb" at [^ ]+ \(UTC\)", b"", file.read())
        return status, written + named, files

    def each_output(self, words, names, due, statuses=STATUSES, perhaps=frozenset(), **more):
        """Runs a command with each of its allocations refused. Its output files are complete, or there are none, not even
        unfinished ones; of several the first may be complete without the others."""
        whole = self.made_by(*words, **more)
        self.assertEqual((whole[0], whole[1], sorted(whole[2])), (due, b"", sorted(names)))
        self.assertTrue(all(whole[2].values()))
        begun = [{name: whole[2][name] for name in names[:count]} for count in range(len(names))]

        def is_right(status, said, files):
            return (status, said, files) == whole if status == due else status in statuses and said == FAULT and files in begun

        self.each_in_turn(lambda **variables: self.made_by(*words, **more, **variables), is_right, statuses, perhaps)

    def test_profile(self):
        """Two folders, a file that is identified and one that isn't, by a relative path."""
        self.folder(b"/outer/inner")
        self.file(b"/outer/first.msg", b"message of a file")
        self.file(b"/outer/inner/second", b"nothing that is known")
        self.each_output(["profile", b"../tree", "--registry", SAMPLE], [b"output"], 0)

    def test_profile_with_lists(self):
        """By SHA-256, with a link that is skipped: the CSV is the last file that is put in its place."""
        self.folder(b"/outer")
        self.file(b"/outer/first.msg", b"message of a file")
        os.symlink(b"first.msg", self.top + b"/outer/link")
        beside = ("--manifest", b"sums"), ("--skipped", b"skipped.csv")
        self.each_output(["profile", self.top, "--registry", SAMPLE, "--hash", "sha256"], [b"skipped.csv", b"sums", b"output"], 0, beside=beside)

    def test_registry(self):
        """A signature file of which not all is taken."""
        self.each_output(["registry", SIGNATURES], [b"output", b"output.txt"], 5, {4, 6}, {5})

    def test_profile_with_a_page(self):
        """The page is made last: if it is there, the CSV is there too."""
        self.folder(b"/outer")
        self.file(b"/outer/first.msg", b"message of a file")
        self.each_output(["profile", self.top, "--registry", SAMPLE], [b"output", b"page.html"], 0, beside=[("--report", b"page.html")])

    def verify(self, top, listed, *more, **variables):
        """Compares a folder with a list: the status, the output with the fault, and the summary's line on formats."""
        status, written, said = run("verify", top, "--against", listed, *more, **variables)
        kept = [line for line in said.splitlines(True) if line.startswith((b"fault: ", b"format: "))]
        return status, written + b"".join(kept)

    def test_verify(self):
        """A file changed, one moved, one is new and one has another format: the report by each form of a list is whole, or there
        is none."""
        self.folder(b"/outer/inner")
        self.file(b"/outer/first.msg", b"message of a file")
        self.file(b"/outer/inner/second", b"nothing that is known")
        self.file(b"/moved", b"moved")
        listed = self.work + b"/list.csv"
        self.assertEqual(run("profile", self.top, "--registry", SAMPLE, "--hash", "md5", "--output", listed)[0], 0)
        with open(listed, "rb") as file:
            text = file.read()
        with open(listed, "wb") as file:
            file.write(text.replace(b"dev/1", b"dev/9"))
        bag = self.work + b"/bag"
        os.mkdir(bag)
        os.symlink(self.top, bag + b"/data")
        sums = {name: hashlib.sha256(self.bytes_of(name)).hexdigest().encode() for name in (b"moved", b"outer/first.msg", b"outer/inner/second")}
        lists = {
            b"/bag/bagit.txt": b"BagIt-Version: 1.0\nTag-File-Character-Encoding: UTF-8\n",
            b"/sums": b"".join(digest + b"  " + name + b"\n" for name, digest in sums.items()),
            b"/manifest": b"".join(digest + b"  data/" + name + b"\n" for name, digest in sums.items()),
        }
        for path, text in lists.items():
            with open(self.work + path, "wb") as file:
                file.write(text)
        self.file(b"/outer/inner/second", b"NOTHING that is known")
        os.rename(self.top + b"/moved", self.top + b"/outer/moved")
        self.file(b"/new", b"new")
        # (--quick does not see that bytes changed; without formats no registry is read, so that the status is never 3)
        cases = [
            (4, {4, 5, 6}, self.top, listed, "--quick"),
            (6, {3, 4, 5, 6}, self.top, listed, "--identify", "--registry", SAMPLE),
            (4, {4, 5, 6}, self.top, self.work + b"/sums"),
            (4, {4, 5, 6}, bag, self.work + b"/manifest"),
        ]
        for lines, statuses, *words in cases:
            whole = self.verify(*words)
            self.assertEqual((whole[0], len(whole[1].splitlines())), (5, lines), whole)

            def is_right(status, written):
                return (status, written) == whole if status == 5 else status in statuses and written == FAULT

            self.each_in_turn(lambda **variables: self.verify(*words, **variables), is_right, statuses)

    def bytes_of(self, name):
        with open(self.top + b"/" + name, "rb") as file:
            return file.read()


def script_is_right(status, written, said):
    """With status 0 all replies are written, of which at most one is refused for memory; with 4 the first ones;
    otherwise none."""
    if status == 0:
        return not said and written in [REPLIES, *SHORT]
    return status in STATUSES and said == FAULT and (REPLIES.startswith(written) if status == 4 else not written)


if __name__ == "__main__":
    unittest.main()
