"""The output file is complete or not there, and a failed write ends with status 4."""
import os
import resource
import subprocess
import time
import unittest

from lib.program import PROGRAM
from lib.trees import InFolder, lines, profile, walk

LIMIT = 4_096


class Output(InFolder):
    def setUp(self):
        super().setUp()
        for number in range(100):
            self.file(b"/%d.txt" % number, b"%d" % number)
        self.out = self.work + b"/out.csv"

    def only(self, *names):
        """Checks that the folder has only the tree and these files, and no unfinished file."""
        self.assertEqual(sorted(os.listdir(self.work)), sorted([b"tree", *names]))

    def test_complete(self):
        expected = profile(self.top)[1]
        status, out, err = profile(self.top, "--output", self.out)
        self.assertEqual((status, out), (0, b""))
        with open(self.out, "rb") as file:
            self.assertEqual(file.read(), expected)
        self.only(b"out.csv")
        # a former file is replaced
        self.file(b"/more.txt", b"more")
        self.assertEqual(profile(self.top, "--output", self.out)[0], 0)
        with open(self.out, "rb") as file:
            self.assertEqual(file.read(), profile(self.top)[1])
        self.only(b"out.csv")

    def test_below_the_folder(self):
        # files that are written have no rows; former files at their paths have
        files = {"--output": b"/sub.csv", "--manifest": b"/in/sums", "--skipped": b"/in/skipped.csv"}
        self.folder(b"/in")
        self.file(b"/in/a.txt", b"a")
        words = [word for option, path in files.items() for word in (option, self.top + path)]
        for count in (102, 105):
            # the moment of a folder changes when files are put into it
            rows = [{name: row[name] for name in row if row["TYPE"] == "File" or name != "LAST_MODIFIED"} for row in walk(self.top)[0]]
            self.assertEqual(len(rows), count)
            self.assertEqual(profile(self.top, *words)[0], 0)
            with open(self.top + files["--output"], "rb") as file:
                self.same(file.read(), rows)
            self.assertEqual(len(walk(self.top)[0]), 105)

    def test_by_a_link_to_the_folder(self):
        # the files that are written are known by what they are, not by their paths
        os.symlink(self.top, self.work + b"/way")
        rows = walk(self.top)[0]
        self.assertEqual(profile(self.top, "--output", self.work + b"/way/out.csv")[0], 0)
        with open(self.top + b"/out.csv", "rb") as file:
            self.same(file.read(), rows)

    def test_something_skipped(self):
        os.mkfifo(self.top + b"/pipe")
        self.assertEqual(profile(self.top, "--output", self.out)[0], 5)
        with open(self.out, "rb") as file:
            self.assertEqual(len(file.read().splitlines()), 101)

    def full(self, *words, limit=LIMIT, env=None):
        """Runs `profile` where no file can have more than some bytes."""

        def small():
            resource.setrlimit(resource.RLIMIT_FSIZE, (limit, limit))
            import signal

            signal.signal(signal.SIGXFSZ, signal.SIG_IGN)

        return subprocess.run([PROGRAM, "profile", self.top, *words], capture_output=True, timeout=120, preexec_fn=small, restore_signals=False, env=env)

    def test_no_room(self):
        run = self.full("--output", self.out)
        self.assertEqual((run.returncode, lines(run.stderr, b"fault: ")), (4, [b"Write"]))
        self.only()
        # a former file stays
        with open(self.out, "wb") as file:
            file.write(b"before")
        run = self.full("--output", self.out)
        self.assertEqual(run.returncode, 4)
        self.only(b"out.csv")
        with open(self.out, "rb") as file:
            self.assertEqual(file.read(), b"before")

    def test_no_such_path(self):
        for path in (self.work + b"/none/out.csv", self.top, self.work + b"/link", b"/dev/null", b""):
            if path.endswith(b"link"):
                os.symlink(self.out, path)
            status, out, err = profile(self.top, "--output", path)
            self.assertEqual((status, out, lines(err, b"fault: ")), (4, b"", [b"Output"]), path)
        self.only(b"link")

    def test_same_path(self):
        # no file is written over another
        os.symlink(self.work, self.work + b"/way")
        for path in (self.out, self.work + b"/./out.csv", self.work + b"/way/out.csv"):
            for first, second in (("--output", "--manifest"), ("--output", "--skipped"), ("--manifest", "--skipped")):
                status, out, err = profile(self.top, first, self.out, second, path)
                self.assertEqual((status, out, lines(err, b"fault: ")), (4, b"", [b"Output"]), path)
                self.assertIn(path + b": another FILE has this path", err)
        self.only(b"way")

    def test_another_unfinished(self):
        # another program's unfinished file stays
        with open(self.out + b".0.unfinished", "wb") as file:
            file.write(b"another's")
        self.assertEqual(profile(self.top, "--output", self.out)[0], 0)
        self.only(b"out.csv", b"out.csv.0.unfinished")
        with open(self.out + b".0.unfinished", "rb") as file:
            self.assertEqual(file.read(), b"another's")

    def test_no_room_for_another_file(self):
        # no file is put in its place, whichever of them can't be written
        for number in range(100):
            os.symlink(b"nowhere", self.top + b"/link%d" % number)
        for option in ("--manifest", "--skipped"):
            for there in (None, b"before"):
                other = self.work + b"/other"
                if there:
                    for path in (self.out, other):
                        with open(path, "wb") as file:
                            file.write(there)
                run = self.full(option, other, limit=1_000)
                self.assertEqual((run.returncode, lines(run.stderr, b"fault: ")), (4, [b"Write"]))
                self.assertIn(other + b": could not be written", run.stderr)
                self.only(*([b"out.csv", b"other"] if there else []))
                for path in (self.out, other) if there else ():
                    with open(path, "rb") as file:
                        self.assertEqual(file.read(), b"before")
                    os.remove(path)

    def test_killed(self):
        """A killed run leaves no new file: a former one stays, and beside it lies an unfinished one."""
        slow = {**os.environ, "LD_PRELOAD": os.environ["PRELOAD_READS"], "PREAD_SLEEPS": "20"}
        words = ["--output", self.out, "--manifest", self.work + b"/sums", "--skipped", self.work + b"/skipped.csv"]
        with open(self.out, "wb") as file:
            file.write(b"before")
        with subprocess.Popen([PROGRAM, "profile", self.top, *words], env=slow, stdout=subprocess.DEVNULL, stderr=subprocess.DEVNULL) as run:
            while run.poll() is None and len(os.listdir(self.work)) < 5:
                time.sleep(0.01)
            time.sleep(0.2)
            run.kill()
        self.assertEqual(run.returncode, -9)
        self.only(b"out.csv", b"out.csv.0.unfinished", b"sums.0.unfinished", b"skipped.csv.0.unfinished")
        with open(self.out, "rb") as file:
            self.assertEqual(file.read(), b"before")
        # they are in no one's way
        self.assertEqual(profile(self.top, *words)[0], 0)
        with open(self.out, "rb") as file:
            self.same(file.read(), walk(self.top)[0])

    def test_reader_gone(self):
        """Whoever reads standard output may go away: the status is 4, and other files are not put in their places."""
        for number in range(2_000):
            self.file(b"/more%d.txt" % number, b"")
        read, write = os.pipe()
        with subprocess.Popen([PROGRAM, "profile", self.top, "--quiet", "--manifest", self.out], stdout=write, stderr=subprocess.PIPE) as run:
            os.close(write)
            os.close(read)
            err = run.stderr.read()
        self.assertEqual((run.returncode, lines(err, b"fault: ")), (4, [b"Write"]))
        self.only()

    def test_stops_in_the_walk(self):
        """Of 300 files with names of 253 bytes more rows and lines are pending than are kept: where the CSV or the list can't be
        written, the walk ends before a file that can't be opened, and nothing is printed of that."""
        self.top = self.work + b"/tree/many"
        os.mkdir(self.top)
        names = [b"x" * 250 + b"%d" % number for number in range(100, 400)]
        for name in names:
            self.file(b"/" + name, b"a")
        status, text, _ = profile(self.top, "--manifest", self.out)
        with open(self.out, "rb") as file:
            listed = file.read()
        self.assertEqual((status, len(listed), listed.count(b"\n"), text.count(b"\n")), (0, 300 * 288, 300, 301))
        os.remove(self.out)
        changes = {"LD_PRELOAD": f"{os.environ['PRELOAD_CHANGES']}:{os.environ['PRELOAD_STREAMS']}"}
        for name, more in ((names[99], {}), (names[99], {"WRITE_ROOM": "65000"})):
            status, out, err = profile(self.top, env=os.environ | changes | {"UNOPENED": os.fsdecode(name)} | more)
            skipped = [line for line in lines(err, b"skipped: ") if name in line]
            if more:
                self.assertEqual((status, out, lines(err, b"fault: "), skipped), (4, text[:65_000], [b"Write"], []))
            else:
                self.assertEqual((status, len(skipped)), (5, 1))
        run = self.full("--manifest", self.out, limit=65_000, env=os.environ | changes | {"UNOPENED": os.fsdecode(names[-1])})
        self.assertEqual((run.returncode, lines(run.stderr, b"fault: "), lines(run.stderr, b"skipped: ")), (4, [b"Write"], []))
        self.assertEqual((text.startswith(run.stdout), run.stdout.endswith(b"\n"), len(run.stdout) > 65_536), (True, True, True))
        self.only()

    def test_full_device(self):
        with open("/dev/full", "wb") as full:
            run = subprocess.run([PROGRAM, "profile", self.top], stdout=full, stderr=subprocess.PIPE, timeout=120, check=False)
        self.assertEqual((run.returncode, lines(run.stderr, b"fault: ")), (4, [b"Write"]))


if __name__ == "__main__":
    unittest.main()
