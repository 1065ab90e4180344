"""What a run that was ended leaves beside its output, FILE.N.unfinished, is removed by the next run with this output; a file of
such a name that no run left, or that a run still writes, is the user's own."""
import csv
import io
import os
import signal
import stat
import subprocess
import time
import unittest

from lib.program import PROGRAM, Serve
from lib.submissions import submit
from lib.trees import InFolder, lines, profile, read

# a file that takes a run some minutes, and no place on the disk
LENGTH = 1 << 38
SECONDS = 30


def heed_signals():
    """A shell that starts a test in the background has SIGINT ignored."""
    signal.signal(signal.SIGINT, signal.SIG_DFL)


class Unfinished(InFolder):
    def setUp(self):
        super().setUp()
        self.long = self.work + b"/long"
        os.mkdir(self.long)
        with open(self.long + b"/file", "wb") as file:
            file.truncate(LENGTH)
        self.file(b"/a.txt", b"a")
        self.out = self.work + b"/out.csv"

    def beside(self):
        """The names of unfinished files."""
        return sorted(name for name in os.listdir(os.path.dirname(self.out)) if name.endswith(b".unfinished"))

    def begin(self, *words):
        """Begins a run that goes on, and waits for its unfinished files."""
        due = len(self.beside()) + 1 + len(words) // 2
        command = [PROGRAM, "profile", self.long, "--output", self.out, *words]
        run = subprocess.Popen(command, stdout=subprocess.DEVNULL, stderr=subprocess.DEVNULL, preexec_fn=heed_signals)
        self.addCleanup(run.wait)
        self.addCleanup(run.kill)
        end = time.monotonic() + SECONDS
        # the first file of a run only shows that one can be created, and goes at once
        looks = 0
        while looks < 5:
            self.assertTrue(time.monotonic() < end and run.poll() is None)
            time.sleep(0.02)
            looks = looks + 1 if len(self.beside()) == due else 0
        return run

    def stop(self, run, how):
        run.send_signal(how)
        run.wait(SECONDS)

    def test_ended(self):
        for how in (signal.SIGINT, signal.SIGTERM, signal.SIGKILL):
            with self.subTest(how=how):
                self.stop(self.begin("--manifest", self.work + b"/sums"), how)
                self.assertEqual(self.beside(), [b"out.csv.0.unfinished", b"sums.0.unfinished"])
                self.assertFalse(os.path.exists(self.out))
                # the other output is left for a run that names it
                self.assertEqual(profile(self.top, "--output", self.out)[0], 0)
                self.assertEqual(self.beside(), [b"sums.0.unfinished"])
                self.assertEqual(profile(self.top, "--manifest", self.work + b"/sums")[0], 0)
                self.assertEqual(self.beside(), [])
                self.assertEqual(stat.S_IMODE(os.stat(self.out).st_mode) & 0o7000, 0)
                os.unlink(self.out)

    def test_not_listed(self):
        """It is removed before the walk, so where FILE lies in DIR it has no row."""
        self.out = self.top + b"/out.csv"
        self.stop(self.begin(), signal.SIGTERM)
        # by another run it is listed
        paths = [row["FILE_PATH"] for row in read(profile(self.top)[1])]
        self.assertEqual(paths, ["/a.txt", "/out.csv.0.unfinished"])
        self.assertEqual(profile(self.top, "--output", self.out)[0], 0)
        with open(self.out, "rb") as file:
            self.assertEqual([row["FILE_PATH"] for row in read(file.read())], ["/a.txt"])
        self.assertEqual(sorted(os.listdir(self.top)), [b"a.txt", b"out.csv"])

    def test_still_written(self):
        """That of a run that goes on stays, and is put in its place."""
        run = self.begin()
        written = os.stat(self.out + b".0.unfinished").st_ino
        self.assertEqual(profile(self.top, "--output", self.out)[0], 0)
        self.assertEqual(self.beside(), [b"out.csv.0.unfinished"])
        self.assertEqual(os.stat(self.out + b".0.unfinished").st_ino, written)
        self.stop(run, signal.SIGTERM)

    def test_several(self):
        """Two runs with one output were ended; the numbers have a hole."""
        first, second = self.begin(), self.begin()
        self.assertEqual(self.beside(), [b"out.csv.0.unfinished", b"out.csv.1.unfinished"])
        self.stop(second, signal.SIGTERM)
        self.stop(first, signal.SIGTERM)
        os.unlink(self.out + b".0.unfinished")
        self.assertEqual(profile(self.top, "--output", self.out)[0], 0)
        self.assertEqual(self.beside(), [])

    def test_own(self):
        """Files of the user: bytes and moment stay, and each has its row."""
        self.out = self.top + b"/out.csv"
        own = self.out + b".0.unfinished"
        with open(own, "wb") as file:
            file.write(b"of the user")
        os.mkdir(self.out + b".1.unfinished")
        os.symlink(own, self.out + b".2.unfinished")
        before = os.stat(own)
        self.assertEqual(profile(self.top, "--output", self.out)[0], 0)
        after = os.stat(own)
        self.assertEqual((after.st_ino, after.st_size, after.st_mtime_ns, after.st_ctime_ns), (before.st_ino, before.st_size, before.st_mtime_ns, before.st_ctime_ns))
        with open(self.out, newline="", encoding="utf-8") as file:
            paths = [row["FILE_PATH"] for row in csv.DictReader(io.StringIO(file.read(), newline=""))]
        self.assertEqual(paths, ["/a.txt", "/out.csv.0.unfinished", "/out.csv.1.unfinished"])
        self.assertTrue(os.path.islink(self.out + b".2.unfinished"))

    def test_other_commands(self):
        """`report`, `submit` and `verify` of a left file: the first two remove those of their outputs."""
        csv_file = self.work + b"/there.csv"
        self.assertEqual(profile(self.top, "--output", csv_file)[0], 0)
        self.stop(self.begin(), signal.SIGTERM)
        run = subprocess.run([PROGRAM, "report", csv_file, "--output", self.out], capture_output=True, timeout=120, check=False)
        self.assertEqual((run.returncode, self.beside()), (0, []))
        self.stop(self.begin(), signal.SIGTERM)
        with Serve.lasting() as service:
            status, err = submit(self.top, service.port, 7, "--export", self.out)
        self.assertEqual((status, lines(err, b"fault: "), self.beside()), (0, [], []))


class Folders(InFolder):
    """A folder that can't be listed, and an output without a name, are reported before anything is read."""

    def test_unreadable_folder(self):
        self.file(b"/a.txt", b"a")
        listed = self.work + b"/list"
        with open(listed, "w", encoding="utf-8") as file:
            file.write("0cc175b9c0f1b6a831c399e269772661  a.txt\n")
        os.chmod(listed, 0o644)
        os.chmod(self.work, 0o755)
        for command, words in (("profile", []), ("verify", ["--against", listed]), ("submit", ["--port", "1", "--client", "7"])):
            with self.subTest(command=command):
                sealed = self.work + b"/sealed"
                os.makedirs(sealed, exist_ok=True)
                os.chmod(sealed, 0)
                self.addCleanup(os.chmod, sealed, 0o755)
                top, self.top = self.top, sealed
                try:
                    status, out, err = self.as_nobody_there(command, *words)
                finally:
                    self.top = top
                self.assertEqual((status, out, lines(err, b"fault: ")), (4, b"", [b"Folder"]))
                self.assertIn(sealed + b": cannot be listed: permission denied", err)

    def as_nobody_there(self, command, *words):
        """As `as_nobody`, which lets all read the folder."""
        if os.geteuid() == 0:
            copy = self.work + b"/program"
            with open(PROGRAM, "rb") as file, open(copy, "wb") as other:
                other.write(file.read())
            os.chmod(copy, 0o755)
            run = subprocess.run([copy, command, self.top, *words], capture_output=True, timeout=120, user=65534, group=65534, extra_groups=[], cwd="/", check=False)
        else:
            run = subprocess.run([PROGRAM, command, self.top, *words], capture_output=True, timeout=120, check=False)
        return run.returncode, run.stdout, run.stderr

    def test_output_without_a_name(self):
        """No file is read before it is refused."""
        with open(self.top + b"/long", "wb") as file:
            file.truncate(LENGTH)
        there = self.work + b"/there.csv"
        with open(there, "wb") as file:
            file.write(b"")
        for command in (
            ["profile", self.top, "--output", ""],
            ["profile", self.top, "--manifest", ""],
            ["profile", self.top, "--skipped", ""],
            ["profile", self.top, "--report", ""],
            ["submit", self.top, "--port", "1", "--client", "7", "--export", ""],
            ["submit", self.top, "--port", "1", "--client", "7", "--skipped", ""],
        ):
            with self.subTest(command=command[2:]):
                run = subprocess.run([PROGRAM, *command], capture_output=True, timeout=10, cwd=self.work, check=False)
                self.assertEqual((run.returncode, run.stdout, lines(run.stderr, b"fault: ")), (4, b"", [b"Output"]))
                self.assertIn(b"the name of an output file is empty: name a file", run.stderr)
                self.assertEqual(sorted(os.listdir(self.work)), [b"there.csv", b"tree"])


if __name__ == "__main__":
    unittest.main()
