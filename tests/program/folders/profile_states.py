"""Files that change between the listing of their folder and the end of their reading. No row has a checksum of bytes that
no file had at its path: `profile`, `verify` and `submit` read each file through one open file, in the state in which it was
listed, or skip it as changed."""
import collections
import hashlib
import os
import subprocess
import time
import unittest

from lib.program import PROGRAM, Serve
from lib.submissions import records, submit
from lib.trees import CHANGED, SKIPPED, InFolder, lines, profile, read

# the file that changes has more bytes than are read at once, here and by `submit`
LENGTH = 3 * 65_536 + 7
# when it changes, and how
CHANGES = [(when, how) for when in ("open", "read", "end") for how in ("write", "rename", "touch")]


def digest(content):
    return hashlib.md5(content).hexdigest()


class States(InFolder):
    def setUp(self):
        super().setUp()
        self.opens = self.work + b"/opens"

    def make(self):
        """A file, what takes its place, and one beside it. They lie a tick of any file system's clock back."""
        self.file(b"/big", b"a" * LENGTH)
        self.file(b"/../other", b"b" * LENGTH)
        self.file(b"/small", b"small")
        time.sleep(0.05)
        if os.path.exists(self.opens):
            os.unlink(self.opens)

    def changing(self, when, how, **more):
        how = {"STATE_OF": self.top + b"/big", "STATE_WHEN": when, "STATE_DO": how, "STATE_BY": self.work + b"/other", "OPENS_TO": self.opens} | more
        return os.environ | {"LD_PRELOAD": os.environ["PRELOAD_STATES"]} | {name: os.fsdecode(value) for name, value in how.items()}

    def opened(self):
        """How often each file was opened for reading."""
        with open(self.opens, encoding="utf-8") as file:
            return collections.Counter(file.read().split())

    def test_profile(self):
        for when, how in CHANGES:
            with self.subTest(when=when, how=how):
                self.make()
                status, out, err = profile(self.top, "--quiet", env=self.changing(when, how))
                self.assertEqual((status, lines(err, SKIPPED)), (5, [b"/big: " + CHANGED]))
                self.assertNotIn("/big", [row["FILE_PATH"] for row in read(out)])
                self.assertEqual(self.opened()["big"], 1)

    def test_verify(self):
        for when, how in CHANGES:
            with self.subTest(when=when, how=how):
                self.make()
                listed = self.work + b"/list"
                with open(listed, "w", encoding="utf-8") as file:
                    # the checksum of what is there afterwards: none of a file that was read does
                    file.write(f"{digest(b'x' * LENGTH)}  big\n{digest(b'small')}  small\n")
                run = subprocess.run([PROGRAM, "verify", self.top, "--against", listed, "--quiet"], capture_output=True, timeout=120, env=self.changing(when, how), check=False)
                self.assertEqual(run.returncode, 5)
                self.assertIn(b'"unreadable","/big",', run.stdout)
                self.assertIn(CHANGED, run.stdout)
                self.assertEqual(self.opened()["big"], 1)

    def test_submit(self):
        for when, how in CHANGES:
            with self.subTest(when=when, how=how):
                self.make()
                export = self.work + b"/export.csv"
                with Serve.lasting() as service:
                    status, err = submit(self.top, service.port, 7, "--export", export, piece=65_536, env=self.changing(when, how))
                self.assertEqual((status, lines(err, SKIPPED)), (5, [b"/big: " + CHANGED]))
                with open(export, "rb") as file:
                    self.assertNotIn("/big", records(file.read()))
                self.assertEqual(self.opened()["big"], 1)

    def test_unchanged(self):
        self.make()
        status, out, err = profile(self.top, "--quiet", env=self.changing("never", "write"))
        self.assertEqual((status, lines(err, SKIPPED)), (0, []))
        due = {"/big": digest(b"a" * LENGTH), "/small": digest(b"small")}
        self.assertEqual({row["FILE_PATH"]: row["MD5_HASH"] for row in read(out)}, due)
        self.assertEqual(set(self.opened().values()), {1})

    def test_others_are_read_on(self):
        """One of eight files is skipped while they are read, and a ninth comes in its place: each is opened once."""
        self.file(b"/big", b"a" * 1_000_000)
        self.file(b"/short", b"s" * 720_896)
        contents = {f"/f{number}": b"%d" % number * 1_000_000 for number in range(6)} | {f"/w{number}": b"%d" % number * 300_000 for number in range(4)}
        for path, content in contents.items():
            self.file(path.encode(), content)
        time.sleep(0.05)
        env = self.changing("read", "none", STATE_GROWS=self.top + b"/short")
        status, out, err = profile(self.top, "--quiet", env=env)
        self.assertEqual((status, lines(err, SKIPPED)), (5, [b"/short: " + CHANGED]))
        due = {path: digest(content) for path, content in contents.items()} | {"/big": digest(b"a" * 1_000_000)}
        self.assertEqual({row["FILE_PATH"]: row["MD5_HASH"] for row in read(out)}, due)
        self.assertEqual(set(self.opened().values()), {1})


if __name__ == "__main__":
    unittest.main()
