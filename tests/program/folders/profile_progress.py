"""Standard error: the progress, and at the end the summary."""
import collections
import os
import re
import subprocess
import time
import unicodedata
import unittest

from lib.program import PROGRAM
from lib.trees import ALL_SKIPPED, LINKS, OWN_REGISTRY, SKIPPED, InFolder, lines, profile, read

UNIT = rb"(?:bytes|kB|MB|GB)"
# entries and bytes so far: how many there are is not known before
LINE = re.compile(rb"(\d+) entries, (\d+) (" + UNIT + rb"), \d+ " + UNIT + rb"/s(?:: (.*))?")
BYTES = {b"bytes": 1, b"kB": 1_000, b"MB": 1_000_000, b"GB": 1_000_000_000}
# the codes before and after a line of progress, between which the terminal cuts long lines
BEGIN, END = b"\r\x1b[?7l", b"\x1b[K\x1b[?7h"
AWAY = b"\r\x1b[K"


def columns(text):
    """Counts the columns of a text. A character takes one or two."""
    return sum(2 if unicodedata.east_asian_width(letter) in "WF" else 1 for letter in text)


def slow(milliseconds):
    """Returns an environment in which each read of a file takes this long."""
    return {**os.environ, "LD_PRELOAD": os.environ["PRELOAD_READS"], "PREAD_SLEEPS": str(milliseconds)}


class Progress(InFolder):
    def on_terminal(self, *words, status=0, **options):
        """Runs `profile` on a terminal, to this exit status: its standard error, and its seconds."""
        ours, theirs = os.openpty()
        begun = time.monotonic()
        with subprocess.Popen([PROGRAM, "profile", self.top, *words], stdout=subprocess.DEVNULL, stderr=theirs, **options) as run:
            os.close(theirs)
            written = b""
            try:
                while more := os.read(ours, 1 << 16):
                    written += more
            except OSError:
                pass
        os.close(ours)
        self.assertEqual(run.returncode, status)
        return written, time.monotonic() - begun

    def test_terminal(self):
        # one line is written again and again, at most ten times a second, no wider than the terminal, and removed at
        # the end
        name = "建築図面 " * 15 + "plan.bin"
        self.file(b"/" + name.encode(), b"x" * (23 << 20))
        # both are read side by side, and a line names the one that was read last: behind this one's end, the other
        self.file(b"/z.bin", b"x" * (1 << 20))
        written, seconds = self.on_terminal(env=slow(8))
        shown = re.findall(re.escape(BEGIN) + b"(.*?)" + re.escape(END), written, re.DOTALL)
        self.assertTrue(5 <= len(shown) <= 10 * seconds + 1, (len(shown), seconds))
        done = 0
        for line in shown:
            found = LINE.fullmatch(line)
            self.assertTrue(found, line)
            self.assertTrue(columns(line.decode()) <= 79, line)
            self.assertLessEqual(int(found[1]), 2)
            self.assertTrue(done <= int(found[2]) * BYTES[found[3]] <= 24 << 20)
            done = int(found[2]) * BYTES[found[3]]
        self.assertTrue(any("図面 plan.bin".encode() in line for line in shown))
        self.assertIn(AWAY + ALL_SKIPPED + b"0\r\n", written)
        self.assertNotIn(b"\n", written.split(AWAY)[0].split(BEGIN, 1)[1])

    def test_skipped_on_terminal(self):
        # a skipped entry has a line of its own
        self.file(b"/a.bin", b"x" * (8 << 20))
        self.file(b"/b\xff", b"")
        self.file(b"/c.bin", b"x" * (8 << 20))
        written, _ = self.on_terminal(status=5, env=slow(8))
        self.assertIn(AWAY + SKIPPED + b"/b\\xff: its name is no UTF-8\r\n", written)

    def test_quiet_on_terminal(self):
        self.file(b"/a.bin", b"x" * (8 << 20))
        written, _ = self.on_terminal("--quiet", env=slow(8))
        self.assertEqual([line for line in written.replace(AWAY, b"").split(b"\r\n") if line], [OWN_REGISTRY])

    def test_lines(self):
        # on no terminal there is a line every ten seconds
        for number in range(6):
            self.file(b"/%d.txt" % number, b"some text")
        begun = time.monotonic()
        status, out, err = profile(self.top, env=slow(3_700))
        seconds = time.monotonic() - begun
        self.assertEqual((status, len(read(out))), (0, 6))
        progress = [line for line in err.split(b"\n") if LINE.fullmatch(line)]
        self.assertTrue(2 <= len(progress) <= seconds / 10, (progress, seconds))
        self.assertTrue(re.fullmatch(rb".*: /\d\.txt", progress[0]))
        self.assertNotIn(b"\x1b", err)
        self.assertNotIn(b"\r", err)

    def test_clock(self):
        """While calls come fast, the clock is read at one in sixteen, and a few times more in each millisecond: that costs less
        than a thousandth of what the files cost. A file makes two: for its read and for itself. With `--quiet` the clock is
        read only at the beginning."""
        files = 20_000
        calls = 2 * files
        for number in range(files):
            if number % 1_000 == 0:
                self.folder(b"/%d" % (number // 1_000))
            os.mknod(self.top + b"/%d/%d" % divmod(number, 1_000))
        for quiet, least, most in ([], calls // 16, calls // 16 + 10), (["--quiet"], 0, 2):
            counted = self.work + b"/clock"
            begun = time.monotonic()
            status = profile(self.top, *quiet, env={**os.environ, "LD_PRELOAD": os.environ["PRELOAD_CLOCK"], "CLOCK_FILE": os.fsdecode(counted)})[0]
            milliseconds = (time.monotonic() - begun) * 1_000
            with open(counted, encoding="ascii") as file:
                count = int(file.read())
            self.assertEqual(status, 0)
            self.assertTrue(least <= count <= most + (0 if quiet else 5 * milliseconds), (quiet, count, milliseconds))

    def test_summary(self):
        # a registry of twelve formats, of which the ten most frequent are listed
        registry = self.work + b"/registry.csv"
        with open(registry, "w", encoding="ascii") as file:
            file.write("F,dev/sig,Signed,,,\nE,dev/sig,sig,,,\nS,dev/sig,BOF,0,0,53\n")
            for number in range(11):
                file.write("F,dev/%d,Plain %d,,,\nE,dev/%d,x%d,,,\n" % (number, number, number, number))
        expected = collections.Counter()
        for number in range(11):
            for copy in range(number + 1):
                self.file(b"/%d_%d.x%d" % (number, copy, number), b"text")
                expected["dev/%d" % number] += 1
        for copy in range(5):
            self.file(b"/s%d.sig" % copy, b"Signed")
        self.file(b"/mismatch.txt", b"Signed")
        expected["dev/sig"] += 6
        self.file(b"/unknown.bin", b"nothing")
        self.folder(b"/folder")
        for link in (b"/link", b"/folder/link"):
            os.symlink(b"nowhere", self.top + link)
        os.mkfifo(self.top + b"/pipe")
        status, out, err = profile(self.top, "--registry", registry)
        self.assertEqual(status, 5)
        files = [row for row in read(out) if row["TYPE"] == "File"]
        methods = collections.Counter(row["METHOD"] for row in files)
        self.assertEqual(lines(err, b"folders and files: "), [b"%d" % (len(files) + 1)])
        self.assertEqual(lines(err, b"files by signature: "), [b"%d" % methods["Signature"]])
        self.assertEqual(lines(err, b"files by extension: "), [b"%d" % methods["Extension"]])
        self.assertEqual(lines(err, b"files not identified: "), [b"%d" % methods[""]])
        self.assertEqual(lines(err, b"mismatches: "), [b"1"])
        self.assertEqual(lines(err, ALL_SKIPPED), [b"3"])
        self.assertEqual(lines(err, LINKS), [b"2"])
        self.assertEqual(lines(err, b"bytes read: "), [b"%d" % sum(int(row["SIZE"]) for row in files)])
        self.assertEqual(len(lines(err, b"seconds: ")), 1)
        most = sorted(expected.items(), key=lambda it: (-it[1], it[0].encode()))[:10]
        self.assertEqual(lines(err, b"format "), [b"%s: %d" % (puid.encode(), count) for puid, count in most])


if __name__ == "__main__":
    unittest.main()
