"""The options of `serve`: which are refused, what `--verbose` prints, and the unit for systemd."""

import contextlib
import os
import re
import select
import shutil
import subprocess
import tempfile
import time
import unittest

from lib.connections import SECONDS, connect, free_port, read_exactly, read_frame, reset
from lib.frames import HEADER, LIMITS, REFUSED, STATUS, frame
from lib.processes import is_asleep
from lib.program import PROGRAM, SAMPLE_NOTE, TOP, Serve, preloaded
from serve_at_once import NOTHING, NO_PROFILE, is_closed, lasting, slow_reader

UNIT = os.path.join(TOP, "examples", "droid_desk.service")
SIZE, REPLY_SIZE = len(NOTHING), len(NO_PROFILE)
# how many bytes of replies are queued for a connection that is read
QUEUE = 1 << 23
# how many times as fast the clock goes where a minute is waited for
TIMES = 100


def next_line(service, word):
    """Reads the service's standard error up to a line that begins with this word, and returns that line."""
    while line := service.process.stderr.readline():
        if line.startswith(word):
            return line.decode("ascii")
    raise AssertionError("standard error has ended")


def ask(stream):
    stream.sendall(NOTHING)
    return read_exactly(stream, REPLY_SIZE) == NO_PROFILE


class Options(unittest.TestCase):
    def test_what_is_refused(self):
        """A number beyond its limits, or none; an option beside one that it excludes. Then nothing is served and the option is
        named."""
        rows = [(["--at-once", number], "--at-once") for number in ("0", "65", "x", "", str(2**64 + 1))]
        rows += [(["--at-once"], "--at-once"), (["--at-once", "2", "--at-once", "2"], "--at-once")]
        rows += [(["--at-once", "2", "--idle", number], "--idle") for number in ("0", "3601", "x", "", str(2**32 + 60))]
        rows += [(["--at-once", "2", "--connections", number], "--connections") for number in ("0", "1001", "x")]
        rows += [(["--at-once", "-1"], "-1"), (["--at-once", "2", "--idle", "-1"], "-1")]
        rows += [(["--idle", number], "--idle") for number in ("0", "3601", "x")]
        rows += [(["--forever", "--connections", "2", *seats], "--connections") for seats in ([], ["--at-once", "2"])]
        port = str(free_port())
        for options, named in rows:
            with self.subTest(options=options):
                ended = subprocess.run([PROGRAM, "serve", "--port", port, *options], capture_output=True, timeout=SECONDS)
                self.assertEqual((ended.returncode, ended.stdout), (2, b""))
                self.assertIn(named.encode(), ended.stderr.splitlines()[0])

    def test_the_least_and_the_most(self):
        for options in (["--idle", "1"], ["--idle", "3600"], ["--connections", "1"], ["--connections", "1000"], ["--forever"], []):
            for seats in ([], ["--at-once", "1"], ["--at-once", "64"]):
                port = free_port()
                words = [PROGRAM, "serve", "--port", str(port), *seats, *options]
                with self.subTest(words=words[4:]), subprocess.Popen(words, stdout=subprocess.PIPE, stderr=subprocess.DEVNULL) as service:
                    try:
                        self.assertEqual(service.stdout.readline(), b"listening %d\n" % port)
                        with connect(port) as stream:
                            self.assertTrue(ask(stream))
                        if options in (["--connections", "1"], [], ["--idle", "1"], ["--idle", "3600"]):
                            self.assertEqual(service.wait(SECONDS), 0)
                        else:
                            time.sleep(0.1)
                            self.assertIsNone(service.poll())
                    finally:
                        service.kill()

    def test_each_of_64_seats(self):
        """64 silent ones keep their seats, and the one behind them waits until one leaves."""
        with lasting(64) as service:
            streams = [connect(service.port) for _ in range(64)]
            for stream in streams:
                self.assertTrue(ask(stream))
            with connect(service.port) as late:
                late.sendall(NOTHING)
                late.settimeout(0.5)
                with self.assertRaises(TimeoutError):
                    late.recv(1)
                streams.pop(17).close()
                late.settimeout(SECONDS)
                self.assertEqual(read_exactly(late, REPLY_SIZE), NO_PROFILE)
            for stream in streams:
                self.assertTrue(ask(stream))
                stream.close()


class Verbose(unittest.TestCase):
    def test_each_end(self):
        """A line for each connection: its address, its frames and bytes, and why it ended."""
        too_long = HEADER.pack(1, STATUS, 9, 1, LIMITS[1].body + 1)
        bad_version = frame(STATUS, 1, 1, version=3)
        rows = [
            (b"", socket_end, 0, "closed"),
            (NOTHING * 2, socket_end, 2, "closed"),
            (NOTHING[:7], socket_end, 0, "truncated"),
            (NOTHING * 3 + NOTHING[:-1], socket_end, 3, "truncated"),
            (NOTHING + bad_version, until_closed, 1, "bad version"),
            (too_long, until_closed, 0, "too long"),
            (NOTHING, reset, 1, "read"),
        ]
        idle = [(b"", until_closed, 0, "idle"), (NOTHING + NOTHING[:5], until_closed, 1, "idle")]
        for options, some in ((["--verbose"], rows), (["--verbose", "--idle", "1"], idle)):
            with lasting(2, *options) as service:
                for row in some:
                    with self.subTest(row=row):
                        self.ends(service, *row)

    def ends(self, service, sent, end, count, reason):
        with connect(service.port) as stream:
            name = "%s:%d" % stream.getsockname()
            stream.sendall(sent)
            self.assertEqual(read_exactly(stream, count * REPLY_SIZE), NO_PROFILE * count)
            end(stream)
            wanted = f"connection {name}: {count} frames, {len(sent)} bytes in, {count * REPLY_SIZE} bytes out, {reason}\n"
            self.assertEqual(next_line(service, b"connection "), wanted)

    def test_one_seat(self):
        """Without `--at-once` too: a silent client is closed where that is asked for, and then the next one is served."""
        rows = [(b"", until_closed, 0, "idle"), (NOTHING * 2, socket_end, 2, "closed"), (NOTHING[:5], until_closed, 0, "idle")]
        with Serve(None, ["--forever", "--verbose", "--idle", "1"], killed=True) as service:
            for row in rows:
                with self.subTest(row=row):
                    self.ends(service, *row)

    def test_a_failed_write(self):
        """One that reads no reply is not read any more, and then it breaks. Some bytes were written to it, but not all."""
        with lasting(1, "--idle", "3600", "--verbose") as service:
            stream = slow_reader(service.port)
            fill(service, stream)
            reset(stream)
            line = next_line(service, b"connection ")
            found = re.fullmatch(r"connection 127\.0\.0\.1:\d+: (\d+) frames, (\d+) bytes in, (\d+) bytes out, write\n", line)
            self.assertIsNotNone(found, line)
            count, came, went = map(int, found.groups())
            self.assertLessEqual(count * SIZE, came)
            self.assertLess(QUEUE + went, (count + 1) * REPLY_SIZE)

    def test_each_minute(self):
        """A line for each minute of the clock, with what happened in it."""
        count = 50
        clock = preloaded("STREAMS", CLOCK_TIMES=TIMES)
        with lasting(2, "--idle", "3600", "--verbose", env=clock) as service:
            begun = time.monotonic()
            with connect(service.port) as stream:
                for _ in range(2):
                    for _ in range(count):
                        self.assertTrue(ask(stream))
                    time.sleep(70 / TIMES)
                self.assertTrue(ask(stream))
                # what is printed behind a frame is there before the next one is answered
                self.assertTrue(ask(stream))
                lines = self.lines_of(service, 2 * count + 1)
            minutes = (time.monotonic() - begun) * TIMES / 60
        self.assertIn(len(lines), range(2, int(minutes) + 1))
        self.assertEqual([line[:2] for line in lines], [[1, 1]] + [[1, 0]] * (len(lines) - 1))
        frames, came, went = (sum(line[place] for line in lines) for place in (2, 3, 4))
        self.assertIn(frames, (2 * count + 1, 2 * count + 2))
        self.assertEqual((came, went), (frames * SIZE, frames * REPLY_SIZE))

    def lines_of(self, service, frames):
        """Returns the numbers in the lines until they have `frames` frames."""
        lines = []
        while sum(line[2] for line in lines) < frames:
            line = next_line(service, b"connections: ")
            found = re.fullmatch(r"connections: (\d+) open, (\d+) came, (\d+) frames, (\d+) bytes in, (\d+) bytes out\n", line)
            self.assertIsNotNone(found, line)
            lines.append(list(map(int, found.groups())))
        return lines

    def test_without_it(self):
        """Nothing is printed but what stands before the first connection."""
        clock = preloaded("STREAMS", CLOCK_TIMES=TIMES)
        with lasting(2, "--idle", "3600", env=clock) as service:
            with connect(service.port) as stream:
                for _ in range(3):
                    self.assertTrue(ask(stream))
                    time.sleep(70 / TIMES)
            with connect(service.port) as stream:
                stream.sendall(frame(STATUS, 1, 1, version=3))
                until_closed(stream)
            service.process.kill()
            self.assertEqual(service.process.stderr.read(), SAMPLE_NOTE)


def fill(service, stream):
    """Sends requests and reads no reply, until nothing more is taken although the service has nothing to do. Before the queue
    can be full, the system may take nothing for a while."""
    requests, sent, waited = NOTHING * 10_000, 0, 0
    stream.setblocking(False)
    while waited < 10 or sent < QUEUE // REPLY_SIZE * SIZE:
        if select.select([], [stream], [], 0.2)[1]:
            waited = 0
            with contextlib.suppress(BlockingIOError):
                sent += stream.send(requests[sent % len(requests) :])
        elif is_asleep(service.process):
            waited += 1


def socket_end(stream):
    stream.shutdown(2)


def until_closed(stream):
    assert is_closed(stream)


class Unit(unittest.TestCase):
    def words(self):
        with open(UNIT, encoding="utf-8") as file:
            (line,) = [line for line in file if line.startswith("ExecStart=")]
        program, *words = line.removeprefix("ExecStart=").split()
        self.assertEqual(program, "/usr/local/bin/droid_desk")
        return words

    def test_it_starts(self):
        words = self.words()
        place = words.index("--port") + 1
        port = words[place] = str(free_port())
        with subprocess.Popen([PROGRAM, *words], stdout=subprocess.PIPE, stderr=subprocess.DEVNULL) as service:
            try:
                self.assertEqual(service.stdout.readline().decode(), f"listening {port}\n")
                with connect(int(port)) as stream:
                    stream.sendall(NOTHING)
                    self.assertEqual(read_frame(stream)[0], REFUSED)
            finally:
                service.kill()

    @unittest.skipUnless(shutil.which("systemd-analyze"), "there is no systemd-analyze")
    def test_systemd_reads_it(self):
        """The unit as it stands, but with the path of the program that is tested."""
        with open(UNIT, encoding="utf-8") as file:
            text = file.read().replace("/usr/local/bin/droid_desk", PROGRAM)
        with tempfile.TemporaryDirectory() as folder:
            path = os.path.join(folder, "droid_desk.service")
            with open(path, "w", encoding="utf-8") as file:
                file.write(text)
            done = subprocess.run(["systemd-analyze", "verify", "--man=no", path], capture_output=True, timeout=SECONDS)
        self.assertEqual((done.returncode, done.stderr), (0, b""))


if __name__ == "__main__":
    unittest.main()
