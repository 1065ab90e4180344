"""A submission ends early, by a broken connection or a kill, and is resumed by the same command."""
import os
import subprocess
import time
import unittest

from lib.frames import PIECE, cut, numbers
from lib.program import Serve
from lib.submissions import PIECE as PIECE_SIZE
from lib.submissions import Proxy, Relay, WithSmallTree, WithTree, cuts_by, fault, submit, words_of
from lib.trees import walk

BROKEN = "port %d: the connection broke and could not be made again within 0 seconds: run the same command again to resume"


def size_of(top):
    """Adds up the sizes of all files, by Python's own walk."""
    return sum(int(row["SIZE"]) for row in walk(top)[0] if row["SIZE"])


class Resumed(WithTree):
    def test_ended_and_resumed(self):
        with Serve.lasting() as service:
            for seed in range(8):
                with Proxy(service.port, cuts_by(seed, 9_000)) as proxy:
                    ended = submit(self.top, proxy.port, 7, "--export", self.export, "--wait", "0")
                # the rest may fit into one connection
                self.assertIn(ended, [(4, fault("Broken", BROKEN % proxy.port)), (0, b"")])
                self.assertEqual(os.path.exists(self.export), ended[0] == 0)
                if ended[0] == 0:
                    break
            for wait in (0.0, 0.005, 0.01, 0.02):
                with subprocess.Popen(words_of(self.top, service.port, 8), stdout=subprocess.DEVNULL) as process:
                    time.sleep(wait)
                    process.kill()
            for client in (7, 8):
                self.assertEqual(submit(self.top, service.port, client, "--export", self.export), (0, b""))
                self.same(self.exported(), walk(self.top)[0])

    def test_sent_pieces_are_not_read(self):
        size = size_of(self.top)
        with Serve.lasting() as service:
            _, err = submit(self.top, service.port, 7, quiet=False)
            self.assertIn(b"bytes read: %d\n" % size, err)
            status, err = submit(self.top, service.port, 7, quiet=False)
        self.assertEqual(status, 0)
        self.assertIn(b"bytes read: 0\n", err)


class Unfinished(WithSmallTree):
    """The first run ends when its fifth request comes, the second of a.bin's three pieces."""

    def end_early(self, port):
        with Relay(port, lambda relay, *_: len(relay.frames) < 5) as relay:
            self.assertEqual(submit(self.top, relay.port, 7, "--wait", "0")[0], 4)

    def test_nothing_is_read_again(self):
        """Where each read would fail, a second run of a whole submission is as the first."""
        failing = os.environ | {"LD_PRELOAD": os.environ["PRELOAD_READS"], "PREAD_FAILS": "1"}
        with Serve.lasting() as service:
            self.assertEqual(submit(self.top, service.port, 7), (0, b""))
            self.assertEqual(submit(self.top, service.port, 7, env=failing), (0, b""))

    def test_rest_of_a_file(self):
        with Serve.lasting() as service:
            self.end_early(service.port)
            with Proxy(service.port, iter([None])) as proxy:
                status, err = submit(self.top, proxy.port, 7, "--export", self.export, quiet=False)
                frames = list(cut(proxy.sent))
        there = b"bytes that were there: %d\nbytes read: %d\n" % (PIECE_SIZE, size_of(self.top) - PIECE_SIZE)
        self.assertEqual(status, 0)
        self.assertIn(there, err)
        self.assertEqual([frame.body[:12] for frame in frames if frame.kind == PIECE][:2], [numbers(1, 1, 1), numbers(1, 1, 2)])
        self.same(self.exported(), walk(self.top)[0])

    def test_changed_in_place_meanwhile(self):
        """With its size and moment. The service has the old first piece, so the hash is not that of the file."""
        with open(self.top + b"/a.bin", "rb") as file:
            content = file.read()
        with Serve.lasting() as service:
            self.end_early(service.port)
            self.file(b"/a.bin", bytes([content[0] ^ 1]) + content[1:], 1_000_000_000)
            differs = b"skipped: /a.bin: its hash in the profile is another\nskipped in all: 1\n"
            self.assertEqual(submit(self.top, service.port, 7), (5, differs))

    def test_changed_meanwhile(self):
        """A file that has changed is another file: the old one stays unfinished, and keeps the name."""
        with Serve.lasting() as service:
            self.end_early(service.port)
            self.file(b"/a.bin", b"another", 1_000_000_001)
            ended = submit(self.top, service.port, 7)
        self.assertEqual(ended, (5, b"skipped: /a.bin: changed since it was submitted\nskipped in all: 1\n"))

    def test_removed_meanwhile(self):
        """What is unfinished is not in the profile."""
        with Serve.lasting() as service:
            self.end_early(service.port)
            os.remove(self.top + b"/a.bin")
            self.assertEqual(submit(self.top, service.port, 7, "--export", self.export), (0, b""))
        self.has(self.exported(), walk(self.top)[0])


if __name__ == "__main__":
    unittest.main()
