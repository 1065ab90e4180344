"""While nothing comes, the program uses no processor and holds back no reply."""

import itertools
import os
import socket
import subprocess
import tempfile
import time
import unittest

import long_session
from lib.connections import SECONDS, connect, read_exactly, read_frame
from lib.frames import HEADER, LIMITS, MADE, create, numbers
from lib.processes import processor_seconds
from lib.program import MORE_OPTIONS, PROGRAM, Serve, preloaded
from lib.rows import COLUMNS, IN_ROW


class Idle(unittest.TestCase):
    def test_no_processor_is_used_between_frames_and_within_one(self):
        whole = create(1, client=7)
        with Serve() as service, connect(service.port) as stream:
            for part in (b"", whole[:5], whole[5:20]):
                stream.sendall(part)
                time.sleep(0.1)
                before = processor_seconds(service.process)
                time.sleep(1)
                self.assertLessEqual(processor_seconds(service.process) - before, 0.05)
            stream.sendall(whole[20:])
            self.assertEqual(read_frame(stream), (MADE, 7, 1, numbers(1)))

    @unittest.skipIf(MORE_OPTIONS, "with --at-once it is closed after a minute")
    def test_one_seat_has_no_idle_limit(self):
        """A client that says nothing for ten minutes keeps its seat: a desk may think."""
        clock = preloaded("STREAMS", CLOCK_TIMES=300)
        with Serve(2, env=clock) as service, connect(service.port) as first, connect(service.port) as second:
            second.sendall(create(1, client=8))
            time.sleep(2)
            first.sendall(create(1, client=7))
            self.assertEqual(read_frame(first), (MADE, 7, 1, numbers(1)))
            first.close()
            self.assertEqual(read_frame(second), (MADE, 8, 1, numbers(2)))

    @unittest.skipIf(MORE_OPTIONS, "with --at-once it is served before")
    def test_a_second_client_is_served_when_the_first_has_gone(self):
        with Serve(2) as service, connect(service.port) as first, connect(service.port) as second:
            second.sendall(create(1, client=8))
            first.sendall(create(1, client=7))
            self.assertEqual(read_frame(first), (MADE, 7, 1, numbers(1)))
            first.close()
            self.assertEqual(read_frame(second), (MADE, 8, 1, numbers(2)))


class NothingHeldBack(unittest.TestCase):
    """Each reply comes whole while only the front of the next frame was sent: nothing of it, its first byte, its
    header, or more than a usual buffer holds."""

    FRONTS = (0, 1, 18, 9_000)

    @classmethod
    def setUpClass(cls):
        cls.steps = {version: long_session.steps(version) for version in LIMITS}
        folder = tempfile.TemporaryDirectory()
        cls.addClassCleanup(folder.cleanup)
        cls.registry = os.path.join(folder.name, "registry.csv")
        with open(cls.registry, "wb") as file:
            file.write(long_session.REGISTRY)

    def test_the_session_goes_to_the_limits(self):
        """The longest body is the longest that a frame may have, and the longest part has 1,048,576 bytes."""
        for version, limits in LIMITS.items():
            longest = [max(map(len, side)) - HEADER.size for side in zip(*self.steps[version])]
            self.assertEqual(longest, [limits.body, 16 + 1_048_576])

    def replies_come(self, stream, steps, front):
        sent = 0
        following = [request for request, _ in steps[1:]] + [b""]
        for (request, reply), after in zip(steps, following):
            ahead = after[: min(front, max(len(after) - 1, 0))]
            stream.sendall(request[sent:] + ahead)
            found = read_exactly(stream, len(reply))
            self.assertTrue(found == reply, (request[:60], reply[:60], found[:60], len(found)))
            sent = len(ahead)

    def test_by_run(self):
        for version, front in itertools.product(LIMITS, self.FRONTS):
            near, far = socket.socketpair()
            near.settimeout(SECONDS)
            words = [PROGRAM, "run", "--registry", self.registry]
            with self.subTest(version=version, front=front), subprocess.Popen(words, stdin=far, stdout=far) as service, near:
                far.close()
                self.replies_come(near, self.steps[version], front)
                near.shutdown(socket.SHUT_WR)
                self.assertEqual((near.recv(1), service.wait(SECONDS)), (b"", 0))

    def test_by_serve(self):
        for version, front in itertools.product(LIMITS, self.FRONTS):
            with self.subTest(version=version, front=front), Serve(options=["--registry", self.registry]) as service:
                with connect(service.port) as stream:
                    self.replies_come(stream, self.steps[version], front)

    def test_by_send(self):
        """A reply is printed while only the front of the next line was sent, also a reply without a line feed."""
        lines = [
            (b"create 65536 0\n", b"made 1\n"),
            (b"folder 1 0 0 in\n", b"node 1\n"),
            (b"export 1 0 7\n", b"part 2 296 7\n" + COLUMNS[:7]),
            (b"hello\n", b"bad line\n"),
            (b"export 1 0 1048576\n", b"part 2 296 296\n" + COLUMNS + IN_ROW),
            (b"status 1 2\n", b"refused 4\n"),
        ]
        near, far = socket.socketpair()
        near.settimeout(SECONDS)
        with Serve() as service:
            words = [PROGRAM, "send", "--port", str(service.port), "--client", "7"]
            with subprocess.Popen(words, stdin=far, stdout=far) as sender, near:
                far.close()
                begun = b""
                following = [line for line, _ in lines[1:]] + [b""]
                for (line, printed), after in zip(lines, following):
                    near.sendall(line[len(begun) :] + after[:3])
                    self.assertEqual(read_exactly(near, len(printed)), printed)
                    begun = after[:3]
                near.shutdown(socket.SHUT_WR)
                self.assertEqual(sender.wait(SECONDS), 5)


if __name__ == "__main__":
    unittest.main()
