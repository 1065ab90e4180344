"""Runs `serve` again and again, and refuses another of its allocations each time (tests/memory/refuse.c)."""

import contextlib
import os
import socket
import subprocess
import tempfile
import unittest

from lib.connections import SECONDS, connect, exchange, free_port, read_until_reset
from lib.frames import HEADER, LIMITS, in_version, refusal
from lib.program import PROGRAM, faults, preloaded
from run_command import REPLIES, SESSION, session_in

CONNECTIONS = 3
MEMORY = b"fault: Memory\n"


ANSWERS = [reply for _, reply in SESSION]
NUMBERS = [1, 2, 2, 2]
# the frames that could be read are answered: none where there is no memory for the connection itself
FRONTS = {b"".join(ANSWERS[:count]) for count in range(len(ANSWERS))}
# one request is refused for memory (18); without a profile the rest are refused too (3)
SHORT = {b"".join(ANSWERS[:at] + [refusal(NUMBERS[at], 18)] + ANSWERS[at + 1 :]) for at in range(len(ANSWERS))}
WITHOUT_PROFILE = refusal(1, 18) + refusal(2, 3) * 3


def requests_in(version):
    return [in_version(version, request) for request, _ in SESSION]


def one_by_one(port, session):
    """Sends a session on one connection after the other, and yields what comes on each."""
    for _ in range(CONNECTIONS):
        yield exchange(port, b"".join(session), len(REPLIES) + 1)


def together(port, session):
    """Sends a session on connections that are open at once, a request on each in turn once the one before has its reply, and
    returns what comes on each."""
    with contextlib.ExitStack() as opened:
        streams = [opened.enter_context(connect(port)) for _ in range(CONNECTIONS)]
        came = [b"" for _ in streams]
        for request in session:
            for place, stream in enumerate(streams):
                with contextlib.suppress(OSError):
                    stream.sendall(request)
                came[place] += reply_on(stream)
        for place, stream in enumerate(streams):
            with contextlib.suppress(OSError):
                stream.shutdown(socket.SHUT_WR)
            came[place] += read_until_reset(stream, 1)
        return came


def reply_on(stream):
    """Reads a reply, or nothing where the connection has ended."""
    header = read_until_reset(stream, HEADER.size)
    return header + read_until_reset(stream, HEADER.unpack(header)[4]) if header else b""


def served(session, options=(), way=one_by_one, **variables):
    """Runs `serve` over connections with these requests: its status, its standard error, and what came on each
    connection; no connection is made where the program ended before."""
    port = free_port()
    words = [PROGRAM, "serve", "--port", str(port), "--connections", str(CONNECTIONS), *options]
    with subprocess.Popen(
        words, stdin=subprocess.DEVNULL, stdout=subprocess.PIPE, stderr=subprocess.PIPE, env=preloaded("REFUSE", **variables)
    ) as service:
        is_there = service.stdout.readline() == b"listening %d\n" % port
        came = []
        # (with --at-once it may run out of memory once it listens)
        with contextlib.suppress(ConnectionError):
            if is_there:
                for replies in way(port, session):
                    came.append(replies)
        _, said = service.communicate(timeout=SECONDS)
    return service.returncode, faults(said), came


class ServeMemory(unittest.TestCase):
    def allocations(self, session, replies, options=(), way=one_by_one):
        with tempfile.TemporaryDirectory() as folder:
            path = os.path.join(folder, "count")
            self.assertEqual(served(session, options, way, ALLOCATIONS=path), (0, b"", [replies] * CONNECTIONS))
            with open(path, encoding="ascii") as file:
                return int(file.read())

    def test_each_allocation_refused(self):
        for version in LIMITS:
            self.each_allocation_refused(version)

    def each_allocation_refused(self, version):
        """There is no service, or no list of connections; or it goes on: a refused allocation affects one connection alone."""
        session, whole = requests_in(version), session_in(version)[1]
        found = set()
        for number in range(1, self.allocations(session, whole) + 1):
            with self.subTest(version=version, number=number):
                status, said, came = served(session, REFUSE=number)
                found.add((status, *came[:1]))
                self.affects_one(version, status, said, came)
        self.assertLessEqual({(3,), (6,), (0, b""), (0, in_version(version, WITHOUT_PROFILE))}, found)

    def test_each_allocation_refused_at_once(self):
        """With more seats."""
        options = ["--at-once", "2"]
        session, whole = requests_in(2), session_in(2)[1]
        found = set()
        for number in range(1, self.allocations(session, whole, options) + 1):
            with self.subTest(number=number):
                status, said, came = served(session, options, REFUSE=number)
                found.add((status, *came[:1]))
                self.affects_one(2, status, said, came)
        self.assertLessEqual({(3,), (6,), (0, b""), (0, in_version(2, WITHOUT_PROFILE))}, found)

    def affects_one(self, version, status, said, came):
        """Whether the refused allocation ended the service before it served anyone, or affected one connection alone."""
        if status:
            self.assertIn((status, said), {(3, MEMORY), (6, MEMORY), (4, MEMORY), (4, b"fault: Socket\n")})
            self.assertEqual(set(came) - {b""}, set())
            return
        self.assertEqual((said, len(came)), (b"", CONNECTIONS))
        others = [replies for replies in came if replies != session_in(version)[1]]
        self.assertLessEqual(len(others), 1, others)
        self.assertLessEqual(set(others), {in_version(version, replies) for replies in {*FRONTS, *SHORT, WITHOUT_PROFILE}})

    def test_each_allocation_refused_of_connections_at_once(self):
        """They are open at once, and each is affected by some. Allocations are refused from the last one on, up to some in a
        row without which nobody is served."""
        options = ["--at-once", str(CONNECTIONS)]
        session, whole = requests_in(1), session_in(1)[1]
        affected, without = set(), 0
        for number in range(self.allocations(session, whole, options, together), 0, -1):
            with self.subTest(number=number):
                status, said, came = served(session, options, together, REFUSE=number)
                self.affects_one(1, status, said, came)
                affected |= {place for place, replies in enumerate(came) if replies != whole}
                without = without + 1 if status else 0
            if without == 5:
                break
        self.assertEqual((affected, without), (set(range(CONNECTIONS)), 5))


if __name__ == "__main__":
    unittest.main()
