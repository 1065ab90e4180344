"""`serve --at-once`: every order of turns, requests and replies in pieces, and connections that end, break or wait beside others
that are served to their ends."""

import contextlib
import itertools
import random
import re
import socket
import time
import unittest
from concurrent.futures import ThreadPoolExecutor

from lib.connections import SECONDS, connect, read_exactly, read_until_reset, reset
from lib.frames import ADD_FILE, NODE, REFUSED, create, cut, folder, frame, numbers
from lib.program import preloaded
from serve_at_once import is_closed, lasting

# how many services are tried at once
PROCESSES = 4
# two requests of version 1 and one of version 2 between them, which are malformed, and their replies
ENDS = [0, 18, 37, 57]
VERSIONS = {1: 1, 2: 2, 3: 1}


def requests_of(client):
    return b"".join(frame(ADD_FILE, client, number, bytes([it]) * (number - 1), it) for number, it in VERSIONS.items())


def replies_to(client, count=3):
    return b"".join(frame(REFUSED, client, number, b"\1", VERSIONS[number]) for number in range(1, count + 1))


REPLIES = len(replies_to(1))


def whole_in(size):
    """How many of the requests are whole in this many bytes."""
    return sum(end <= size for end in ENDS[1:])


def with_profile(service):
    """Makes a profile on a connection of its own."""
    with connect(service.port) as stream:
        stream.sendall(create(1, client=1_000))
        read_exactly(stream, 22)


def reasons(service, count):
    """The reasons of the next connections that end, sorted."""
    lines = []
    while len(lines) < count:
        line = service.process.stderr.readline().decode("ascii")
        assert line
        if line.startswith("connection "):
            lines.append(line.rsplit(", ", 1)[1].rstrip())
    return sorted(lines)


class Orders(unittest.TestCase):
    @staticmethod
    def folder_of(client, number):
        return folder(number, b"%d-%d" % (client, number), client, 1 + number % 2)

    def test_every_order(self):
        """Three clients send two requests each, one after the other, in each of the 90 orders. The numbers of nodes show the
        places of the requests."""
        orders = sorted(set(itertools.permutations((0, 0, 1, 1, 2, 2))))
        self.assertEqual(len(orders), 90)
        with lasting(3) as service:
            with_profile(service)
            node = 0
            for client, order in enumerate(orders):
                streams = [connect(service.port) for _ in range(3)]
                for number, who in enumerate(order, 1):
                    node += 1
                    whose = 3 * client + who
                    streams[who].sendall(folder(number, b"%d" % node, client=whose))
                    due = frame(NODE, whose, number, numbers(node))
                    self.assertEqual(read_exactly(streams[who], len(due)), due, order)
                for stream in streams:
                    stream.shutdown(socket.SHUT_WR)
                    self.assertEqual(stream.recv(1), b"", order)
                    stream.close()

    def test_sent_ahead(self):
        """Two clients send a hundred requests each before they read a reply."""
        with lasting(2) as service:
            with_profile(service)
            streams = [connect(service.port) for _ in range(2)]
            for client, stream in enumerate(streams):
                stream.sendall(b"".join(self.folder_of(client, number) for number in range(100)))
                stream.shutdown(socket.SHUT_WR)
            self.assertEqual(sorted(self.nodes(streams, 100)), list(range(1, 201)))

    def nodes(self, streams, count):
        """Reads all replies, each of which has to be for the next request of its client: the nodes in them."""
        found = []
        for client, stream in enumerate(streams):
            replies = list(cut(read_exactly(stream, 1 << 20)))
            stream.close()
            self.assertEqual([it[:4] for it in replies], [(1 + number % 2, NODE, client, number) for number in range(count)])
            nodes = [int.from_bytes(it.body, "big") for it in replies]
            self.assertEqual(nodes, sorted(nodes))
            found += nodes
        return found

    def test_pieces_by_chance(self):
        """Four clients at three seats send three requests each in pieces by chance, and the service writes its replies so."""
        with lasting(3, env=preloaded("STREAMS", SEND_CHANCE=7)) as service:
            with_profile(service)
            for seed in range(60):
                chance, width = random.Random(seed), 1 + seed % 50
                streams = [connect(service.port) for _ in range(4)]
                left = [b"".join(self.folder_of(4 * seed + client, number) for number in range(3)) for client in range(4)]
                while any(left):
                    who = chance.choice([place for place, rest in enumerate(left) if rest])
                    size = chance.randrange(1, width + 1)
                    streams[who].sendall(left[who][:size])
                    left[who] = left[who][size:]
                    if not left[who]:
                        streams[who].shutdown(socket.SHUT_WR)
                came = [list(cut(read_exactly(stream, 1 << 20))) for stream in streams]
                for stream in streams:
                    stream.close()
                self.check(seed, came)

    def check(self, seed, came):
        """Each client got its replies in order, and no request was handled twice."""
        nodes = []
        for client, replies in enumerate(came):
            due = [(1 + at % 2, NODE, 4 * seed + client, at) for at in range(3)]
            self.assertEqual([it[:4] for it in replies], due, seed)
            own = [int.from_bytes(it.body, "big") for it in replies]
            self.assertEqual(own, sorted(own), seed)
            nodes += own
        self.assertEqual(sorted(nodes), list(range(12 * seed + 1, 12 * seed + 13)), seed)


class Pieces(unittest.TestCase):
    def served(self, service, sizes):
        """Three clients send their requests in pieces of these sizes, which come one by one: each gets its replies."""
        streams = [connect(service.port) for _ in range(3)]
        for stream in streams:
            stream.setsockopt(socket.IPPROTO_TCP, socket.TCP_NODELAY, 1)
        for start in range(0, ENDS[-1], sizes):
            for client, stream in enumerate(streams):
                stream.sendall(requests_of(client)[start : start + sizes])
            time.sleep(0.001)
        for client, stream in enumerate(streams):
            stream.shutdown(socket.SHUT_WR)
            self.assertEqual(read_exactly(stream, REPLIES + 1), replies_to(client), sizes)
            stream.close()

    def of_length(self, length):
        """Reads or writes of this length, and both."""
        with lasting(3, env=preloaded("STREAMS", SEND_WIDTH=length)) as service:
            self.served(service, length)
            self.served(service, ENDS[-1])

    def test_reads_and_writes_of_each_length(self):
        with lasting(3) as service:
            for length in range(1, REPLIES + 1):
                self.served(service, length)
        with ThreadPoolExecutor(PROCESSES) as pool:
            list(pool.map(self.of_length, range(1, REPLIES + 1)))


class Failures(unittest.TestCase):
    """One connection of three ends or breaks at each of its bytes: the two others are served to their ends."""

    def others_are_served(self, service, size, end, reason):
        """The second client sends the first `size` bytes and ends so: it gets the replies to its whole requests."""
        streams = [connect(service.port) for _ in range(3)]
        for client, stream in enumerate(streams):
            stream.sendall(requests_of(client)[: size if client == 1 else ENDS[-1]])
        self.assertEqual(read_exactly(streams[1], whole_in(size) * REPLIES // 3), replies_to(1, whole_in(size)), size)
        end(streams[1])
        for client in (0, 2):
            streams[client].shutdown(socket.SHUT_WR)
            self.assertEqual(read_exactly(streams[client], REPLIES + 1), replies_to(client), size)
        self.assertEqual(reasons(service, 3), sorted(["closed", "closed", reason]), size)
        for stream in streams:
            stream.close()

    def ends(self, stream):
        stream.shutdown(socket.SHUT_WR)
        self.assertEqual(stream.recv(1), b"")

    def test_cut_at_each_byte(self):
        with lasting(3, "--verbose") as service:
            for size in range(ENDS[-1] + 1):
                self.others_are_served(service, size, self.ends, "closed" if size in ENDS else "truncated")

    def test_broken_at_each_byte(self):
        with lasting(3, "--verbose") as service:
            for size in range(ENDS[-1] + 1):
                self.others_are_served(service, size, reset, "read")

    def unwritten(self, room):
        """Writes to the second client fail once, behind this many bytes: nothing more is written to it, and nothing twice."""
        with lasting(3, "--verbose", env=preloaded("STREAMS", SEND_FAILS_ONCE=REPLIES + room)) as service:
            for client in range(3):
                with connect(service.port) as stream:
                    stream.sendall(requests_of(client))
                    due = replies_to(client)[: room if client == 1 else REPLIES]
                    self.assertEqual(read_until_reset(stream, len(due)), due, room)
                    if client != 1:
                        stream.shutdown(socket.SHUT_WR)
                    self.assertEqual(read_until_reset(stream, 1), b"", room)
            self.assertEqual(reasons(service, 3), ["closed", "closed", "write"], room)

    def test_unwritten_at_each_byte(self):
        with ThreadPoolExecutor(PROCESSES) as pool:
            list(pool.map(self.unwritten, range(REPLIES)))


class Waits(unittest.TestCase):
    def test_silent_ones_are_idle(self):
        """Six clients at two seats get their replies and then say nothing. Each is closed a minute later, by a clock that goes
        faster, and not before."""
        times = 100
        fast = preloaded("STREAMS", CLOCK_TIMES=times, WAITS_TIMES=times)
        with lasting(2, "--verbose", "--idle", "60", env=fast) as service:
            begun = time.monotonic()
            streams = []
            for client in range(6):
                streams.append(connect(service.port))
                streams[client].sendall(requests_of(client))
            for client, stream in enumerate(streams):
                self.assertEqual(read_exactly(stream, REPLIES), replies_to(client))
            for stream in streams:
                self.assertTrue(is_closed(stream))
                stream.close()
            self.assertGreaterEqual((time.monotonic() - begun) * times, 180)
            self.assertEqual(reasons(service, 6), ["idle"] * 6)

    def fails_at(self, waits):
        """Each connection is closed, with the first of all its replies until then, and the service ends."""
        with lasting(3, "--verbose", env=preloaded("STREAMS", WAITS=waits)) as service:
            streams = []
            with contextlib.suppress(OSError):
                for _ in range(3):
                    streams.append(connect(service.port))
                for place in range(1_000):
                    for client, stream in enumerate(streams):
                        stream.sendall(requests_of(client)[place % ENDS[-1]:][:1])
                    time.sleep(0.0005)
            came = [read_until_reset(stream, 1 << 20) for stream in streams]
            for stream in streams:
                stream.close()
            self.assertEqual(service.process.wait(SECONDS), 4)
            said = service.process.stderr.read().decode("ascii")
        for client, replies in enumerate(came):
            self.assertTrue((replies_to(client) * 20).startswith(replies), waits)
        self.assertIn("\nfault: Socket\n", said)
        found = re.findall(r"^connection .*, (\w+)$", said, re.M)
        self.assertEqual(set(found), {"stopped"} if waits else set(), (waits, said))

    def test_waits_that_fail_in_each_turn(self):
        with ThreadPoolExecutor(PROCESSES) as pool:
            list(pool.map(self.fails_at, range(40)))


if __name__ == "__main__":
    unittest.main()
