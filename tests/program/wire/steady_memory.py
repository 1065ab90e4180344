"""The memory of `run` and `serve`. A repeat, a refusal or a query leaves nothing; of a file's pieces no more stays than
docs/SERVICE.md says; a connection leaves nothing, and of those that are open no more is kept than that page says."""

import contextlib
import time
import unittest

from lib.connections import connect, read_exactly
from lib.frames import HEADER, LIMITS, MADE, NODE, PART, PIECE, PROGRESS, REFUSED, TAKEN
from lib.frames import create, export, file, folder, frame, piece, refusal, status
from lib.processes import resident
from lib.program import Run, Serve
from serve_at_once import slow_reader

# the replies to some of these are cached, and the rest are read from the database
KEPT = 600
BATCH = 1_000
BEFORE, COUNTED = 10_000, 100_000
# less than a byte for each request
ROOM = COUNTED

PIECE_SIZE, PIECES = 32_768, 2_000
# two windows of the scan limit, and sixteen pieces
ROOM_OF_PIECES = 2 * 65_536 + 16 * PIECE_SIZE

CONNECTIONS, FIRST_CONNECTIONS = 1_000, 100
# less than a hundred bytes for each connection
ROOM_OF_CONNECTIONS = 100 * (CONNECTIONS - FIRST_CONNECTIONS)


# requests that are sent many times, by their count; the kind of all their replies, and the length of these
QUESTIONS = {
    "a kept command": (lambda count: folder(10 + count % KEPT, b"f%d" % (count % KEPT)), NODE, 4),
    "a kept number for something else": (lambda count: folder(10 + count % KEPT, b"other"), REFUSED, 1),
    "a command that is refused, by a new client": (lambda count: folder(1, b"f1", client=100 + count), REFUSED, 1),
    "a piece that is held": (lambda count: piece(10_000 + count, KEPT + 1, 1, b"b"), REFUSED, 1),
    "a status": (lambda count: status(10_000 + count, KEPT + 1), PROGRESS, 8),
    "a part of an export": (lambda count: export(10_000 + count, profile=2, most=9), PART, 25),
    "no request": (lambda count: frame(9, count, count, b"body"), REFUSED, 1),
}


class SteadyMemory(unittest.TestCase):
    def setUp(self):
        self.service = Run()
        self.addCleanup(self.service.__exit__)
        for number in (1, 2):
            self.ask([create(number)], MADE, 4)

    def ask(self, requests, kind, length):
        """Sends these at once, and checks that all replies are of this kind, with bodies of this length."""
        self.service.near.sendall(b"".join(requests))
        size = HEADER.size + length
        replies = read_exactly(self.service.near, size * len(requests))
        self.assertEqual((len(replies), set(replies[1::size])), (size * len(requests), {kind}))

    def ask_many(self, question, first, count):
        request, kind, length = question
        for start in range(first, first + count, BATCH):
            self.ask([request(place) for place in range(start, start + BATCH)], kind, length)

    def test_requests_without_effect_leave_nothing(self):
        self.ask([folder(10 + place, b"f%d" % place) for place in range(KEPT)], NODE, 4)
        self.ask([file(3, b"e", 3, 1)], NODE, 4)
        self.ask([piece(4, KEPT + 1, 1, b"b")], TAKEN, 4)
        for name, question in QUESTIONS.items():
            with self.subTest(name=name):
                self.ask_many(question, 0, BEFORE)
                before = resident(self.service.process)
                self.ask_many(question, BEFORE, COUNTED)
                self.assertLess(resident(self.service.process) - before, ROOM)

    def growth_by_pieces(self, node, size):
        """Measures by how much all pieces of a file, of this size, make the memory grow."""
        number = 10_000 * node
        self.ask([file(number, b"%d" % node, size * PIECES, size)], NODE, 4)
        before = resident(self.service.process)
        for index in range(PIECES):
            self.ask([piece(number + 1 + index, node, index, bytes(size))], TAKEN, 4)
        return resident(self.service.process) - before

    def test_no_more_of_the_pieces_is_kept_than_documented(self):
        """The database keeps as much of a small piece as of a large one."""
        small = self.growth_by_pieces(1, 1)
        self.assertLess(self.growth_by_pieces(2, PIECE_SIZE) - small, ROOM_OF_PIECES)


class SteadyConnections(unittest.TestCase):
    """Each connection has buffers, and may end within a frame. Nothing of that stays."""

    REQUEST = frame(9, 1, 1, b"body")
    REPLY = refusal(1, 1)

    def serve_some(self, service, count):
        for place in range(count):
            with connect(service.port) as stream:
                stream.sendall(self.REQUEST + self.REQUEST[: place % len(self.REQUEST)])
                self.assertEqual(read_exactly(stream, len(self.REPLY)), self.REPLY)

    def test_nothing_is_kept_of_a_connection(self):
        with Serve(CONNECTIONS) as service:
            self.serve_some(service, FIRST_CONNECTIONS)
            before = resident(service.process)
            self.serve_some(service, CONNECTIONS - FIRST_CONNECTIONS - 1)
            self.assertLess(resident(service.process) - before, ROOM_OF_CONNECTIONS)
            self.serve_some(service, 1)


class ManyConnections(unittest.TestCase):
    """Of each connection that is open at once (`--at-once`): twice the bytes of a frame that came, 64 KiB for reading, and 9 MiB of
    replies that wait."""

    SEATS = 64
    LONG = LIMITS[2].body
    HEADER_OF_LONG = HEADER.pack(2, PIECE, 1, 1, LONG)
    BUFFER, WAITING = 65_536, 9 << 20
    # beside these a connection has some small things, and the allocator its own
    ROOM = 16_384
    # pages of an allocator are not counted exactly: a bound is TIMES times what is promised, and what is excluded costs more
    TIMES = 3
    ASKED, FOLDERS = 300, 400

    def setUp(self):
        self.open = contextlib.ExitStack()
        self.addCleanup(self.open.close)
        self.service = self.open.enter_context(Serve(None, ["--at-once", str(self.SEATS), "--forever"], killed=True))
        self.asks = self.connected()

    def connected(self, connect_by=connect):
        """Connects, and returns the stream when the service has accepted it."""
        stream = self.open.enter_context(connect_by(self.service.port))
        self.answered(stream)
        return stream

    def answered(self, stream):
        stream.sendall(SteadyConnections.REQUEST)
        reply = SteadyConnections.REPLY
        self.assertEqual(read_exactly(stream, len(reply)), reply)

    def grown(self, before):
        """By how much the memory has grown, when all that was sent is read."""
        for _ in range(3):
            self.answered(self.asks)
        return resident(self.service.process) - before

    def grown_at_last(self, before, bound):
        """By how much the memory has grown, when the service has seen that connections were closed."""
        for _ in range(100):
            grown = self.grown(before)
            if grown < bound:
                break
            time.sleep(0.05)
        return grown

    def test_a_frame_takes_memory_as_it_comes(self):
        """A header that claims 4 MiB takes none. Closed connections leave nothing."""
        streams = [self.connected() for _ in range(self.SEATS - 1)]
        before = resident(self.service.process)
        for stream in streams:
            stream.sendall(self.HEADER_OF_LONG)
        self.assertLess(self.grown(before), len(streams) * self.ROOM)
        for sent, size in ((0, 100_000), (100_000, self.LONG - 1)):
            for stream in streams:
                stream.sendall(bytes(size - sent))
            grown = self.grown(before)
            self.assertGreater(grown, len(streams) * size // self.TIMES)
            self.assertLess(grown, len(streams) * (self.TIMES * size + self.ROOM))
        for stream in streams:
            stream.close()
        # the allocator may keep some of it for what comes next, and these were 63
        few = 4 * self.LONG
        self.assertLess(self.grown_at_last(before, few), few)

    def test_connections_take_a_buffer_each(self):
        before = resident(self.service.process)
        streams = [self.connected() for _ in range(self.SEATS - 1)]
        self.assertLess(self.grown(before), len(streams) * self.TIMES * (self.BUFFER + self.ROOM))

    def test_replies_that_wait(self):
        """Desks that ask for parts of an export, and read none."""
        self.asks.sendall(create(1) + b"".join(folder(2 + at, b"%0255d" % at) for at in range(self.FOLDERS)))
        size = HEADER.size + 4
        self.assertEqual(len(read_exactly(self.asks, size * (1 + self.FOLDERS))), size * (1 + self.FOLDERS))
        self.asks.sendall(export(1_000))
        part = read_exactly(self.asks, HEADER.size)
        _, kind, _, _, length = HEADER.unpack(part)
        self.assertEqual((kind, len(read_exactly(self.asks, length))), (PART, length))
        self.assertGreater(length * self.ASKED, self.TIMES * 3 * self.WAITING)
        streams = [self.connected(slow_reader) for _ in range(8)]
        before = resident(self.service.process)
        for stream in streams:
            stream.sendall(export(1_001) * self.ASKED)
        grown = self.grown(before)
        while (later := self.grown(before)) > grown:
            grown = later
        self.assertGreater(grown, len(streams) * self.WAITING // self.TIMES)
        self.assertLess(grown, len(streams) * self.TIMES * self.WAITING)


if __name__ == "__main__":
    unittest.main()
