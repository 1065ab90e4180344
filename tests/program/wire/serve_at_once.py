"""`serve --at-once`: many connections at once, in turns, with one service."""

import random
import select
import socket
import struct
import threading
import time
import unittest

from lib.connections import HOST, SECONDS, connect, read_exactly, read_frame, read_until_reset, reset
from lib.frames import ADD_FOLDER, CAUSES, CREATE_PROFILE, MADE, NODE, REFUSED, STATUS
from lib.frames import folder_body, frame, profile_body, refusal, status
from lib.program import Serve
from run_command import REQUESTS, SESSION, session_in

# a Status of a profile that nobody has made, and its reply: NoSuchProfile
NOTHING = status(1, 1, client=9)
NO_PROFILE = refusal(1, CAUSES["NoSuchProfile"], client=9)


def at_once(seats, *options, connections=None):
    return Serve(connections, ["--at-once", str(seats), *options])


def lasting(seats, *options, env=None):
    return Serve(None, ["--at-once", str(seats), "--forever", *options], env=env, killed=True)


def is_closed(stream, seconds=SECONDS):
    """Whether the service closes the connection within this time, without a byte."""
    stream.settimeout(seconds)
    try:
        return stream.recv(1) == b""
    except (TimeoutError, ConnectionResetError) as error:
        return isinstance(error, ConnectionResetError)


def slow_reader(port):
    """Connects with little room for what comes."""
    stream = socket.socket()
    stream.setsockopt(socket.SOL_SOCKET, socket.SO_RCVBUF, 65_536)
    stream.settimeout(SECONDS)
    stream.connect((HOST, port))
    return stream


class ServeAtOnce(unittest.TestCase):
    def test_the_stored_session(self):
        for version in (1, 2):
            requests, replies = session_in(version)
            with self.subTest(version=version), at_once(1) as service, connect(service.port) as stream:
                stream.sendall(requests)
                stream.shutdown(socket.SHUT_WR)
                self.assertEqual(read_exactly(stream, len(replies) + 1), replies)

    def test_cut_at_each_byte(self):
        """A desk beside it is served to its end, wherever the other one stops, and whether that one ends or waits."""
        with lasting(3) as service:
            for cut in range(len(REQUESTS)):
                with connect(service.port) as waits:
                    waits.sendall(REQUESTS[:cut])
                    with connect(service.port) as asks:
                        asks.sendall(NOTHING)
                        self.assertEqual(read_frame(asks)[0], REFUSED, cut)

    def test_one_byte_at_a_time(self):
        with at_once(2) as service, connect(service.port) as stream:
            for request, reply in SESSION:
                for byte in request:
                    stream.sendall(bytes([byte]))
                got = b"".join(read_exactly(stream, 1) for _ in reply)
                self.assertEqual(got, reply)

    def test_a_seat_is_waited_for(self):
        with at_once(1, connections=2) as service, connect(service.port) as first:
            first.sendall(NOTHING)
            self.assertEqual(read_frame(first)[0], REFUSED)
            with connect(service.port) as second:
                second.sendall(NOTHING)
                second.settimeout(0.5)
                with self.assertRaises(TimeoutError):
                    second.recv(1)
                first.close()
                # long before the first one would have been idle
                second.settimeout(SECONDS)
                self.assertEqual(read_frame(second)[0], REFUSED)

    def test_an_idle_one_is_closed(self):
        """After two seconds, and not before, while another one asks all the time."""
        with at_once(2, "--idle", "2", connections=2) as service:
            begun = time.monotonic()
            with connect(service.port) as idle, connect(service.port) as other:
                idle.sendall(REQUESTS[:10])
                while not select.select([idle], [], [], 0)[0]:
                    other.sendall(NOTHING)
                    self.assertEqual(read_frame(other)[0], REFUSED)
                    self.assertLess(time.monotonic() - begun, SECONDS)
                self.assertGreater(time.monotonic() - begun, 1.99)
                self.assertTrue(is_closed(idle))

    def test_idle_ones_of_each_kind(self):
        """One that is silent, one within a header, one within a body, and one that was answered: each is closed after a
        second, and not before."""
        with lasting(4, "--idle", "1") as service:
            begun = time.monotonic()
            streams = [connect(service.port) for _ in range(4)]
            for stream, sent in zip(streams, (b"", NOTHING[:7], NOTHING[:-1], NOTHING)):
                stream.sendall(sent)
            self.assertEqual(read_frame(streams[3])[0], REFUSED)
            self.assertNotEqual(select.select(streams, [], [], SECONDS)[0], [])
            self.assertGreater(time.monotonic() - begun, 0.99)
            for stream in streams:
                self.assertTrue(is_closed(stream))
                stream.close()

    def test_one_that_takes_nothing(self):
        """A desk that reads no reply and sends nothing more is closed after two seconds, and not at once: then the next one
        has its seat. The service has read all that it sent."""
        asked = 350_000
        with lasting(1, "--idle", "2", "--verbose") as service, slow_reader(service.port) as deaf, connect(service.port) as waits:
            waits.sendall(NOTHING)
            deaf.sendall(NOTHING * (asked - 1))
            begun = time.monotonic()
            deaf.sendall(NOTHING)
            self.assertEqual(read_frame(waits)[0], REFUSED)
            # (a turn whose clock was read before may have read its last byte)
            self.assertGreater(time.monotonic() - begun, 1)
            line = service.process.stderr.readline()
            while not line.startswith(b"connection "):
                line = service.process.stderr.readline()
            self.assertRegex(line.decode(), rf": {asked} frames, {asked * len(NOTHING)} bytes in, \d+ bytes out, idle\n$")

    def test_a_byte_now_and_then(self):
        """A desk that sends a byte every half second is not idle; one that takes a byte as often gets all replies; and neither holds
        up another one."""
        asked, times = 200_000, 6
        with lasting(4, "--idle", "2") as impatient, lasting(4) as service:
            with connect(impatient.port) as writes, slow_reader(service.port) as reads, connect(service.port) as asks:
                sender = threading.Thread(target=reads.sendall, args=(NOTHING * asked,), daemon=True)
                sender.start()
                for place in range(times):
                    writes.sendall(NOTHING[place : place + 1])
                    self.assertEqual(len(reads.recv(1)), 1)
                    for _ in range(100):
                        asks.sendall(NOTHING)
                        self.assertEqual(read_frame(asks)[0], REFUSED)
                    time.sleep(0.5)
                writes.sendall(NOTHING[times:])
                reply = read_exactly(writes, len(NO_PROFILE))
                self.assertEqual(reply, NO_PROFILE)
                replies = read_exactly(reads, asked * len(reply) - times)
                self.assertTrue(replies == (reply * asked)[times:], len(replies))
                sender.join(SECONDS)

    def test_a_port_scan(self):
        """Connections that are reset, that say nothing, or that speak another language. A desk beside them is served."""
        talks = (b"", b"\0", b"GET / HTTP/1.1\r\n\r\n", b"\x16\x03\x01\x02\0\x01\0\x01\xfc\x03\x03", b"SSH-2.0-scan\r\n", b"\xff" * 5_000)
        with lasting(3) as service, connect(service.port) as desk:
            for talk in talks * 20:
                for end in (reset, socket.socket.close):
                    stream = connect(service.port)
                    stream.sendall(talk)
                    end(stream)
                    desk.sendall(NOTHING)
                    self.assertEqual(read_frame(desk)[0], REFUSED)

    def test_replies_that_nobody_reads(self):
        """A desk that reads no reply is not read any more; the other one is."""
        with lasting(2) as service, connect(service.port) as deaf, connect(service.port) as asks:
            deaf.settimeout(1)
            with self.assertRaises(TimeoutError):
                while True:
                    deaf.sendall(NOTHING * 10_000)
            asks.sendall(NOTHING)
            self.assertEqual(read_frame(asks)[0], REFUSED)

    def test_a_bad_frame_closes_one(self):
        with at_once(2, connections=2) as service:
            with connect(service.port) as good, connect(service.port) as bad:
                bad.sendall(NOTHING + frame(STATUS, 1, 1, version=3))
                self.assertEqual(read_frame(bad)[0], REFUSED)
                self.assertEqual(read_until_reset(bad, 1), b"")
                good.sendall(NOTHING)
                self.assertEqual(read_frame(good)[0], REFUSED)

    def test_many_desks_by_chance(self):
        """Each desk makes a profile and folders in it, in pieces by chance; each gets its own replies, in order."""
        chance = random.Random(52)
        desks = 32
        with at_once(16, connections=desks) as service:
            streams = [connect(service.port) for _ in range(16)]
            left = list(range(16, desks))
            waiting = []
            for client, stream in enumerate(streams):
                waiting.append((client, stream, self.requests_of(client)))
            profiles = set()
            while waiting:
                place = chance.randrange(len(waiting))
                client, stream, rest = waiting[place]
                size = chance.randrange(1, 60)
                stream.sendall(rest[:size])
                waiting[place] = client, stream, rest[size:]
                if not rest[size:]:
                    waiting.pop(place)
                    stream.shutdown(socket.SHUT_WR)
                    profiles.add(self.check_replies(client, stream))
                    stream.close()
                    if left:
                        later = left.pop()
                        waiting.append((later, connect(service.port), self.requests_of(later)))
            self.assertEqual(profiles, set(range(1, desks + 1)))

    def requests_of(self, client):
        """The requests of a client: a profile, and ten folders in profile 1, which another client may not have made yet."""
        return frame(CREATE_PROFILE, client, 1, profile_body()) + b"".join(
            frame(ADD_FOLDER, client, number, folder_body(b"%d-%d" % (client, number))) for number in range(2, 12)
        )

    def check_replies(self, client, stream):
        """Checks a client's replies, and returns the number of its profile."""
        kind, of, number, body = read_frame(stream)
        self.assertEqual((kind, of, number), (MADE, client, 1))
        (profile,) = struct.unpack(">I", body)
        for number in range(2, 12):
            kind, of, got, _ = read_frame(stream)
            self.assertEqual((kind, of, got), (NODE, client, number))
        self.assertEqual(stream.recv(1), b"")
        return profile

    def test_opened_and_closed(self):
        with lasting(4) as service:
            for _ in range(500):
                connect(service.port).close()
            with connect(service.port) as stream:
                stream.sendall(NOTHING)
                self.assertEqual(read_frame(stream)[0], REFUSED)


if __name__ == "__main__":
    unittest.main()
