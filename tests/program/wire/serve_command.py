"""`serve`: frames on connections to a port, one connection after the other, with one service."""

import os
import socket
import struct
import tempfile
import threading
import unittest
from hashlib import md5

from lib.connections import SECONDS, connect, listen, read_exactly, read_frame, read_until_reset, reset
from lib.connections import send_until_reset
from lib.frames import FINISHED, HEADER, LIMITS, export, file, finish, folder, piece
from lib.program import Serve, run, run_plainly, send
from lib.rows import COLUMNS, IN_ROW
from run_command import CREATE, FOLDER, MADE, MALFORMED, MOST_FRAMES, NODE, REPLIES, REQUESTS, SESSION, SHORT_FINISH
from run_command import session_in

# the whole export of profile 1
EXPORT_1 = export(9)
SHOWN = (2, len(COLUMNS) + len(IN_ROW))


def rows_shown(stream):
    """Asks how many commands were accepted, and how long the export of profile 1 is."""
    stream.sendall(EXPORT_1)
    kind, client, number, body = read_frame(stream)
    assert (kind, client, number) == (135, 1, 9), (kind, client, number)
    return struct.unpack(">QQ", body[:16])


def finished(method, content, *puids):
    """Returns the reply to the Finish of a file with this content, under number 4, without a mismatch."""
    texts = b"".join(bytes([len(puid)]) + puid for puid in puids)
    return FINISHED, 1, 4, method + b"\0" + md5(content).digest() + struct.pack(">H", len(puids)) + texts


class ServeCommand(unittest.TestCase):
    def test_the_stored_session(self):
        with Serve() as service, connect(service.port) as stream:
            for request, reply in SESSION:
                stream.sendall(request)
                self.assertEqual(read_exactly(stream, len(reply)), reply)

    def test_all_at_once_and_then_the_end_of_writing(self):
        with Serve() as service, connect(service.port) as stream:
            stream.sendall(REQUESTS)
            stream.shutdown(socket.SHUT_WR)
            self.assertEqual(read_exactly(stream, len(REPLIES) + 1), REPLIES)

    def test_the_next_connection_sees_the_same_service(self):
        """Wherever the first one is cut, the whole session sent then gets the usual replies, and is done once."""
        for version in LIMITS:
            requests, replies = session_in(version)
            for size in (0, 1, 22, 23, 24, 40, 58, 59, 60, 131, 132):
                with self.subTest(version=version, size=size), Serve(2) as service:
                    with connect(service.port) as first:
                        first.sendall(requests[:size])
                    with connect(service.port) as second:
                        second.sendall(requests)
                        self.assertEqual(read_exactly(second, len(replies)), replies)
                        self.assertEqual(rows_shown(second), SHOWN)

    def test_what_is_kept_is_kept_over_connections(self):
        with Serve(3) as service:
            with connect(service.port) as stream:
                stream.sendall(CREATE)
                self.assertEqual(read_exactly(stream, len(MADE)), MADE)
            with connect(service.port) as stream:
                stream.sendall(FOLDER)
                self.assertEqual(read_exactly(stream, len(NODE)), NODE)
            with connect(service.port) as stream:
                self.assertEqual(rows_shown(stream), SHOWN)

    def test_the_number_of_connections(self):
        for count in (None, 1, 2, 5):
            with self.subTest(count=count), Serve(count) as service:
                for _ in range(count or 1):
                    with connect(service.port) as stream:
                        stream.sendall(SHORT_FINISH)
                        self.assertEqual(read_exactly(stream, len(MALFORMED)), MALFORMED)
                self.assertEqual(service.process.wait(SECONDS), 0)
                with self.assertRaises(ConnectionRefusedError):
                    connect(service.port)

    def test_no_more_than_a_million_frames_of_a_connection_are_answered(self):
        """The next connection is served then, and may have as many."""
        with Serve(2) as service:
            with connect(service.port) as stream:
                sent = SHORT_FINISH * (MOST_FRAMES + 1)
                sender = threading.Thread(target=send_until_reset, args=(stream, sent), daemon=True)
                sender.start()
                answered = 0
                while part := read_until_reset(stream, len(MALFORMED) * 1_000):
                    self.assertEqual(part, MALFORMED * 1_000)
                    answered += 1_000
                sender.join(SECONDS)
            self.assertEqual(answered, MOST_FRAMES)
            with connect(service.port) as stream:
                stream.sendall(CREATE)
                self.assertEqual(read_exactly(stream, len(MADE)), MADE)

    def test_a_bad_frame_ends_its_connection_alone(self):
        rests = [b"\x09" + CREATE[1:], CREATE[:17], CREATE[:22], b"GET / HTTP/1.1\r\n\r\n"]
        rests += [HEADER.pack(version, 1, 1, 1, limits.body + 1) for version, limits in LIMITS.items()]
        with Serve(len(rests) + 1) as service:
            for rest in rests:
                with connect(service.port) as stream:
                    stream.sendall(SHORT_FINISH + rest)
                    stream.shutdown(socket.SHUT_WR)
                    self.assertEqual(read_exactly(stream, len(MALFORMED) + 1), MALFORMED)
            with connect(service.port) as stream:
                stream.sendall(CREATE)
                self.assertEqual(read_exactly(stream, len(MADE)), MADE)

    def test_a_client_that_is_gone_before_its_replies(self):
        with Serve(2) as service:
            stream = connect(service.port)
            stream.sendall(SHORT_FINISH * 1_000)
            reset(stream)
            with connect(service.port) as stream:
                stream.sendall(CREATE)
                self.assertEqual(read_exactly(stream, len(MADE)), MADE)

    def test_a_part_comes_whole(self):
        """An export of some hundred thousand bytes."""
        names = [b"%0250d" % number for number in range(200)]
        with Serve() as service, connect(service.port) as stream:
            stream.sendall(CREATE)
            self.assertEqual(read_exactly(stream, len(MADE)), MADE)
            for number, name in enumerate(names, 2):
                stream.sendall(folder(number, name))
                self.assertEqual(read_frame(stream)[0], 130)
            stream.sendall(export(900))
            kind, _, number, body = read_frame(stream)
            self.assertEqual((kind, number), (135, 900))
            as_of, total = struct.unpack(">QQ", body[:16])
            self.assertEqual((as_of, total), (201, len(body) - 16))
            self.assertEqual(body[16:].count(b"\n"), 201)
            for name in names:
                self.assertIn(b'"/' + name + b'"', body)

    def test_it_is_reached_at_127_0_0_1_alone(self):
        """127.0.0.2 is an address of this machine too, which reaches a program that listens on all of them."""
        with socket.create_server(("0.0.0.0", 0)) as everywhere:
            socket.create_connection(("127.0.0.2", everywhere.getsockname()[1]), timeout=SECONDS).close()
        with Serve() as service:
            with self.assertRaises(ConnectionRefusedError):
                socket.create_connection(("127.0.0.2", service.port), timeout=SECONDS)
            with connect(service.port) as stream:
                stream.sendall(CREATE)
                self.assertEqual(read_exactly(stream, len(MADE)), MADE)

    def test_the_last_port(self):
        last = 65_535
        with Serve(2, port=last) as service:
            with connect(service.port) as stream:
                stream.sendall(CREATE)
                self.assertEqual(read_exactly(stream, len(MADE)), MADE)
            self.assertEqual(send(last, 1, b"create 65536 0\nfolder 1 0 0 in\n"), (0, b"made 1\nnode 1\n", ""))

    def test_files_are_identified_by_the_registry(self):
        """By a signature of a given registry, or of the sample."""
        with tempfile.TemporaryDirectory() as folder:
            own = os.path.join(folder, "own.csv")
            with open(own, "w", encoding="ascii") as file:
                file.write("F,own/1,Own,,,\nS,own/1,BOF,0,0,6F776E\n")
            rows = [
                (["--registry", own], b"own", finished(b"\1", b"own", b"own/1")),
                (["--registry", own], b"message", finished(b"\0", b"message")),
                ([], b"own", finished(b"\0", b"own")),
                ([], b"message", finished(b"\1", b"message", b"dev/1")),
            ]
            for options, content, reply in rows:
                with self.subTest(options=options, content=content), Serve(options=options) as service:
                    self.assertEqual(self.end_of_a_file(service.port, content), reply)

    @staticmethod
    def end_of_a_file(port, content):
        """Sends a file of one piece in a new profile, and returns the reply to its Finish."""
        size = len(content)
        requests = [
            CREATE,
            file(2, b"f", size, size),
            piece(3, 1, 0, content),
            finish(4, 1),
        ]
        with connect(port) as stream:
            for request in requests:
                stream.sendall(request)
                reply = read_frame(stream)
        return reply

    def test_a_port_in_use(self):
        with listen() as listener:
            port = listener.getsockname()[1]
            status, out, said = run_plainly(["serve", "--everyday", "--port", port])
        self.assertEqual((status, out), (4, b""))
        self.assertEqual(said, f"fault: Socket\nport {port} is in use: choose another, or stop the program that listens on it\n")

    def test_an_output_without_room(self):
        with listen() as listener:
            port = listener.getsockname()[1]
        with open("/dev/full", "wb") as full:
            status, _, said = run(["serve", "--port", port], out=full)
        self.assertEqual((status, said), (4, "fault: Write\n"))


if __name__ == "__main__":
    unittest.main()
