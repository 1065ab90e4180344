"""Frames of both versions, through `run`, on connections to `serve`, and as lines of `send`; and a body of one
byte more than version 2 allows."""

import unittest

from lib.connections import SECONDS, connect, read_exactly, read_until_reset, send_until_reset
from lib.frames import CREATE_PROFILE, FINISH, FINISHED, HEADER, frame, in_version, numbers
from lib.program import Serve, run, send
from send_faults import FakeService, made

# A request as a line of `send` and as a frame, and its reply as a frame and as a line. They come in this order to one
# service, each under the number of its frame.
ROWS = [
    (
        "v2 create 65536 0 sha256",
        "02 01 00000001 0000000000000001 00000006 00010000 00 02",
        "02 81 00000001 0000000000000001 00000004 00000001",
        "made 1",
    ),
    (
        "v2 create 65536 0 sha256",
        "02 01 00000001 0000000000000001 00000006 00010000 00 02",
        "02 81 00000001 0000000000000001 00000004 00000001",
        "made 1",
    ),
    (
        "create 65536 0",
        "01 01 00000001 0000000000000001 00000005 00010000 00",
        "01 88 00000001 0000000000000001 00000001 02",
        "refused 2",
    ),
    (
        "file 1 0 0 0 4 e.txt",
        "01 03 00000001 0000000000000002 00000021 00000001 00000000 0000000000000000 0000000000000000 00000004 652e747874",
        "01 82 00000001 0000000000000002 00000004 00000001",
        "node 1",
    ),
    (
        "finish 1 1",
        "01 05 00000001 0000000000000003 00000008 00000001 00000001",
        "01 88 00000001 0000000000000003 00000001 0a",
        "refused 10",
    ),
    (
        "v2 finish 1 1",
        "02 05 00000001 0000000000000003 00000008 00000001 00000001",
        "02 84 00000001 0000000000000003 0000002b 02 00"
        " 02 e3b0c44298fc1c149afbf4c8996fb92427ae41e4649b934ca495991b7852b855 0001 05 6465762f34",
        "finished Extension false e3b0c44298fc1c149afbf4c8996fb92427ae41e4649b934ca495991b7852b855 dev/4",
    ),
    (
        "finish 1 1",
        "01 05 00000001 0000000000000003 00000008 00000001 00000001",
        "01 88 00000001 0000000000000003 00000001 02",
        "refused 2",
    ),
    (
        "finish 1 1",
        "01 05 00000001 0000000000000004 00000008 00000001 00000001",
        "01 88 00000001 0000000000000004 00000001 0c",
        "refused 12",
    ),
    (
        "file 1 0 0 4194304 4194304 g",
        "01 03 00000001 0000000000000005 0000001d 00000001 00000000 0000000000000000 0000000000400000 00400000 67",
        "01 88 00000001 0000000000000005 00000001 0a",
        "refused 10",
    ),
    (
        "v2 file 1 0 0 4194304 4194304 g",
        "02 03 00000001 0000000000000005 0000001d 00000001 00000000 0000000000000000 0000000000400000 00400000 67",
        "02 82 00000001 0000000000000005 00000004 00000002",
        "node 2",
    ),
    (
        "v2 file 1 0 0 4194305 4194305 h",
        "02 03 00000001 0000000000000006 0000001d 00000001 00000000 0000000000000000 0000000000400001 00400001 68",
        "02 88 00000001 0000000000000006 00000001 0a",
        "refused 10",
    ),
    (
        "v2 create 65536 0 none",
        "02 01 00000001 0000000000000007 00000006 00010000 00 00",
        "02 81 00000001 0000000000000007 00000004 00000002",
        "made 2",
    ),
    (
        "v2 file 2 0 0 0 4 e.txt",
        "02 03 00000001 0000000000000008 00000021 00000002 00000000 0000000000000000 0000000000000000 00000004 652e747874",
        "02 82 00000001 0000000000000008 00000004 00000001",
        "node 1",
    ),
    (
        "v2 finish 2 1",
        "02 05 00000001 0000000000000009 00000008 00000002 00000001",
        "02 84 00000001 0000000000000009 0000000b 02 00 00 0001 05 6465762f34",
        "finished Extension false - dev/4",
    ),
    (
        "v2 status 2 1",
        "02 07 00000001 000000000000000a 00000008 00000002 00000001",
        "02 86 00000001 000000000000000a 00000008 00000000 00000000",
        "progress 0 0",
    ),
]
FRAMES = [(bytes.fromhex(request), bytes.fromhex(reply)) for _, request, reply, _ in ROWS]
REQUESTS = b"".join(request for request, _ in FRAMES)
REPLIES = b"".join(reply for _, reply in FRAMES)
# a body of 4,194,369 bytes
TOO_LONG = bytes.fromhex("02 04 00000001 000000000000000b 00400041")

# Streams, the replies to their frames, and the fault at their end. Requests for a profile have a truth value of 2, a byte too
# many, and a kind of hash that doesn't exist; the last frame's body is too long, its version is 3, its body is a byte too long.
STREAMS = [
    (
        "01 01 00000001 0000000000000001 00000005 00010000 02"
        " 01 01 00000001 0000000000000001 00000006 00010000 00 00"
        " 01 01 00000001 0000000000000001 00000005 00010000 00"
        " 01 01 00000001 0000000000000001 ffffffff 01 01",
        "01 88 00000001 0000000000000001 00000001 01"
        " 01 88 00000001 0000000000000001 00000001 01"
        " 01 81 00000001 0000000000000001 00000004 00000001",
        "TooLong",
    ),
    (
        "02 01 00000001 0000000000000001 00000006 00010000 00 03"
        " 02 01 00000001 0000000000000001 00000006 00010000 00 02"
        " 02 01 00000001 0000000000000001 00000006 00010000 00 02"
        " 01 01 00000001 0000000000000001 00000005 00010000 00"
        " 01 02 00000001 0000000000000002 00000012 00000001 00000000 0000000000000000 696e"
        " 03 01 00000001 0000000000000003 00000000",
        "02 88 00000001 0000000000000001 00000001 01"
        " 02 81 00000001 0000000000000001 00000004 00000001"
        " 02 81 00000001 0000000000000001 00000004 00000001"
        " 01 88 00000001 0000000000000001 00000001 02"
        " 01 82 00000001 0000000000000002 00000004 00000001",
        "BadVersion",
    ),
    ("02 04 00000001 0000000000000003 00400041", "", "TooLong"),
]

BAD_LINES = [
    b"v2 create 65536 0",
    b"create 65536 0 md5",
    b"v2 create 65536 0 sha1",
    b"v2 create 65536 0 md5 ",
    b"v2 1 1 create 65536 0 md5",
    b"v2 v2 create 65536 0 md5",
    b"v2  create 65536 0 md5",
    b" v2 create 65536 0 md5",
    b"V2 create 65536 0 md5",
    b"v1 create 65536 0",
    b"v3 create 65536 0 md5",
    b"create v2 65536 0 md5",
    b"v2",
    b"v2 ",
    b"v2 finish 1",
]


# the frame that client 7 sends for the first profile with SHA-256
CREATED_BY_SHA256 = (CREATE_PROFILE, 7, 1, b"\0\1\0\0\0\2")


def made_in_2(client, number):
    return in_version(2, made(client, number))


def finished_in_2(client, number):
    """The reply about an empty file without a hash."""
    return frame(FINISHED, client, number, b"\2\0\0\0\1\5dev/4", 2)


class BothVersions(unittest.TestCase):
    maxDiff = 500

    def test_by_run(self):
        self.assertEqual(run(["run"], REQUESTS), (0, REPLIES, ""))

    def test_a_body_that_is_too_long(self):
        for rest in (b"", bytes(100)):
            self.assertEqual(run(["run"], REQUESTS + TOO_LONG + rest), (4, REPLIES, "fault: TooLong\n"))

    def test_streams_that_end_in_a_bad_frame(self):
        for requests, replies, fault in STREAMS:
            ended = run(["run"], bytes.fromhex(requests))
            self.assertEqual(ended, (4, bytes.fromhex(replies), f"fault: {fault}\n"))

    def test_each_on_a_connection(self):
        with Serve(len(FRAMES) + 1) as service:
            for request, reply in FRAMES:
                with connect(service.port) as stream:
                    stream.sendall(request)
                    self.assertEqual(read_exactly(stream, len(reply)), reply)
            with connect(service.port) as stream:
                send_until_reset(stream, TOO_LONG)
                self.assertEqual(read_until_reset(stream, 1), b"")

    def test_by_send(self):
        """Sends each line under its own number; some numbers come twice."""
        with Serve(len(ROWS)) as service:
            for (line, _, _, printed), (request, _) in zip(ROWS, FRAMES):
                number = HEADER.unpack_from(request)[3]
                ended = send(service.port, 1, line.encode("ascii"), first=number)
                self.assertEqual(ended, (0, printed.encode("ascii") + b"\n", ""), line)

    def test_bad_lines_of_send(self):
        """They take no number, and nothing is sent for them."""
        lines = b"".join(line + b"\n" for line in BAD_LINES)
        with Serve() as service:
            ended = send(service.port, 1, lines + b"v2 create 65536 0 none\n" + lines + b"create 65536 0\n")
        bad = b"bad line\n" * len(BAD_LINES)
        self.assertEqual(ended, (5, bad + b"made 1\n" + bad + b"made 2\n", ""))

    def test_a_script_of_send(self):
        """Its lines and bad lines of both versions, and the frames that are sent for it."""
        lines = b"v2 create 65536 0\nv2 create 65536 0 sha256\nv2 v2 status 1 1\nv2 finish 1 1\ncreate 65536 0 md5"
        printed = b"bad line\nmade 1\nbad line\nfinished Extension false - dev/4\nbad line\n"
        service = FakeService(made_in_2, finished_in_2, version=2)
        self.assertEqual(send(service.port, 7, lines), (5, printed, ""))
        service.join(SECONDS)
        self.assertEqual(service.received, [CREATED_BY_SHA256, (FINISH, 7, 2, numbers(1, 1))])

    def test_a_reply_in_the_other_version(self):
        service = FakeService(made, version=2)
        self.assertEqual(send(service.port, 7, b"v2 create 65536 0 sha256\n"), (4, b"", "fault: Stranger\n"))
        service.join(SECONDS)
        self.assertEqual(service.received, [CREATED_BY_SHA256])

    def test_frames_of_send(self):
        """`send` sends the version that the line names. Both versions share the numbers."""
        for version, line, body in (
            (1, b"create 65536 0", b"\0\1\0\0\0"),
            (2, b"v2 create 65536 0 none", b"\0\1\0\0\0\0"),
            (2, b"v2 create 65536 0 md5", b"\0\1\0\0\0\1"),
            (2, b"v2 create 65536 1 sha256", b"\0\1\0\0\1\2"),
        ):
            with self.subTest(line=line):
                service = FakeService(lambda *of: in_version(version, made(*of)), version=version)
                self.assertEqual(send(service.port, 7, b"hello\n" + line + b"\n"), (5, b"bad line\nmade 1\n", ""))
                self.assertEqual(service.received, [(1, 7, 1, body)])


if __name__ == "__main__":
    unittest.main()
