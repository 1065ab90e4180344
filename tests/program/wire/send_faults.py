"""The faults of `send`: its service isn't there, closes the connection, or sends a wrong reply."""

import struct
import subprocess
import threading
import unittest

from lib import frames
from lib.connections import SECONDS, free_port, listen, read_frame
from lib.frames import ADD_FOLDER, CREATE_PROFILE, EXPORT, HEADER, LIMITS
from lib.frames import export_body, folder_body, frame, in_version, lines_in_version, profile_body, refusal, reply
from lib.program import PROGRAM, Serve, run, run_plainly, send

CREATE = b"create 65536 0\n"
FOLDER = b"folder 1 0 0 in\n"

# the frames that client 7 sends for these lines: kinds, clients, numbers and bodies
CREATED = (CREATE_PROFILE, 7, 1, profile_body())
CREATED_AGAIN = (CREATE_PROFILE, 7, 2, profile_body())
ADDED = (ADD_FOLDER, 7, 2, folder_body(b"in"))


class FakeService(threading.Thread):
    """Accepts one connection, and answers each frame, of this version, by the next of `answers`, a function of the
    client and the number. Then it closes, or waits until the other end closes."""

    def __init__(self, *answers, closes=False, version=1):
        super().__init__(daemon=True)
        self.listener = listen()
        self.port = self.listener.getsockname()[1]
        self.answers = answers
        self.closes = closes
        self.version = version
        self.received = []
        self.start()

    def run(self):
        stream, _ = self.listener.accept()
        with self.listener, stream:
            stream.settimeout(SECONDS)
            for answer in self.answers:
                self.received.append(read_frame(stream, self.version))
                _, client, number, _ = self.received[-1]
                stream.sendall(answer(client, number))
            if not self.closes:
                stream.recv(1)


def made(client, number):
    return reply(frames.MADE, number, 1, client=client)


def node(client, number):
    return reply(frames.NODE, number, 1, client=client)


def part(client, number):
    return frame(frames.PART, client, number, struct.pack(">QQ", 2, 296) + b'"ID"')


def refused(client, number):
    return refusal(number, 18, client=client)


def bad_option(client, number):
    return refusal(number, 10, client=client)


def made_late(client, number):
    """The answer to the first request, whatever the number of this one is."""
    return made(client, 1)


def nothing(client, number):
    return b""


# bodies of Finished that are malformed in a version: without a hash, those of the other version, unknown hashes, and
# hashes cut short
NO_FINISHED = {
    1: [
        b"\2\0\0\0",
        *(front + b"\0\0\0" for front in (b"\0\0", b"\2\0")),
        b"\0\0\1" + bytes(16) + b"\0\0",
        b"\2\0\2" + b"\7" * 32 + b"\0\0",
    ],
    2: [
        b"\0\0" + bytes(16) + b"\0\0",
        b"\2\0" + b"\7" * 16 + b"\0\0",
        *(front + b"\0\0" for front in (b"\0\0\3", b"\2\0\3", b"\2\0\xff")),
        b"\0\0\2" + bytes(31) + b"\0\0",
        b"\2\0\2" + b"\7" * 31 + b"\0\0",
        b"\2\0\1" + b"\7" * 15 + b"\0\0",
    ],
}
# kinds and bodies of replies, which were written by hand: of both versions, and Finished of each
BODIES = [
    (129, "00000001"), (130, "00000001"), (131, "00000001"), (133, ""), (134, "00000001 00000001"), (136, "01"), (136, "02"),
    (136, "0a"), (136, "0f 00000001"), (136, "10 00000001"), (136, "11 02"),
]
FINISHED = {
    1: ["02 00 d41d8cd98f00b204e9800998ecf8427e 0001 05 6465762f34"],
    2: [
        "02 00 02 e3b0c44298fc1c149afbf4c8996fb92427ae41e4649b934ca495991b7852b855 0001 05 6465762f34",
        "02 00 01 d41d8cd98f00b204e9800998ecf8427e 0001 05 6465762f34",
        "02 00 00 0001 05 6465762f34",
    ],
}
# kinds of requests and unknown kinds, and bodies of each
NO_KINDS = [*range(9), 128, 137, 255]
ANY_BODIES = [b"", b"\0\0\0\1", b"\0\1\0\0\0", bytes(8), bytes(20)]
# numbers of no refusal and of no limit
NO_NUMBERS = [b"\0", b"\x14", b"\xff", b"\x11\0", b"\x11\4", b"\x11\xff"]


def no_replies(version):
    """Returns kinds and malformed bodies of replies in a version: each with any number of bytes less and with a byte more,
    of kinds that no reply has, and with numbers that no refusal has. (A Part may be longer.)"""
    whole = [(kind, bytes.fromhex(body)) for kind, body in BODIES + [(132, body) for body in FINISHED[version]]]
    shorter = [(kind, body[:count]) for kind, body in [*whole, (135, bytes(16))] for count in range(len(body))]
    longer = [(kind, body + b"\0") for kind, body in whole]
    of_no_kind = [(kind, body) for kind in NO_KINDS for body in ANY_BODIES]
    return sorted({*shorter, *longer, *of_no_kind, *((136, body) for body in NO_NUMBERS)})


def sent_in(version, request):
    """Translates a request to a version."""
    kind, client, number, _ = request
    return kind, client, number, in_version(version, frame(*request))[HEADER.size :]


def in_the_other_version(version, reply):
    """Translates a reply to the version that its request is not of."""
    return in_version(3 - version, reply)


def rows_of_faults(version):
    """Returns rows of what comes in the place of replies in a version, and the fault of the last of them."""

    def reply_frame(kind, client, number, body):
        return frame(kind, client, number, body, version)

    def of_version(answer, client, number):
        return in_version(version, answer(client, number))

    made_first = of_version(made, 7, 1)
    return [
        # the connection is closed where a reply is due, or within one
        ([b""], "Closed"),
        ([made_first, b""], "Closed"),
        *(([made_first[:count]], "Truncated") for count in (1, 2, HEADER.size - 1, HEADER.size, HEADER.size + 3)),
        # for another client, for a number never submitted, of another kind, and in the other version
        ([of_version(made, 8, 1)], "Stranger"),
        ([of_version(made, 7, 2)], "Stranger"),
        ([of_version(node, 7, 2)], "Stranger"),
        ([of_version(node, 7, 1)], "Stranger"),
        ([made_first, of_version(node, 7, 1)], "Stranger"),
        ([in_the_other_version(version, made(7, 1))], "Stranger"),
        ([in_the_other_version(version, refused(7, 1))], "Stranger"),
        ([made_first, in_the_other_version(version, made(7, 1))], "Stranger"),
        # a second reply to a number
        ([made_first, made_first], "Repeated"),
        ([made_first, reply_frame(136, 7, 1, b"\x0a")], "Repeated"),
        # a request, and malformed bodies: too short ones, and an unknown refusal
        ([reply_frame(1, 7, 1, b"\0\1\0\0\0")], "Malformed"),
        ([reply_frame(129, 7, 1, b"\0\0\1")], "Malformed"),
        ([reply_frame(136, 7, 1, b"\x14")], "Malformed"),
        ([made_first, reply_frame(130, 7, 2, b"\0\0\1")], "Malformed"),
        *(([reply_frame(132, 7, 1, body)], "Malformed") for body in NO_FINISHED[version]),
        # no frames
        ([b"HTTP/1.1 400 Bad Request\r\n\r\n"], "BadVersion"),
        *(([HEADER.pack(other, 129, 7, 1, 4)], "BadVersion") for other in (0, 3, 255)),
        ([HEADER.pack(version, 129, 7, 1, LIMITS[version].body + 1)], "TooLong"),
        ([HEADER.pack(version, 129, 7, 1, 0xFF000004)], "TooLong"),
    ]


class Faults(unittest.TestCase):
    def ends(self, lines, answers, out, fault, first=None, closes=False, version=1):
        """Checks that `send` over these lines prints this and ends by this fault. Returns the frames that it sent."""
        service = FakeService(*answers, closes=closes, version=version)
        self.assertEqual(send(service.port, 7, lines, first), (4, out, f"fault: {fault}\n"))
        service.join(SECONDS)
        return service.received

    def test_no_listener(self):
        port = free_port()
        status, out, said = run_plainly(["send", "--port", port, "--client", 7], CREATE)
        self.assertEqual((status, out), (4, b""))
        self.assertEqual(said, f"fault: Socket\nnobody listens on port {port}: start droid_desk serve --port {port} first\n")

    def test_replies(self):
        """The first reply is the fault, or the second one."""
        for version in LIMITS:
            for replies, fault in rows_of_faults(version):
                for line, second in ((CREATE, CREATED_AGAIN), (FOLDER, ADDED)):
                    with self.subTest(version=version, replies=replies, line=line):
                        answers = [lambda *of, answer=answer: answer for answer in replies]
                        printed = b"made 1\n" * (len(replies) - 1)
                        closes = fault in ("Closed", "Truncated")
                        lines = lines_in_version(version, CREATE + line)
                        received = self.ends(lines, answers, printed, fault, closes=closes, version=version)
                        self.assertEqual(received, [sent_in(version, sent) for sent in (CREATED, second)][: len(replies)])

    def test_malformed_replies(self):
        for version in LIMITS:
            for kind, body in no_replies(version):
                with self.subTest(version=version, kind=kind, body=body):
                    answer = frame(kind, 7, 1, body, version)
                    lines = lines_in_version(version, CREATE)
                    self.ends(lines, [lambda *of, answer=answer: answer], b"", "Malformed", version=version)

    def test_numbers_used_up(self):
        last = 2**63 - 1
        for line in (CREATE, FOLDER):
            with self.subTest(line=line):
                received = self.ends(CREATE + line, [made], b"made 1\n", "NumbersUsedUp", first=last)
                self.assertEqual([number for _, _, number, _ in received], [last])

    def test_a_writer_without_room(self):
        service = FakeService(made)
        with open("/dev/full", "wb") as full:
            status, _, said = run(["send", "--port", service.port, "--client", 7], CREATE, out=full)
        self.assertEqual((status, said), (4, "fault: Write\n"))


class Lines(unittest.TestCase):
    def test_a_refusal_is_printed_and_the_next_line_goes_on(self):
        service = FakeService(refused, made)
        self.assertEqual(send(service.port, 7, CREATE + CREATE), (0, b"refused 18\nmade 1\n", ""))
        service.join(SECONDS)
        self.assertEqual([number for _, _, number, _ in service.received], [1, 2])

    def test_a_refused_number_stays_pending(self):
        """Its late answer is taken where the next reply is due."""
        for second, printed in ((node, b"node 1\n"), (made_late, b"made 1\n")):
            with self.subTest(printed=printed):
                service = FakeService(bad_option, second)
                self.assertEqual(send(service.port, 7, CREATE + FOLDER), (0, b"refused 10\n" + printed, ""))
                service.join(SECONDS)
                self.assertEqual(service.received, [CREATED, ADDED])

    def test_a_last_line_without_a_line_feed(self):
        service = FakeService(made, node)
        lines = CREATE + b"1 1 create 65536 0\n\n" + FOLDER[:-1]
        self.assertEqual(send(service.port, 7, lines), (5, b"made 1\nbad line\nbad line\nnode 1\n", ""))
        service.join(SECONDS)
        self.assertEqual(service.received, [CREATED, ADDED])

    def test_a_bad_line_takes_no_number(self):
        service = FakeService(made, made)
        lines = CREATE + b"hello\n1 2 create 65536 0\n\n" + CREATE
        printed = b"made 1\nbad line\nbad line\nbad line\nmade 1\n"
        self.assertEqual(send(service.port, 7, lines), (5, printed, ""))
        service.join(SECONDS)
        self.assertEqual(service.received, [CREATED, CREATED_AGAIN])

    def test_frames_that_are_sent(self):
        service = FakeService(made, node, part)
        printed = b'made 1\nnode 1\npart 2 296 4\n"ID"'
        self.assertEqual(send(service.port, 7, CREATE + FOLDER + b"export 1 0 1048576"), (0, printed, ""))
        service.join(SECONDS)
        shown = (EXPORT, 7, 3, export_body())
        self.assertEqual(service.received, [CREATED, ADDED, shown])

    def test_a_fault_comes_before_a_bad_line(self):
        service = FakeService(nothing, closes=True)
        self.assertEqual(send(service.port, 7, b"hello\n" + CREATE), (4, b"bad line\n", "fault: Closed\n"))

    def test_no_lines(self):
        with Serve() as service:
            self.assertEqual(send(service.port, 7, b""), (0, b"", ""))

    def test_a_reply_comes_before_the_next_line_is_waited_for(self):
        with Serve() as service:
            sender = subprocess.Popen(
                [PROGRAM, "send", "--port", str(service.port), "--client", "7"], stdin=subprocess.PIPE, stdout=subprocess.PIPE
            )
            for number in (1, 2):
                sender.stdin.write(CREATE)
                sender.stdin.flush()
                self.assertEqual(sender.stdout.readline(), b"made %d\n" % number)
            sender.stdin.close()
            self.assertEqual(sender.wait(SECONDS), 0)
            sender.stdout.close()


if __name__ == "__main__":
    unittest.main()
