"""The bodies of requests as `send` writes them, and of replies as it reads them: each kind, each field at its limits, in both
versions. The bytes were written by hand."""

import struct
import unittest

from lib.connections import SECONDS
from lib.frames import FINISHED, LIMITS, PART, frame, lines_in_version, refusal
from lib.program import Serve, send
from send_faults import FakeService

# lines, the kinds of their requests, and the bodies in version 1; those of version 2 are the same but for `create`
REQUESTS = [
    (b"create 65536 0", 1, "00010000 00"),
    (b"folder 1 0 0 in", 2, "00000001 00000000 0000000000000000 696e"),
    (b"file 1 2 -1 14 4 m.msg", 3, "00000001 00000002 ffffffffffffffff 000000000000000e 00000004 6d2e6d7367"),
    (b"piece 1 1 3 7374", 4, "00000001 00000001 00000003 7374"),
    (b"finish 1 2", 5, "00000001 00000002"),
    (b"abandon 1 2", 6, "00000001 00000002"),
    (b"status 1 2", 7, "00000001 00000002"),
    (b"export 1 0 1048576 all type=Folder", 8, "00000001 0000000000000000 00100000 01 01 07 01"),
    # any of: method Signature; format `dev/1` or the empty text; extension `msg`; a mismatch; at least 15 bytes; at most
    # 2^64 - 1 bytes; a file
    (
        b"export 1 9 1 any method=Signature puid=dev/1, ext=msg mismatch=true atleast=15 atmost=18446744073709551615 type=File",
        8,
        "00000001 0000000000000009 00000001 00 07 01 01 02 02 05 6465762f31 00 03 01 03 6d7367 04 01"
        " 05 000000000000000f 06 ffffffffffffffff 07 00",
    ),
    (b"export 1 9 1 any ext=msg,", 8, "00000001 0000000000000009 00000001 00 01 03 02 03 6d7367 00"),
]
# lines of version 2, and the kinds and bodies of their requests
PROFILES = [
    (b"v2 create 65536 0 none", 1, "00010000 00 00"),
    (b"v2 create 65536 0 md5", 1, "00010000 00 01"),
    (b"v2 create 65536 0 sha256", 1, "00010000 00 02"),
]

# the two numbers of a Part
NUMBERS_OF_PART = "0000000000000005 8000000000000001"
# lines, the kinds and bodies of their replies, and what is printed
REPLIES = [
    (b"create 65536 0", 129, "00000001", b"made 1\n"),
    (b"folder 1 0 0 in", 130, "00000001", b"node 1\n"),
    (b"piece 1 1 0 61", 131, "ff000010", b"taken 4278190096\n"),
    (b"abandon 1 1", 133, "", b"abandoned\n"),
    (b"status 1 1", 134, "00000003 00000102", b"progress 3 258\n"),
    (b"export 1 0 1048576", 135, NUMBERS_OF_PART + "22494422", b'part 5 9223372036854775809 4\n"ID"'),
    (b"export 1 0 1048576", 135, NUMBERS_OF_PART, b"part 5 9223372036854775809 0\n"),
    *((b"create 65536 0", 136, "%02x" % number, b"refused %d\n" % number) for number in (*range(1, 15), 18, 19)),
    (b"create 65536 0", 136, "0f 00000007", b"refused 15 7\n"),
    (b"create 65536 0", 136, "10 00010000", b"refused 16 65536\n"),
    (b"create 65536 0", 136, "10 00000001", b"refused 16 1\n"),
    (b"create 65536 0", 136, "11 01", b"refused 17 profiles\n"),
    (b"create 65536 0", 136, "11 02", b"refused 17 nodes\n"),
    (b"create 65536 0", 136, "11 03", b"refused 17 unfinished\n"),
]
FINISH = b"finish 1 1"
# the digests of no bytes (RFC 1321 and FIPS 180-4)
MD5_OF_NOTHING = "d41d8cd98f00b204e9800998ecf8427e"
SHA256_OF_NOTHING = "e3b0c44298fc1c149afbf4c8996fb92427ae41e4649b934ca495991b7852b855"
FINISHED_BY_HASH = {
    1: [("02 00 " + MD5_OF_NOTHING + " 0001 05 6465762f34", MD5_OF_NOTHING)],
    2: [
        ("02 00 02 " + SHA256_OF_NOTHING + " 0001 05 6465762f34", SHA256_OF_NOTHING),
        ("02 00 01 " + MD5_OF_NOTHING + " 0001 05 6465762f34", MD5_OF_NOTHING),
        ("02 00 00 0001 05 6465762f34", "-"),
    ],
}
# Finished: the first two bytes, the count of identifiers, and these with their lengths; and what is printed before and behind
# the digest, or None where it is no reply. Methods, truth values, counts and lengths at and over their limits.
FINISHED_BODIES = [
    ("0000", 0, b"", (b"none false", b"-")),
    ("0101", 0, b"", (b"Signature true", b"-")),
    ("0200", 0, b"", (b"Extension false", b"-")),
    ("0300", 0, b"", None),
    ("ff00", 0, b"", None),
    ("0102", 0, b"", None),
    # (an empty identifier)
    ("0100", 1, b"\0", None),
    ("0100", 1, b"\x20" + b"a" * 32, (b"Signature false", b"a" * 32)),
    ("0100", 1, b"\x21" + b"a" * 33, None),
    ("0100", 1, b"\1\xff", None),
    ("0100", 2, b"\1a\2bc", (b"Signature false", b"a,bc")),
    ("0100", 1, b"\1a\2bc", None),
    ("0100", 3, b"\1a\2bc", None),
    ("0100", 4_096, b"\1x" * 4_096, (b"Signature false", b",".join([b"x"] * 4_096))),
    ("0100", 4_097, b"\1x" * 4_097, None),
]
LONGEST_PART = 1_048_576
# filters: the numbers of criteria, of texts in each and of bytes in each text; and the length of the body, or None where the
# line is bad. Seventeen lists of 255 texts of 255 bytes are more than a body of version 1 can hold.
FILTERS = [
    (255, 1, 0, 783),
    (256, 1, 0, None),
    (1, 255, 255, 65_300),
    (1, 256, 0, None),
    (1, 1, 255, 276),
    (1, 1, 256, None),
    (16, 255, 255, 1_044_530),
    (17, 255, 255, None),
]


def finished_body(version, head, count, puids):
    hash = bytes([1]) if version == 2 else b""
    return bytes.fromhex(head) + hash + bytes.fromhex(MD5_OF_NOTHING) + struct.pack(">H", count) + puids


def replying(version, kind, body):
    """Returns an answer of FakeService: this reply."""
    return lambda client, number: frame(kind, client, number, body, version)


class SendBodies(unittest.TestCase):
    maxDiff = 500

    def received(self, version, lines, first=None):
        """Sends these lines of a version, all of which are refused: the frames that came."""
        service = FakeService(*[lambda client, number: refusal(number, 10, client=client, version=version)] * len(lines), version=version)
        ended = send(service.port, 7, b"\n".join(lines), first)
        self.assertEqual(ended, (0, b"refused 10\n" * len(lines), ""))
        service.join(SECONDS)
        return service.received

    def test_requests(self):
        lines, kinds, bodies = zip(*REQUESTS)
        bodies = [bytes.fromhex(body) for body in bodies]
        for version in LIMITS:
            # (`create` of version 2 is below)
            start = 1 if version == 2 else 0
            sent = [b"v2 " + line for line in lines[start:]] if version == 2 else lines
            due = [(kind, 7, number, body) for number, (kind, body) in enumerate(zip(kinds[start:], bodies[start:]), 1)]
            self.assertEqual(self.received(version, sent), due)

    def test_profiles_of_version_2(self):
        due = [(kind, 7, 258 + place, bytes.fromhex(body)) for place, (_, kind, body) in enumerate(PROFILES)]
        self.assertEqual(self.received(2, [line for line, _, _ in PROFILES], 258), due)

    def test_a_first_number(self):
        service = FakeService(replying(1, 129, b"\0\0\0\x09"))
        self.assertEqual(send(service.port, 7, b"create 65536 0\n", 258), (0, b"made 9\n", ""))
        service.join(SECONDS)
        self.assertEqual(service.received, [(1, 7, 258, b"\0\1\0\0\0")])

    def test_replies(self):
        for version in LIMITS:
            rows = [(line, kind, bytes.fromhex(body), printed) for line, kind, body, printed in REPLIES]
            for body, digest in FINISHED_BY_HASH[version]:
                printed = b"finished Extension false %s dev/4\n" % digest.encode("ascii")
                rows.append((FINISH, FINISHED, bytes.fromhex(body), printed))
            for head, count, puids, found in FINISHED_BODIES:
                if found:
                    printed = b"finished %s %s %s\n" % (found[0], MD5_OF_NOTHING.encode("ascii"), found[1])
                    rows.append((FINISH, FINISHED, finished_body(version, head, count, puids), printed))
            service = FakeService(*(replying(version, kind, body) for _, kind, body, _ in rows), version=version)
            lines = lines_in_version(version, b"".join(line + b"\n" for line, _, _, _ in rows))
            ended = send(service.port, 7, lines)
            self.assertEqual(ended, (0, b"".join(printed for *_, printed in rows), ""))

    def is_malformed(self, version, line, kind, body):
        service = FakeService(replying(version, kind, body), version=version)
        ended = send(service.port, 7, lines_in_version(version, line + b"\n"))
        self.assertEqual(ended, (4, b"", "fault: Malformed\n"), (version, kind, body[:60]))

    def test_malformed_finished(self):
        for version in LIMITS:
            for head, count, puids, found in FINISHED_BODIES:
                if not found:
                    self.is_malformed(version, FINISH, FINISHED, finished_body(version, head, count, puids))

    def test_the_longest_part(self):
        """It has the same length in both versions. One byte more is no reply."""
        line, sevens = b"export 1 0 1048576", int.from_bytes(b"\7" * 8, "big")
        for version in LIMITS:
            service = FakeService(replying(version, PART, b"\7" * (16 + LONGEST_PART)), version=version)
            printed = b"part %d %d %d\n" % (sevens, sevens, LONGEST_PART) + b"\7" * LONGEST_PART
            ended = send(service.port, 7, lines_in_version(version, line + b"\n"))
            self.assertTrue(ended == (0, printed, ""), (version, ended[0], ended[2], len(ended[1])))
            self.is_malformed(version, line, PART, b"\7" * (17 + LONGEST_PART))

    def test_limits_of_filters(self):
        lines = [
            b"export 1 9 1 any" + (b" ext=" + b",".join([b"a" * length] * texts)) * criteria for criteria, texts, length, _ in FILTERS
        ]
        due = [size for *_, size in FILTERS if size]
        service = FakeService(*[lambda client, number: refusal(number, 3, client=client)] * len(due))
        printed = b"".join(b"refused 3\n" if size else b"bad line\n" for *_, size in FILTERS)
        given = b"\n".join(lines)
        self.assertEqual(send(service.port, 7, given), (5, printed, ""))
        service.join(SECONDS)
        self.assertEqual([len(body) for *_, body in service.received], due)
        # they are read as requests, for a profile that nobody has made
        with Serve() as real:
            self.assertEqual(send(real.port, 7, given), (5, printed, ""))


if __name__ == "__main__":
    unittest.main()
