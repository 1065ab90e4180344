"""`submit` to services that send without end. It has this much address space, which a bound on what it takes leaves room
in: so a fault other than Memory shows that it did not take what was sent. A resident bound is looked at beside."""
import hashlib
import os
import re
import resource
import struct
import subprocess
import sys
import tempfile
import unittest

sys.path += [os.path.join(os.path.dirname(os.path.abspath(__file__)), "..", "program", name) for name in ("model", "wire")]

from lib.frames import EXPORT, FINISHED, PART, frame
from lib.lying import Lying, replying, truth, whole_export
from lib.program import PROGRAM
from lib.rows import COLUMNS
from lib.submissions import WithSmallTree, words_of

MIB = 1 << 20
# a run over this small tree takes less than this
SMALL = 32 * MIB
LIMIT = 1 << 30


def peak_of(words, space):
    """Runs a command with this much address space: its status, standard error, and the most that it had in memory."""
    with tempfile.NamedTemporaryFile() as said:
        process = subprocess.Popen(
            words, stdout=subprocess.DEVNULL, stderr=said, preexec_fn=lambda: resource.setrlimit(resource.RLIMIT_AS, (space, space))
        )
        peak = 0
        while process.poll() is None:
            try:
                with open(f"/proc/{process.pid}/status", encoding="ascii") as status:
                    found = [line for line in status if line.startswith("VmHWM")]
                peak = max([peak, *(int(line.split()[1]) * 1024 for line in found)])
            except OSError:
                pass
            try:
                process.wait(0.01)
            except subprocess.TimeoutExpired:
                pass
        said.seek(0)
        return process.returncode, said.read(), peak


def parts(total, text):
    """Answers each request for a part: `total` is announced, and `text` gives the bytes from an offset on."""

    def lie(service, request):
        if request.kind != EXPORT:
            return truth(service, request)
        start, most = struct.unpack_from(">QI", request.body, 4)
        return frame(PART, request.client, request.number, struct.pack(">QQ", 7, total) + text(start, most), 2)

    return lie


def endless(start, most):
    return (COLUMNS + b'"' + b"a" * most)[:most] if start == 0 else b"a" * most


# this many rows have 64 MiB
MORE = 90_000


def row_of(number):
    """Returns the row of a file at the top, of any number with at most six digits."""
    name = (b"%06d" % number) * 36
    digest = hashlib.md5(name).hexdigest().encode()
    fields = (
        *(b"%d" % number, b"", b"file:/" + name, b"/" + name, name, b"", b"Done", b"%d" % number, b"File", b"", b"2020-09-13T12:26:40"),
        *(b"false", digest, b"0", b"", b"", b"", b""),
    )
    return b'"' + b'","'.join(fields) + b'"\n'


def page_in(path):
    """Returns the page in a file, without the moment when it was made."""
    with open(path, "rb") as file:
        return re.sub(rb" at [^ ]+ \(UTC\)", b"", file.read())


class Bounded(WithSmallTree):
    def ends(self, lie, due, space, most):
        with Lying(lie) as service:
            status, said, peak = peak_of(words_of(self.top, service.port, 7), space)
        self.assertEqual((status, said.split(b"\n")[0]), (4, b"fault: " + due), said)
        self.assertLess(peak, most)

    def test_more_than_a_client_reads(self):
        """The first part announces more than the limit: nothing more is asked for."""
        for total in (LIMIT + 1, 1 << 40, 1 << 50, (1 << 64) - 1):
            self.ends(parts(total, endless), b"TooLong", 512 * MIB, SMALL)

    def test_more_than_was_announced(self):
        """Each part has a MiB, and the first announces half of one."""
        self.ends(parts(MIB // 2, endless), b"Stranger", 512 * MIB, SMALL)
        self.ends(parts(3 * MIB - 1, endless), b"Stranger", 512 * MIB, SMALL)

    def test_less_than_was_announced(self):
        """Each part has a byte."""
        self.ends(parts(64 * MIB, lambda start, most: endless(start, 1)), b"Stranger", 512 * MIB, SMALL)

    def test_one_endless_field(self):
        """64 MiB are announced and come: they are no profile. Beside the text at most as much is taken again."""
        self.ends(parts(64 * MIB, endless), b"Reply", 512 * MIB, SMALL + 2 * 64 * MIB)

    def test_page_of_a_long_export(self):
        """64 MiB and some rows come, of files that the folder has not: each is reported. The page is the one that `report`
        makes of them, and takes no more than a multiple of the text."""
        page, rows, made = (self.work + name for name in (b"/page.html", b"/beside/tree", b"/made.html"))
        text = b""

        def lie(service, request):
            nonlocal text
            if request.kind != EXPORT:
                return truth(service, request)
            if not text:
                text = whole_export(service, request) + b"".join(map(row_of, range(5, 5 + MORE)))
            return parts(len(text), lambda start, most: text[start : start + most])(service, request)

        with Lying(lie) as service:
            status, said, peak = peak_of(words_of(self.top, service.port, 7, "--report", page), 1024 * MIB)
        self.assertEqual((status, said.count(b"not in the folder: /"), said.count(b"\n")), (5, MORE, MORE), said[:200])
        os.mkdir(self.work + b"/beside")
        with open(rows, "wb") as file:
            file.write(text)
        subprocess.run([PROGRAM, "report", rows, "--output", made], check=True, timeout=120)
        self.assertGreater(len(text), 64 * MIB)
        self.assertEqual(page_in(page), page_in(made))
        self.assertLess(peak, SMALL + 5 * len(text))

    def test_announced_again_and_again(self):
        """Each first part announces 256 MiB, as of another moment, so that the export is begun again."""
        count = iter(range(1 << 30))

        def lie(service, request):
            if request.kind != EXPORT:
                return truth(service, request)
            start, most = struct.unpack_from(">QI", request.body, 4)
            body = struct.pack(">QQ", next(count), 256 * MIB) + endless(start, most)
            return frame(PART, request.client, request.number, body, 2)

        self.ends(lie, b"Disturbed", 512 * MIB, SMALL)

    def test_formats_without_end(self):
        """Each Finished has 4,096 formats that no other one has; a registry has at most 4,096."""
        count = iter(range(1 << 30))
        for number in range(200):
            self.file(b"/%d.x" % number, b"")

        def lie(service, request):
            reply = truth(service, request)
            if reply[1] != FINISHED:
                return reply
            puids = b"".join(b"\x20%032d" % next(count) for _ in range(4096))
            body = reply[18:18 + 3 + 16] + struct.pack(">H", 4096) + puids
            return replying(FINISHED, body)(service, request)

        with Lying(lie) as service:
            status, said, peak = peak_of(words_of(self.top, service.port, 7), 512 * MIB)
        self.assertEqual((status, said.split(b":")[0]), (5, b"differs"), said[:200])
        self.assertLess(peak, SMALL)


if __name__ == "__main__":
    unittest.main()
