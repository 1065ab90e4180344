"""Runs of `submit`, folders to submit, and proxies that cut connections or act between two frames."""
import csv
import io
import os
import random
import select
import subprocess

from lib.connections import Listening, connect, read_frame
from lib.frames import Frame, frame
from lib.program import PROGRAM
from lib.trees import InFolder

PIECE = 512
# what `submit` prints of a CSV that no profile has: its port, the record and the column
NO_PROFILE = (
    "port %d: the CSV that came is not that of a profile: record %d is wrong in %s: this is a mistake in droid_desk or in the"
    " service"
)


def words_of(folder, port, client, *words, piece=PIECE, quiet=True):
    """Returns the command line of a `submit`."""
    quietly = ["--quiet"] if quiet else []
    return [PROGRAM, "submit", folder, "--port", str(port), "--client", str(client), "--piece-size", str(piece), *quietly, *words]


def submit_and_print(folder, port, client, *words, piece=PIECE, quiet=True, **more):
    """Runs `submit`: its status, its standard output and its standard error."""
    run = subprocess.run(words_of(folder, port, client, *words, piece=piece, quiet=quiet), capture_output=True, timeout=120, **more)
    return run.returncode, run.stdout, run.stderr


def submit(folder, port, client, *words, **more):
    """Runs `submit`: its status and its standard error. Standard output has to have the profile's number, unless the
    command ended early."""
    status, out, err = submit_and_print(folder, port, client, *words, **more)
    printed = out.removeprefix(b"profile ").removesuffix(b"\n").isdigit()
    assert printed or (status not in (0, 5) and out == b""), (status, out, err)
    return status, err


def fault(name, sentence):
    """Returns what a command prints on standard error that ends with this fault."""
    return f"fault: {name}\n{sentence}\n".encode()


class Proxy(Listening):
    """Passes connections to its port on to another port, and cuts each after a number of bytes, both ways together: the
    next of `cuts`, or never where that is None. `sent` has what the clients sent."""

    def __init__(self, to, cuts):
        super().__init__()
        self.to = to
        self.cuts = cuts
        self.count = 0
        self.ended = False
        self.sent = b""

    def stop(self):
        self.ended = True
        super().stop()

    def take(self, stream):
        with connect(self.to) as service:
            if self.hand_on(stream, service, next(self.cuts)):
                self.count += 1

    def hand_on(self, client, service, left):
        """Passes this many bytes on, and returns whether it cut the connection then."""
        while not self.ended:
            ready = select.select([client, service], [], [], 0.1)[0]
            for one, other in ((client, service), (service, client)):
                if one not in ready:
                    continue
                try:
                    part = one.recv(4096 if left is None else min(4096, left + 1))
                    if not part:
                        return False
                    if one is client:
                        self.sent += part
                    if left is not None and len(part) > left:
                        other.sendall(part[:left])
                        return True
                    other.sendall(part)
                except OSError:
                    return False
                left = None if left is None else left - len(part)
        return False


def cuts_by(seed, most):
    """Yields random numbers of bytes below `most`, by a seed."""
    numbers = random.Random(seed)
    while True:
        yield numbers.randrange(most)


class Relay(Listening):
    """Passes the frames that come to its port on to another port, one at a time, and their replies back. It calls
    `before` first, with itself, the frame and the stream to the other port; if that returns False, it closes the
    connection and does not pass the frame on. `frames` has all frames that came."""

    def __init__(self, to, before):
        super().__init__()
        self.to = to
        self.before = before
        self.frames = []

    def take(self, stream):
        with connect(self.to) as service:
            self.pass_on(stream, service)

    def pass_on(self, client, service):
        while found := read_frame(client, 2):
            self.frames.append(Frame(2, *found))
            if self.before(self, self.frames[-1], service) is False:
                return
            service.sendall(frame(*found, version=2))
            client.sendall(frame(*read_frame(service, 2), version=2))


def records(text):
    """Reads the entries of an export by their paths, without their numbers."""
    rows = csv.DictReader(io.StringIO(text.decode(), newline=""), strict=True)
    return {row["FILE_PATH"]: {name: row[name] for name in row if name not in ("ID", "PARENT_ID")} for row in rows}


class WithExport(InFolder):
    """A test that names a file for the export."""

    def setUp(self):
        super().setUp()
        self.export = self.work + b"/export.csv"

    def exported(self):
        with open(self.export, "rb") as file:
            return file.read()

    def beside(self):
        """Lists what lies where the export is written, beside the tree and the export."""
        return sorted(set(os.listdir(self.work)) - {b"tree", b"export.csv"})

    def has(self, text, rows):
        """Checks that the export has exactly the entries of these rows, whatever their numbers and their order are."""
        found = records(text)
        due = {row["FILE_PATH"]: {name: row[name] for name in row if name not in ("ID", "PARENT_ID")} for row in rows}
        self.assertEqual(set(found), set(due))
        for path, row in due.items():
            self.assertEqual({name: found[path][name] for name in row}, row)


class WithTree(WithExport):
    """A test with files of no byte, of one, of a piece, of one byte more, and of many pieces."""

    def setUp(self):
        super().setUp()
        numbers = random.Random(1)
        self.folder(b"/in/deeper")
        for place, size in enumerate((0, 1, PIECE - 1, PIECE, PIECE + 1, 3 * PIECE, 20 * PIECE + 7)):
            self.file(b"/in/%d.bin" % place, numbers.randbytes(size))
            self.file(b"/in/deeper/%d.txt" % place, numbers.randbytes(size // 2), -1.5 - place)
        self.file(b"/z.txt", b"last")


class WithSmallTree(WithExport):
    """A test with three files, of six pieces together, and a folder. A first submission sends REQUESTS."""

    # a profile; a.bin and its three pieces; sub; z.bin and its two; sub/b.txt and its one; the export
    REQUESTS = 1 + (3 + 3) + 1 + (3 + 2) + (3 + 1) + 1

    def setUp(self):
        super().setUp()
        numbers = random.Random(2)
        self.folder(b"/sub")
        self.file(b"/a.bin", numbers.randbytes(2 * PIECE + 9), 1_000_000_000)
        self.file(b"/z.bin", numbers.randbytes(PIECE + 1))
        self.file(b"/sub/b.txt", b"some text")
        os.utime(self.top + b"/sub", (0, 1_500_000_000))
