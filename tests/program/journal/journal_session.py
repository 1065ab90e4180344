"""`run` and `serve` with a journal, as the tests of journals call them."""

import os
import subprocess
import tempfile
import unittest

from lib.connections import SECONDS
from lib.frames import abandon, create, file, finish, folder, piece
from lib.program import PROGRAM, SAMPLE, Serve

# The sentence behind each `fault: Journal`, of the journal at a path.
IN_USE = "{0}: another droid_desk has this journal open: stop it first"
NO_FILE = "{0}: this is a folder, a link or a device: name a file, or a path where nothing is yet"
OTHER_HEADER = (
    "{0}: not a journal of this registry and this version of droid_desk, or damaged at its beginning: "
    "name the registry of its first start, restore a copy, or name a new file"
)
UNREAD = "{0}: could not be read: check the disk"
UNWRITTEN = "{0}: could not be written, so nothing more is answered: is the disk full? Make room, and start again"
NO_ROOM_BESIDE = "{0}.new: could not be written: is the disk full? {0} is as it was"
NOT_EXCHANGED = "{0}: has all its records, but the smaller journal could not be synced or renamed: try again"

# `run` and `serve` print this where the sample registry is named as a file: nothing
REGISTRY = ["--registry", SAMPLE]


def commands(count):
    """The first `count` of these: a profile, a file that is finished, one that is abandoned, and folders. Each is accepted."""
    finished = [file(2, b"a.msg", 14, 7), piece(3, 1, 1, b" of it."), piece(4, 1, 0, b"message"), finish(5, 1)]
    abandoned = [file(6, b"gone", 3, 3), abandon(7, 2)]
    folders = [folder(number, b"%d" % number) for number in range(8, count + 1)]
    return [create(1), *finished, *abandoned, *folders][:count]


def unopened(why):
    return f"{{0}}: could not be opened ({why}): check the path, and whether you may write in its folder"


def not_beside(why):
    return f"{{0}}.new: {why}: {{0}} is as it was"


def other_reply(record):
    return f"{{0}}: the reply in record {record} is not the one that its request gets: restore a copy of the file"


def damaged(records):
    return f"{{0}}: damaged after record {records}: restore a copy of the file"


def printed(fault, sentence, path):
    """A fault and the sentence behind it, as bytes of standard error."""
    return f"fault: {fault}\n{sentence.format(path)}\n".encode("ascii")


def without_notes(said):
    """Standard error (bytes) without notes on the registry."""
    return b"".join(line for line in said.splitlines(keepends=True) if not line.startswith(b"registry: "))


def cut_off(count, path):
    """What is printed where `count` bytes were cut off."""
    return f"journal: {count} bytes behind the last whole record are now in {path}.torn\n".encode("ascii") if count else b""


def sample_bytes():
    with open(SAMPLE, "rb") as file:
        return file.read()


def run_journal(path, given=b"", *more, env=None, before=None):
    """Runs `run` over these bytes: its status, its standard output, and its standard error."""
    done = subprocess.run(
        [PROGRAM, "run", *REGISTRY, "--journal", path, *more], input=given, capture_output=True, timeout=SECONDS, env=env, preexec_fn=before
    )
    return done.returncode, done.stdout, done.stderr


def serving(path, *more, connections=None, env=None, killed=False):
    """`serve` with a journal, for many connections at once."""
    return Serve(connections, ["--at-once", "16", *REGISTRY, "--journal", path, *more], env=env, killed=killed)


def contents(path):
    with open(path, "rb") as file:
        return file.read()


def store(path, data):
    with open(path, "wb") as file:
        file.write(data)


class InJournal(unittest.TestCase):
    """Tests with a path for a journal in a folder of its own."""

    def setUp(self):
        place = tempfile.TemporaryDirectory()
        self.addCleanup(place.cleanup)
        self.folder = place.name
        self.path = os.path.join(self.folder, "desk.journal")

    def ends(self, found, status, fault, sentence, path=None):
        """The command ended with this status, this fault and this sentence, and wrote nothing."""
        due = printed(fault, sentence, self.path if path is None else path)
        self.assertEqual((found[0], found[1], without_notes(found[2])), (status, b"", due))
