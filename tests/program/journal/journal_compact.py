"""`compact`: the journal becomes the one that the model (smaller_file.py) makes of it, byte for byte behind a header with other
random bytes, and a service goes on with it as with the whole one. Where that fails, or the command is killed, the file is the old
one or the smaller one. `serve` does the same with a large journal before it listens."""

import fcntl
import os
import random
import subprocess
import time
import unittest

from journal_file import CHECK, RANDOM, header_in, header_of, header_size, journal_bytes, md5, read
from journal_full import limited
from journal_session import IN_USE, NO_FILE, NO_ROOM_BESIDE, OTHER_HEADER, REGISTRY, InJournal, contents, cut_off, damaged, not_beside
from journal_session import other_reply, run_journal, sample_bytes, serving, store, unopened
from journal_smaller import ASKED, EXPORT_ALL, MORE, AskedByModel
from lib.connections import SECONDS, connect, read_exactly
from lib.frames import HEADER, NODE, PIECE, create, file, finish, piece, reply
from lib.program import EVERYDAY, PROGRAM, preloaded
from smaller_file import sample, smaller

KILLS = int(os.environ.get("KILLS", "30"))
SEED = 20_271_128
# the most bytes of a command in a smaller journal, beside its name
COMMAND = 256
# how many bytes the records of the model's sample have, as they are and made smaller, with a mark behind them
SAMPLE_SIZES = (1_160, 911)
# a larger journal is made smaller before it is served
LARGE = 64 << 20


def compact(path, *more, registry=REGISTRY, env=None, before=None):
    """Runs `compact`: its status, its standard output, and its standard error."""
    done = subprocess.run([PROGRAM, "compact", *registry, *more, path], capture_output=True, timeout=SECONDS, env=env, preexec_fn=before)
    return done.returncode, done.stdout, done.stderr


def smaller_of(data, header):
    """The bytes that the model makes of a journal's, behind this header."""
    return smaller(header, read(data).records)


def is_smaller_of(new, old):
    """Whether these bytes are those that the model makes of a journal's, behind a header of the same registry and with a right check
    value, but with other random bytes."""
    header, before = header_in(new), header_in(old)
    same = header[: -CHECK - RANDOM] == before[: -CHECK - RANDOM] and header[: -CHECK][-RANDOM:] != before[: -CHECK][-RANDOM:]
    return read(new) is not None and same and new == smaller_of(old, header)


def made_small(path, old, new):
    """What is printed of a journal that had these bytes and has now those."""
    sizes = (len(read(old).records), len(old), len(read(new).records), len(new))
    return b"journal: %s had %d records and %d bytes, and has now %d records and %d bytes\n" % (os.fsencode(path), *sizes)


class Compaction(AskedByModel):
    def make(self, asked, path=None):
        """Makes a journal of these requests, or goes on with it: its bytes."""
        self.asks(asked, path)
        return contents(path or self.path)

    def becomes_smaller(self, path=None):
        """The journal becomes the smaller one of the model, and no other file is left."""
        path = path or self.path
        old = contents(path)
        found = compact(path)
        new = contents(path)
        self.assertTrue(is_smaller_of(new, old), found)
        self.assertEqual(found, (0, b"", made_small(path, old, new)))
        self.assertFalse(os.path.exists(path + ".new"))
        return new

    def stays(self, found, status, fault, sentence, path=None):
        """The command ended so; the file is as it was, and no other one is left."""
        self.ends(found, status, fault, sentence, path)
        self.assertEqual(contents(self.path), self.before)
        self.assertFalse(os.path.isfile(self.path + ".new"))

    def test_the_same_answers(self):
        """What comes again, what goes on with each file, and the export; before and after it is made smaller once more."""
        self.make(ASKED)
        for _ in range(2):
            self.becomes_smaller()
            self.asks(ASKED + MORE + [EXPORT_ALL])

    def test_once_more(self):
        """A smaller journal stays as it is, but for its header; nothing is printed if that is asked for."""
        self.make(ASKED)
        new = self.becomes_smaller()
        self.assertEqual(compact(self.path, "--quiet"), (0, b"", b""))
        again = contents(self.path)
        self.assertTrue(is_smaller_of(again, new))
        self.assertEqual((read(again).records, len(again)), (read(new).records, len(new)))

    def test_the_sample(self):
        """A file that was finished, one that was abandoned, and one that goes on, though a record with a number that had come before
        abandons it. A piece came again. With the mark of the next turn, and without it."""
        header = header_of(sample_bytes(), md5(b"random"))
        sizes = [(len(read(data).records), len(data) - len(header)) for data in (journal_bytes(header, sample()), smaller(header, sample()))]
        self.assertEqual(sizes, [(12, SAMPLE_SIZES[0]), (10, SAMPLE_SIZES[1])])
        for ahead in (True, False):
            for records in (sample(), read(smaller(header, sample())).records):
                store(self.path, journal_bytes(header, records, ahead))
                self.assertEqual(smaller(header, records), smaller(header, sample()))
                self.becomes_smaller()
        # what the model writes behind another header, byte for byte
        digests = [md5(make(b"0123456789", sample())).hex() for make in (journal_bytes, smaller)]
        self.assertEqual(digests, ["7144d79db1e065cb8787a16891a6d305", "20f3e9d4fe61faa4cf75a94b9ce7221b"])

    def test_on_the_disk_first(self):
        """All of the smaller journal is synced while it has its own name (synced.c notes how much of a file of that name is)."""
        self.make(ASKED)
        synced = os.path.join(self.folder, "synced")
        env = preloaded("SYNCED", JOURNAL="/desk.journal.new", SYNCED=synced)
        self.assertEqual(compact(self.path, "--quiet", env=env), (0, b"", b""))
        self.assertEqual(int(contents(synced)), len(contents(self.path)))

    def test_no_record(self):
        for data in (b"", contents_of_a_start(self)):
            store(self.path, data)
            self.assertEqual(compact(self.path, "--quiet"), (0, b"", b""))
            new = contents(self.path)
            self.assertEqual(new, journal_bytes(read(new).header, []))

    def test_random_sessions(self):
        """Files of random pieces, in a random order, with repeats; the journal is made smaller behind each fifth of it."""
        chance = random.Random(SEED)
        for place in range(6):
            asked = random_session(chance)
            path = f"{self.path}{place}"
            for part in range(1, 6):
                self.make(asked[: len(asked) * part // 5], path)
                self.becomes_smaller(path)
            self.asks(asked + [EXPORT_ALL], path)

    def test_the_size(self):
        """A submission of files, of which the last one goes on: each command takes a bounded number of bytes, beside the names and
        what the file has that goes on."""
        chance = random.Random(SEED)
        asked, names = [create(1)], 0
        for node in range(1, 61):
            name = b"%d-" % node + b"n" * chance.randrange(1, 200)
            names += len(name)
            asked.append(file(len(asked) + 1, name, 40_000, 10_000))
            asked += [piece(len(asked) + 1 + at, node, at, chance.randbytes(10_000)) for at in range(4)]
            if node < 60:
                asked.append(finish(len(asked) + 1, node))
        old = self.make(asked)
        self.assertGreater(len(old), 60 * 40_000)
        new = self.becomes_smaller()
        self.assertLessEqual(len(new), header_size() + COMMAND * len(asked) + names + 40_000)

    def test_a_torn_end(self):
        """It is cut off and saved first, as a start does."""
        old = self.make(ASKED)
        store(self.path, old + b"\1\0\0")
        found = compact(self.path)
        new = contents(self.path)
        self.assertTrue(is_smaller_of(new, old), found)
        self.assertEqual(found, (0, b"", cut_off(3, self.path) + made_small(self.path, old, new)))
        self.assertEqual(contents(self.path + ".torn"), b"\1\0\0")

    def test_faults_of_a_start(self):
        """Another registry, no journal, and damage. (In a smaller journal the mark at its end shows it.)"""
        self.make(ASKED)
        data = self.becomes_smaller()
        changed = bytearray(data)
        changed[header_size() + 30] ^= 1
        for given, fault, sentence, registry in (
            (data, "Journal at 0", OTHER_HEADER, ["--registry", EVERYDAY]),
            (sample_bytes(), "Journal at 0", OTHER_HEADER, REGISTRY),
            (bytes(changed), "Journal at 1", damaged(0), REGISTRY),
        ):
            store(self.path, given)
            self.before = given
            self.stays(compact(self.path, registry=registry), 3, fault, sentence)

    def test_a_reply_that_was_changed(self):
        """A record has a reply that no service gives, and a right check value: it keeps it, and no service begins with it."""
        store(self.path, self.with_another_reply(self.make(ASKED)))
        self.becomes_smaller()
        self.ends(run_journal(self.path, ASKED[0]), 3, "Journal at 4", other_reply(4))

    def with_another_reply(self, data):
        """The fourth record of these bytes has another reply."""
        found = read(data)
        found.records[3] = found.records[3]._replace(reply=reply(NODE, 4, 7))
        return journal_bytes(found.header, found.records)

    def test_in_use(self):
        self.before = self.make(ASKED)
        with serving(self.path, "--forever", killed=True):
            self.stays(compact(self.path), 4, "Journal in use", IN_USE)
        with open(self.path, "rb") as held:
            fcntl.flock(held, fcntl.LOCK_EX)
            self.stays(compact(self.path), 4, "Journal in use", IN_USE)
        self.becomes_smaller()

    def test_no_such_file(self):
        """None is made."""
        for path in (self.path, os.path.join(self.folder, "none", "file"), ""):
            self.ends(compact(path), 4, "Journal", unopened("entity not found"), path)
        self.ends(compact("x" * 300), 4, "Journal", unopened("invalid filename"), "x" * 300)
        self.assertEqual(os.listdir(self.folder), [])

    def test_no_regular_file(self):
        link, pipe = os.path.join(self.folder, "link"), os.path.join(self.folder, "pipe")
        self.make(ASKED)
        os.symlink(self.path, link)
        os.mkfifo(pipe)
        for path in (self.folder, link, "/dev/null", "/dev/full", pipe):
            self.ends(compact(path), 4, "Journal", NO_FILE, path)

    def test_owner_and_mode(self):
        """The smaller file has those of the old one."""
        old = self.make(ASKED)
        for mode in (0o600, 0o640, 0o666):
            store(self.path, old)
            os.chmod(self.path, mode)
            if os.geteuid() == 0:
                os.chown(self.path, 4711, 4712)
            before = os.stat(self.path)
            self.assertEqual(compact(self.path)[0], 0)
            after = os.stat(self.path)
            self.assertNotEqual(after.st_ino, before.st_ino)
            self.assertEqual((after.st_mode, after.st_uid, after.st_gid), (before.st_mode, before.st_uid, before.st_gid))

    def test_no_registry(self):
        self.before = self.make(ASKED)
        none = os.path.join(self.folder, "none")
        self.stays(compact(self.path, registry=["--registry", none]), 3, "Read", "{0}: no such file: check the path after --registry", none)

    def test_a_file_beside_it(self):
        """One that is left over is removed, also where it is longer; one that another process has open is not, nor a folder."""
        beside = self.path + ".new"
        self.before = self.make(ASKED)
        store(beside, self.before * 3)
        with open(beside, "rb") as held:
            fcntl.flock(held, fcntl.LOCK_EX)
            self.ends(compact(self.path), 4, "Journal", not_beside("resource busy"))
            self.assertEqual((contents(self.path), contents(beside)), (self.before, self.before * 3))
        self.becomes_smaller()
        os.mkdir(beside)
        new = contents(self.path)
        self.ends(compact(self.path), 4, "Journal", not_beside("entity already exists"))
        self.assertEqual(contents(self.path), new)

    def test_a_full_disk(self):
        """The smaller journal does not fit, by a limit of the size of files."""
        self.before = self.make(ASKED + MORE)
        most = len(smaller_of(self.before, header_in(self.before)))
        for size in (0, 1, header_size(), most // 2, most - 1):
            self.stays(compact(self.path, before=limited(size)), 4, "Journal", NO_ROOM_BESIDE)
        self.assertEqual(compact(self.path, "--quiet", before=limited(most))[:2], (0, b""))
        self.assertTrue(is_smaller_of(contents(self.path), self.before))


def contents_of_a_start(test):
    """The bytes of a journal without a record."""
    test.assertEqual(run_journal(test.path), (0, b"", b""))
    return contents(test.path)


def random_session(chance):
    """Requests about twelve files of small pieces, some of them twice."""
    asked, left = [create(1)], []
    for node in range(1, 13):
        pieces = chance.randrange(0, 6)
        asked.append(file(len(asked) + 1, b"%d" % node, 4 * pieces, 4))
        left += [(chance.random(), node, index) for index in range(pieces)]
        left.append((chance.random() + chance.choice((0, 1)), node, None))
    for _, node, index in sorted(left, key=lambda one: one[0]):
        number = len(asked) + 1
        asked.append(finish(number, node) if index is None else piece(number, node, index, chance.randbytes(4)))
        if chance.random() < 0.2:
            asked.append(chance.choice(asked))
    return asked


class Killed(InJournal):
    """`compact` is killed at random moments."""

    def test_kills(self):
        chance = random.Random(SEED)
        asked = [create(1)]
        for node in range(1, 41):
            asked.append(file(len(asked) + 1, b"%d" % node, 400_000, 100_000))
            asked += [piece(len(asked) + 1 + at, node, at, chance.randbytes(100_000)) for at in range(4)]
            asked.append(finish(len(asked) + 1, node))
        status, written, _ = run_journal(self.path, b"".join(asked))
        self.assertEqual(status, 0)
        replies = list(frames_of(written))
        old = contents(self.path)
        begun = time.monotonic()
        self.assertEqual(compact(self.path, "--quiet"), (0, b"", b""))
        taken = time.monotonic() - begun
        found = set()
        for _ in range(KILLS):
            store(self.path, old)
            process = subprocess.Popen([PROGRAM, "compact", *REGISTRY, "--quiet", self.path])
            time.sleep(chance.uniform(0, 1.1 * taken))
            process.kill()
            process.wait()
            left = contents(self.path)
            self.assertTrue(left == old or is_smaller_of(left, old))
            found.add(left != old)
            # its lock is free, and a service goes on
            self.assertEqual(run_journal(self.path, asked[-1] + asked[2])[:2], (0, replies[-1] + replies[2]))
        self.assertIn(False, found)
        self.assertEqual(compact(self.path, "--quiet"), (0, b"", b""))
        self.assertTrue(is_smaller_of(contents(self.path), old))
        self.assertEqual(os.listdir(self.folder), ["desk.journal"])


class BeforeServing(InJournal):
    """`serve` makes a large journal smaller, if more than half of it is of finished or abandoned files."""

    SIZE = 4 << 20

    def files(self, finished, others):
        """Makes a journal of files of 4 MiB, some of them finished, and returns the requests and their replies."""
        chance = random.Random(SEED)
        asked = [create(1, version=2)]
        for node in range(1, finished + others + 1):
            asked.append(file(len(asked) + 1, b"%d" % node, self.SIZE, self.SIZE, version=2))
            asked.append(piece(len(asked) + 1, node, 0, chance.randbytes(self.SIZE), version=2))
            if node <= finished:
                asked.append(finish(len(asked) + 1, node, version=2))
        status, replies, _ = run_journal(self.path, b"".join(asked))
        self.assertEqual(status, 0)
        return asked, replies

    def answers(self, asked, replies, *more):
        """Starts a service and asks it again; returns what it printed."""
        short = [it for it in asked if HEADER.unpack_from(it)[1] != PIECE]
        due = b"".join(it for it, request in zip(frames_of(replies), asked) if HEADER.unpack_from(request)[1] != PIECE)
        with serving(self.path, "--forever", *more, killed=True) as service:
            with connect(service.port) as stream:
                stream.sendall(b"".join(short))
                self.assertEqual(read_exactly(stream, len(due)), due)
            # it has the lock of the file that has the name now
            self.ends(run_journal(self.path), 4, "Journal in use", IN_USE)
            service.process.kill()
            service.process.wait()
            return service.process.stderr.read()

    def test_mostly_finished(self):
        asked, replies = self.files(11, 6)
        old = contents(self.path)
        self.assertGreater(len(old), LARGE)
        said = self.answers(asked, replies)
        self.is_made_small(old, said)
        self.assertEqual(os.listdir(self.folder), ["desk.journal"])
        # and the pieces come again
        self.assertEqual(run_journal(self.path, b"".join(asked))[:2], (0, replies))
        self.assertEqual(self.answers(asked, replies), b"")

    def test_half_of_it_goes_on(self):
        asked, replies = self.files(8, 9)
        self.as_it_was(asked, replies, b"")

    def test_not_large(self):
        asked, replies = self.files(15, 0)
        self.assertLess(os.path.getsize(self.path), LARGE)
        self.as_it_was(asked, replies, b"")

    def test_no_room_beside_it(self):
        """It can't be made smaller: it is served as it is."""
        asked, replies = self.files(17, 0)
        os.mkdir(self.path + ".new")
        said = b"journal: %s could not be made smaller: has the disk room for %s.new? It is served all the same\n"
        self.as_it_was(asked, replies, said % ((os.fsencode(self.path),) * 2))

    def is_made_small(self, old, said):
        """The file is the smaller one, and this was printed. What came again was not written, though none of its replies was cached."""
        new = contents(self.path)
        self.assertTrue(is_smaller_of(new, old))
        self.assertEqual(said, made_small(self.path, old, new))

    def as_it_was(self, asked, replies, said):
        old = contents(self.path)
        self.assertEqual(self.answers(asked, replies), said)
        self.assertEqual(contents(self.path), old)

    def test_a_torn_end(self):
        """It is cut off first."""
        asked, replies = self.files(17, 0)
        old = contents(self.path)
        store(self.path, old + bytes(9))
        said = self.answers(asked, replies)
        torn = cut_off(9, self.path)
        self.assertTrue(said.startswith(torn))
        self.is_made_small(old, said[len(torn) :])


def frames_of(stream):
    """Whole frames, as bytes."""
    start = 0
    while start < len(stream):
        end = start + HEADER.size + HEADER.unpack_from(stream, start)[4]
        yield stream[start:end]
        start = end


if __name__ == "__main__":
    unittest.main()
