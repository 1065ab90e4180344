"""A journal as whoever runs a service meets it: a copy taken while it serves, a small disk, a folder that may not be written to, a
standard error that is full, another registry, a port that is in use, damage far behind."""

import os
import shutil
import socket
import stat
import subprocess
import threading
import time
import unittest

from journal_compact import compact
from journal_file import MARK, header_in, header_size, md5, read, turn_mark
from journal_session import OTHER_HEADER, REGISTRY, UNWRITTEN, InJournal, contents, cut_off, damaged, not_beside, printed, run_journal, sample_bytes
from journal_session import serving, store, unopened, without_notes
from lib.connections import SECONDS, connect, listen, read_exactly, read_frame
from lib.frames import FINISHED, MADE, NODE, create, cut, export, file, finish, folder, piece
from lib.program import EVERYDAY, PROGRAM, Serve, faults, run_plainly
from model_frames import answer, service_of_the_sample
from registry import Registry
from service import Service

# farther than a start reads at once
FAR = (40 << 20) + 7
NOBODY = 65_534
COPIES = 12


def as_nobody():
    os.setgroups([])
    os.setgid(NOBODY)
    os.setuid(NOBODY)


def nobody_runs():
    """Whether somebody else can run the program by this registry."""
    try:
        return subprocess.run([PROGRAM, "run", *REGISTRY], stdin=subprocess.DEVNULL, capture_output=True, preexec_fn=as_nobody).returncode == 0
    except OSError:
        return False


def replies_to(asked, service=None):
    return answer(service or service_of_the_sample(), b"".join(asked))[0]


class Copies(InJournal):
    def test_while_it_serves(self):
        """A copy at any time is a journal: it has all that was answered before, and the first of what came then."""
        with serving(self.path, "--forever", killed=True) as service:
            asks = Asking(service.port)
            asks.start()
            copies = []
            for place in range(COPIES):
                answered = asks.more_than(copies[-1][0] if copies else 0)
                copies.append((answered, shutil.copyfile(self.path, f"{self.path}-copy{place}")))
            asks.stops = True
            asks.join()
        self.assertGreaterEqual(asks.answered, COPIES)
        requests = [create(1)] + [folder(number, b"%d" % number) for number in range(2, asks.answered + 2)]
        for answered, path in copies:
            status, written, said = run_journal(path, export(9_999_999))
            self.assertEqual((status, faults(said.replace(b"journal: ", b"registry: "))), (0, b""))
            count = len(read(contents(path)).records)
            self.assertGreaterEqual(count, answered)
            self.assertEqual(written, replies_to(requests[:count] + [export(9_999_999)])[-len(written) :])


class Asking(threading.Thread):
    """A client that asks for one folder after the other."""

    def __init__(self, port):
        super().__init__(daemon=True)
        self.port, self.answered, self.stops = port, 0, False

    def more_than(self, count):
        """Waits until more were answered, and returns how many."""
        while self.answered <= count and self.is_alive():
            time.sleep(0.001)
        return self.answered

    def run(self):
        with connect(self.port) as stream:
            while not self.stops:
                number = self.answered + 1
                stream.sendall(create(1) if number == 1 else folder(number, b"%d" % number))
                assert read_frame(stream)[0] in (MADE, NODE)
                self.answered = number


class SmallDisk(InJournal):
    """A file system of 1 MiB."""

    def setUp(self):
        super().setUp()
        self.disk = os.path.join(self.folder, "disk")
        os.mkdir(self.disk)
        done = subprocess.run(["mount", "-t", "tmpfs", "-o", "size=1m", "none", self.disk], capture_output=True)
        if done.returncode:
            self.skipTest("none can be mounted")
        self.addCleanup(subprocess.run, ["umount", "-l", self.disk], check=True)
        self.path = os.path.join(self.disk, "desk.journal")

    def test_it_fills_up(self):
        """Files of 60,000 bytes until it is full: what was answered is there. Once there is room, the client goes on where it was."""
        asked = [create(1)]
        for node in range(1, 40):
            asked += [file(3 * node, b"%d" % node, 60_000, 60_000), piece(3 * node + 1, node, 0, bytes(60_000)), finish(3 * node + 2, node)]
        due = replies_to(asked)
        status, written, said = run_journal(self.path, b"".join(asked))
        self.assertEqual((status, said), (4, printed("Journal", UNWRITTEN, self.path)))
        self.assertTrue(due.startswith(written) and len(written) > 600)
        kept = b"".join(it.reply for it in read(contents(self.path)).records)
        self.assertTrue(kept.startswith(written) and due.startswith(kept))
        # the torn end has no room beside it, and nothing is cut; nor has a smaller journal, if a record is torn
        before = contents(self.path)
        if len(before) > read(before).end:
            self.ends(run_journal(self.path, asked[0]), 4, "Journal", UNWRITTEN)
            self.assertEqual(contents(self.path), before)
        subprocess.run(["mount", "-o", "remount,size=8m", self.disk], check=True)
        self.assertEqual(run_journal(self.path, b"".join(asked))[:2], (0, due))
        self.assertEqual(compact(self.path, "--quiet")[0], 0)
        self.assertLess(os.path.getsize(self.path), 100_000)
        self.assertEqual(run_journal(self.path, b"".join(asked))[:2], (0, due))


class Folders(InJournal):
    def setUp(self):
        super().setUp()
        if os.geteuid() != 0 or not nobody_runs():
            self.skipTest("nobody can't run the program")
        os.chmod(self.folder, 0o755)
        self.assertEqual(run_journal(self.path, create(1))[0], 0)

    def test_one_that_nobody_may_write_to(self):
        """A journal that is not there can't be made, and one that is can't be made smaller."""
        before = contents(self.path)
        os.chown(self.path, NOBODY, NOBODY)
        new = self.path + ".other"
        self.ends(run_journal(new, create(1), before=as_nobody), 4, "Journal", unopened("permission denied"), new)
        self.ends(compact(self.path, before=as_nobody), 4, "Journal", not_beside("permission denied"))
        self.assertEqual((contents(self.path), os.listdir(self.folder)), (before, ["desk.journal"]))
        self.assertEqual(run_journal(self.path, create(1), before=as_nobody)[:2], (0, replies_to([create(1)])))

    def test_a_file_of_somebody_else(self):
        for mode in (0o600, 0o644, 0o444):
            os.chmod(self.path, mode)
            self.ends(run_journal(self.path, create(1), before=as_nobody), 4, "Journal", unopened("permission denied"))


class Modes(InJournal):
    def test_of_what_is_cut_off(self):
        """Only its owner may read what is cut off, whoever may read the journal, which keeps its mode."""
        self.assertEqual(run_journal(self.path, create(1))[0], 0)
        whole = contents(self.path)
        for mode in (0o600, 0o640, 0o644):
            store(self.path, whole + bytes(9))
            os.chmod(self.path, mode)
            self.assertEqual(run_journal(self.path, before=lambda: os.umask(0))[0], 0)
            self.assertEqual(stat.S_IMODE(os.stat(self.path + ".torn").st_mode), 0o600)
            self.assertEqual(stat.S_IMODE(os.stat(self.path).st_mode), mode)
            os.remove(self.path + ".torn")


class Endings(InJournal):
    def test_standard_error_is_full(self):
        """What is cut off is saved; that it can't be printed is no fault."""
        self.assertEqual(run_journal(self.path, create(1))[0], 0)
        store(self.path, contents(self.path) + b"\1\0\0")
        with open("/dev/full", "wb") as full:
            done = subprocess.run([PROGRAM, "run", *REGISTRY, "--journal", self.path], input=create(1), stdout=subprocess.PIPE, stderr=full)
        self.assertEqual((done.returncode, done.stdout), (0, replies_to([create(1)])))

    def test_a_port_in_use(self):
        """The journal is as it was, and free again."""
        self.assertEqual(run_journal(self.path, create(1))[0], 0)
        before = contents(self.path)
        with listen() as taken:
            for more in ([], ["--at-once", "4"]):
                words = ["serve", "--port", taken.getsockname()[1], *REGISTRY, "--journal", self.path, *more]
                code, written, said = run_plainly(words)
                self.assertEqual((code, written, faults(said.encode("ascii"))), (4, b"", b"fault: Socket\n"))
        self.assertEqual(contents(self.path), before)
        self.assertEqual(run_journal(self.path, create(1))[:2], (0, replies_to([create(1)])))

    def test_what_is_printed_of_connections(self):
        """`--verbose` has its lines with a journal too."""
        with Serve(1, ["--at-once", "2", "--verbose", *REGISTRY, "--journal", self.path], killed=True) as service:
            with connect(service.port) as stream:
                stream.sendall(create(1))
                stream.shutdown(socket.SHUT_WR)
                self.assertEqual(read_exactly(stream, 23), replies_to([create(1)]))
            service.process.wait(SECONDS)
            self.assertIn(b"closed", service.process.stderr.read())


class Registries(InJournal):
    def test_what_is_found(self):
        """A service with a journal identifies by the registry that is named, before and after a start."""
        with open(EVERYDAY, "rb") as stored:
            model = Service(Registry(stored.read()))
        content = b"%PDF-1.7\n" + bytes(200) + b"%%EOF\n"
        asked = [create(1), file(2, b"a.pdf", len(content), len(content)), piece(3, 1, 0, content), finish(4, 1), export(5)]
        due = replies_to(asked, model)
        found = [it for it in cut(due) if it.kind == FINISHED]
        self.assertIn(b"fmt/", found[0].body)
        for words in (["--everyday"], ["--everyday"], ["--registry", EVERYDAY]):
            found = run_plainly(["run", *words, "--journal", self.path], b"".join(asked))
            self.assertEqual(found, (0, due, ""))

    def test_another_one_and_back(self):
        """Another registry, the sample by another file, and a file with the same bytes."""
        other, same = os.path.join(self.folder, "other.csv"), os.path.join(self.folder, "same.csv")
        store(same, sample_bytes())
        store(other, sample_bytes() + b"F,dev/5,More,1,,\n")
        self.assertEqual(run_journal(self.path, create(1))[0], 0)
        before = contents(self.path)
        for words, status, written in (
            (["--registry", other], 3, b""),
            (["--registry", same], 0, replies_to([create(1)])),
            ([], 0, replies_to([create(1)])),
            (["--everyday"], 3, b""),
        ):
            for command in (["run"], ["compact"]):
                more = ["--journal", self.path] if command == ["run"] else [self.path, "--quiet"]
                code, out, said = run_plainly([*command, *words, *more], create(1))
                self.assertEqual((code, out), (status, written if command == ["run"] else b""), (words, command))
                if status == 3:
                    self.assertEqual(without_notes(said.encode("ascii")), printed("Journal at 0", OTHER_HEADER, self.path))
                if status == 0 and command == ["compact"]:
                    # the same records under a header with other random bytes
                    self.assertEqual([it[1:] for it in read(contents(self.path)).records], [it[1:] for it in read(before).records])
                    before = contents(self.path)
                self.assertEqual(contents(self.path), before)

    def test_a_journal_of_another_version(self):
        data = bytearray(contents_after(self, create(1)))
        self.assertEqual(data[:20], b"droid_desk journal 4")
        for version in (b"2", b"3", b"5"):
            data[19:20] = version
            store(self.path, bytes(data))
            for found in (run_journal(self.path, create(1)), compact(self.path)):
                self.ends(found, 3, "Journal at 0", OTHER_HEADER)
            self.assertEqual(contents(self.path), bytes(data))


def contents_after(test, *asked):
    """The bytes of the journal after these requests."""
    test.assertEqual(run_journal(test.path, b"".join(asked))[0], 0)
    return contents(test.path)


class FarBehind(InJournal):
    def test_damage(self):
        """Far behind a part of the first record stands the beginning of a later turn, and a hole between them. It is found, and not
        at any other offset."""
        start = md5(header_in(contents_after(self, create(1))))
        with open(self.path, "r+b") as stored:
            stored.truncate(header_size() + 30)
            stored.seek(FAR)
            stored.write(turn_mark(start, FAR))
        size = os.path.getsize(self.path)
        self.ends(run_journal(self.path, create(1)), 3, "Journal at 1", damaged(0))
        self.assertEqual((os.path.getsize(self.path), os.listdir(self.folder)), (size, ["desk.journal"]))
        with open(self.path, "r+b") as stored:
            stored.seek(FAR + 1)
            stored.write(turn_mark(start, FAR))
        said = run_journal(self.path, create(1))
        self.assertEqual(said, (0, replies_to([create(1)]), cut_off(size + 1 - header_size() - MARK, self.path)))


if __name__ == "__main__":
    unittest.main()
