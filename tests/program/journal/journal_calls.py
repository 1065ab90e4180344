"""The calls of the file system that `run`, `serve` and `compact` make for a journal (noted.c notes them): what is on the disk before
what, and what comes of each call that fails, as on a broken disk. Only the failed call fails: whoever tries again would succeed, and
might then say that something is on the disk that the disk has lost."""

import contextlib
import os
import random
import socket
import threading
import time
import unittest

from journal_compact import compact, is_smaller_of
from journal_file import MARK, read
from journal_session import NO_ROOM_BESIDE, NOT_EXCHANGED, UNREAD, UNWRITTEN, InJournal, contents, not_beside, printed, run_journal, serving
from journal_session import store, unopened
from lib.connections import SECONDS, connect, read_exactly, read_frame, read_until_reset
from lib.frames import HEADER, create, export, folder
from lib.program import preloaded
from model_frames import answer, service_of_the_sample
from journal_smaller import ASKED, MORE
from serve_many_desks import whole_frames

FILE, TORN, NEW = "desk.journal", "desk.journal.torn", "desk.journal.new"
CLIENTS = 6
ROUNDS = 12
# an error of the device, as the program names it
BROKEN = "uncategorized error"
UNOPENED, NOT_BESIDE = unopened(BROKEN), not_beside(BROKEN)


FOLDERS = [create(1), folder(2, b"a"), folder(3, b"b")]


def counted(noted):
    """Those that noted.c counts for FAILS."""
    return [call for call in noted if not call.startswith(("answer", "mark"))]


def is_open(stream):
    """Whether another byte comes, and not the end."""
    try:
        return stream.recv(1, socket.MSG_PEEK) != b""
    except ConnectionError:
        return False


def sentences(call):
    """Those that may be printed where this call of `run` fails. What is cut off is read once more, and goes into a file that is
    opened, so a journal that has such an end may also be called unwritten."""
    verb, name = call.split()[:2]
    if call in (f"open {FILE}", f"lock {FILE}"):
        return {UNOPENED}
    if verb in ("write", "cut") or name == TORN or call == f"sync {FILE}":
        return {UNWRITTEN}
    return {UNREAD, UNWRITTEN} if verb == "read" else {UNOPENED, UNWRITTEN}


def smaller_sentences(call):
    """Those that may be printed where this call of `compact` fails."""
    verb, name = call.split()[:2]
    if call in (f"open {FILE}", f"lock {FILE}"):
        return {UNOPENED}
    if verb == "read":
        return {UNREAD}
    if call == f"write {NEW}":
        return {NO_ROOM_BESIDE}
    if verb == "rename" or call == f"sync {NEW}":
        return {NOT_EXCHANGED}
    return {NOT_BESIDE} if name == NEW else {UNOPENED, NOT_BESIDE, NOT_EXCHANGED}


def due_to(asked):
    return answer(service_of_the_sample(), b"".join(asked))[0]


class Noted(InJournal):
    def setUp(self):
        super().setUp()
        self.calls = os.path.join(self.folder, os.pardir, os.path.basename(self.folder) + ".calls")
        self.addCleanup(lambda: os.path.exists(self.calls) and os.remove(self.calls))

    def noting(self, **more):
        """An environment for a process whose calls are noted, from the first one on."""
        store(self.calls, b"")
        return preloaded("NOTED", FOLDER=self.folder, CALLS=self.calls, **more)

    def noted(self):
        return contents(self.calls).decode("ascii").splitlines()

    def stand_in_order(self, *wanted):
        """These calls were made, in this order, with others between them."""
        left = iter(self.noted())
        for call in wanted:
            self.assertTrue(any(call == it for it in left), (call, wanted, self.noted()))


class Order(Noted):
    def answers_are_on_the_disk(self):
        """Nothing is written to anyone between a write to the journal and the next sync of it, and no mark is: it says that all before
        it is on the disk. There is no mark behind a mark."""
        behind, marked, answers = False, False, 0
        for call in self.noted():
            if call == f"write {FILE}":
                behind, marked = True, False
            elif call == f"sync {FILE}":
                behind = False
            elif call == f"mark {FILE}":
                self.assertFalse(behind or marked, self.noted())
                marked = True
            elif call.startswith("answer"):
                self.assertFalse(behind, self.noted())
                answers += 1
        return answers

    def test_a_new_journal(self):
        """Its name is on the disk before it has a header, and that before an answer."""
        self.assertEqual(run_journal(self.path, ASKED[0], env=self.noting())[1], due_to(ASKED[:1]))
        begun = [f"open {FILE}", f"lock {FILE}", "sync .", f"write {FILE}", f"sync {FILE}", f"mark {FILE}"]
        self.stand_in_order(*begun, f"write {FILE}", f"sync {FILE}", "answer ", f"mark {FILE}")
        self.assertEqual(self.answers_are_on_the_disk(), 1)
        self.assertEqual(self.noted().count(f"mark {FILE}"), 2)

    def test_a_start_that_cuts_nothing(self):
        """It syncs the name and the file, in which a service that was killed may have left records that no disk has."""
        self.assertEqual(run_journal(self.path, ASKED[0])[0], 0)
        self.assertEqual(run_journal(self.path, export(99), env=self.noting())[0], 0)
        self.stand_in_order(f"lock {FILE}", "sync .", f"sync {FILE}", "answer ")
        self.assertNotIn(f"write {FILE}", self.noted())
        self.assertNotIn(f"mark {FILE}", self.noted())

    def test_a_start_without_a_mark(self):
        """What a power cut leaves: the mark is written once all before it was synced."""
        self.assertEqual(run_journal(self.path, ASKED[0])[0], 0)
        whole = contents(self.path)
        store(self.path, whole[:-MARK])
        self.assertEqual(run_journal(self.path, export(99), env=self.noting())[0], 0)
        self.stand_in_order(f"lock {FILE}", "sync .", f"sync {FILE}", f"mark {FILE}", "answer ")
        self.assertNotIn(f"write {FILE}", self.noted())
        self.assertEqual(self.noted().count(f"mark {FILE}"), 1)
        self.assertEqual(contents(self.path), whole)

    def test_silence(self):
        """A service that is asked for nothing more marks the last turn, once, and syncs nothing for that."""
        with serving(self.path, "--forever", env=self.noting(), killed=True) as service, connect(service.port) as stream:
            stream.sendall(ASKED[0])
            read_frame(stream)
            self.waits_for_marks(2)
            found = read(contents(self.path))
            self.assertEqual((len(found.records), found.ahead), (1, True))
            time.sleep(0.1)
            self.assertEqual(self.noted()[-4:], [f"write {FILE}", f"sync {FILE}", "answer ", f"mark {FILE}"])
            stream.sendall(export(99))
            read_frame(stream)
            time.sleep(0.1)
            self.assertEqual(self.noted()[-2:], [f"mark {FILE}", "answer "])
        self.answers_are_on_the_disk()

    def waits_for_marks(self, count):
        """Waits until so many marks were written."""
        end = time.monotonic() + SECONDS
        while self.noted().count(f"mark {FILE}") < count and time.monotonic() < end:
            time.sleep(0.005)
        self.assertEqual(self.noted().count(f"mark {FILE}"), count)

    def test_a_torn_end(self):
        """What is cut off is on the disk under another name before."""
        self.assertEqual(run_journal(self.path, ASKED[0])[0], 0)
        whole = contents(self.path)
        store(self.path, whole + bytes(70_000))
        self.assertEqual(run_journal(self.path, env=self.noting())[0], 0)
        self.stand_in_order(f"open {TORN}", "sync .", f"write {TORN}", f"sync {TORN}", f"cut {FILE}", f"sync {FILE}")
        behind = self.noted()[self.noted().index(f"cut {FILE}") :]
        self.assertNotIn(f"write {TORN}", behind)
        self.assertEqual((contents(self.path), contents(self.path + ".torn")), (whole, bytes(70_000)))

    def test_a_smaller_journal(self):
        """All of it is on the disk before it gets its name, and its name before the command ends."""
        self.assertEqual(run_journal(self.path, b"".join(ASKED))[0], 0)
        self.assertEqual(compact(self.path, "--quiet", env=self.noting())[0], 0)
        self.stand_in_order(f"lock {FILE}", f"lock {NEW}", f"write {NEW}", f"sync {NEW}", f"rename {NEW} {FILE}", "sync .")
        behind = self.noted()
        behind = behind[behind.index(f"rename {NEW} {FILE}") :]
        self.assertEqual([call for call in behind if call.startswith("write")], [])
        self.assertNotIn(f"write {FILE}", self.noted())
        self.assertNotIn(f"cut {FILE}", self.noted())

    def test_many_clients(self):
        """Commands and questions of many connections: no reply goes out, a question's neither, before all records are on the disk."""
        with serving(self.path, "--forever", env=self.noting(), killed=True) as service:
            clients = [threading.Thread(target=self.ask, args=(service.port, client)) for client in range(1, CLIENTS + 1)]
            for client in clients:
                client.start()
            for client in clients:
                client.join()
        self.assertGreaterEqual(self.answers_are_on_the_disk(), ROUNDS)
        self.assertGreaterEqual(len(read(contents(self.path)).records), CLIENTS * ROUNDS)

    def ask(self, port, client):
        with connect(port) as stream:
            for number in range(1, 3 * ROUNDS, 3):
                made = create(number, client=client) if number == 1 and client == 1 else folder(number, b"%d-%d" % (client, number), client=client)
                stream.sendall(made + export(number + 1, client=client, most=1) + folder(number + 2, b"again-%d" % number, client=client))
                for _ in range(3):
                    header = read_exactly(stream, HEADER.size)
                    read_exactly(stream, HEADER.unpack(header)[4])


class Failing(Noted):
    """Each call fails in turn, and no other one."""

    def each_in_turn(self, before, command):
        """Runs a command over a file of these bytes, or none, with each of its calls failing: the results."""
        self.lay(before)
        command(self.noting())
        calls = counted(self.noted())
        self.assertGreater(len(calls), 6)
        for number, call in enumerate(calls, 1):
            self.lay(before)
            found = command(self.noting(FAILS=number))
            self.assertIn(call, self.noted())
            yield call, found

    def lay(self, before):
        for name in os.listdir(self.folder):
            os.remove(os.path.join(self.folder, name))
        if before is not None:
            store(self.path, before)

    def closes(self, before, asked):
        """With each call failing: what was answered is in the file, the program ends by its journal, and the next one goes on."""
        due = due_to(asked)
        earlier, reported = read(before).records if before else [], set()
        for call, (status, written, said) in self.each_in_turn(before, lambda env: run_journal(self.path, b"".join(asked), env=env)):
            named = b"".join(line for line in said.splitlines(True) if not line.startswith(b"journal: "))
            reported |= self.ends_by(status, named, sentences(call), call)
            self.assertTrue(due.startswith(written), call)
            left = contents(self.path) if os.path.exists(self.path) else b""
            kept = b"".join(it.reply for it in read(left).records[len(earlier) :]) if left else b""
            self.assertTrue(kept.startswith(written) and due.startswith(kept), call)
            self.assertEqual(run_journal(self.path, b"".join(asked))[:2], (0, due), call)
        self.assertEqual(reported, {UNOPENED, UNREAD, UNWRITTEN})

    def ends_by(self, status, said, may, call):
        """The command ended by its journal, and one of these sentences was printed: that one, in a set."""
        found = {it for it in may if printed("Journal", it, self.path) == said}
        self.assertEqual((status, len(found)), (4, 1), (call, said))
        return found

    def test_a_new_journal(self):
        self.closes(None, ASKED)

    def test_a_torn_end(self):
        self.assertEqual(run_journal(self.path)[0], 0)
        self.closes(contents(self.path) + b"\1\0\0", ASKED[:2])

    def test_a_smaller_journal(self):
        """FILE is the old one or, where the folder's sync fails, the smaller one; and no other file is left."""
        self.assertEqual(run_journal(self.path, b"".join(ASKED))[0], 0)
        old = contents(self.path)
        renamed, reported = False, set()
        for call, (status, _, said) in self.each_in_turn(old, lambda env: compact(self.path, env=env)):
            sentence = self.ends_by(status, said, smaller_sentences(call), call)
            reported |= sentence
            found = contents(self.path)
            if found != old:
                self.assertTrue(is_smaller_of(found, old), call)
                self.assertEqual(sentence, {NOT_EXCHANGED}, call)
                renamed = True
            self.assertEqual(compact(self.path, "--quiet")[0], 0, call)
            self.assertTrue(is_smaller_of(contents(self.path), old), call)
            self.assertEqual(os.listdir(self.folder), [FILE], call)
        self.assertTrue(renamed)
        self.assertEqual(reported, {UNOPENED, UNREAD, NOT_BESIDE, NO_ROOM_BESIDE, NOT_EXCHANGED})

    def test_serve(self):
        """A write or a sync fails while two connections are open: both are closed, and the service ends."""
        with serving(self.path, "--forever", env=self.noting(), killed=True) as service:
            self.assertEqual(self.asks(service.port, closed=False), len(FOLDERS))
        noted = self.noted()
        before = noted.index("answer ")
        numbers = range(len(counted(noted[:before])) + 1, len(counted(noted)) + 1)
        # (a request is a write and a sync)
        self.assertEqual(counted(noted)[numbers[0] - 1 :], [f"write {FILE}", f"sync {FILE}"] * len(FOLDERS))
        for place, number in enumerate(numbers):
            self.lay(None)
            with serving(self.path, "--forever", env=self.noting(FAILS=number), killed=True) as service:
                self.assertEqual(self.asks(service.port, closed=True), place // 2)
                self.assertEqual(service.process.wait(SECONDS), 4)
                self.assertEqual(service.process.stderr.read(), printed("Journal", UNWRITTEN, self.path))
            self.assertIn(len(read(contents(self.path)).records), (place // 2, place // 2 + 1))

    def asks(self, port, closed):
        """One connection asks for one thing after the other, and another one only waits: how many were answered. Then both are
        closed, or none."""
        answered = 0
        with connect(port) as waits, connect(port) as stream:
            for request in FOLDERS:
                stream.sendall(request)
                if not is_open(stream):
                    break
                read_frame(stream)
                answered += 1
            if closed:
                self.assertFalse(is_open(waits))
        return answered

    def test_many_in_a_turn(self):
        """Of 160 frames that come at once, 64 are handled in a turn: where a write or a sync of a turn fails, the replies of the turns
        before it were written, and no others."""
        self.assertEqual(run_journal(self.path)[0], 0)
        asked = [create(1)] + [folder(number, b"%d" % number) for number in range(2, 161)]
        due, found, syncs = due_to(asked), set(), 0
        for call, (_, written, _) in self.each_in_turn(contents(self.path), lambda env: run_journal(self.path, b"".join(asked), env=env)):
            # (a start syncs the file first)
            if call in (f"write {FILE}", f"sync {FILE}") and syncs:
                self.assertEqual(written, due[: len(due_to(asked[: 64 * (syncs - 1)]))], call)
                found.add((call.split()[0], 64 * (syncs - 1)))
            syncs += call == f"sync {FILE}"
        self.assertEqual(found, {(verb, count) for verb in ("write", "sync") for count in (0, 64, 128)})

    def test_many_clients(self):
        """Three clients send in pieces by chance while a write or a sync fails, whichever it is. Behind that call nothing is written to
        anyone, all are closed, and each reply that came has its record in the file."""
        self.lay(None)
        with serving(self.path, "--forever", env=self.noting(), killed=True):
            begun = len(counted(self.noted()))
        lost = 0
        for seed in range(4):
            for place in range(1, 13):
                self.lay(None)
                with serving(self.path, "--forever", env=self.noting(FAILS=begun + place), killed=True) as service:
                    came = self.by_chance(service.port, random.Random(seed))
                    self.assertEqual(service.process.wait(SECONDS), 4)
                    self.assertEqual(service.process.stderr.read(), printed("Journal", UNWRITTEN, self.path))
                noted = self.noted()
                failed = [at for at, call in enumerate(noted) if counted([call])][begun + place - 1]
                self.assertEqual(noted[failed + 1 :], [], (seed, place))
                records = read(contents(self.path)).records
                self.assertLessEqual(set(came), {it.reply for it in records}, (seed, place))
                lost += len(came) < len(records)
        self.assertGreaterEqual(lost, 20)

    def by_chance(self, port, chance):
        """One of three clients makes a profile, and then all send folders until they are closed: the whole replies that came."""
        streams = [connect(port) for _ in range(3)]
        streams[0].sendall(create(1, client=0))
        made = read_until_reset(streams[0], 22)
        left = [b"".join(folder(number, b"%d-%d" % (client, number), client=client) for number in range(2, 40)) for client in range(3)]
        with contextlib.suppress(OSError):
            while any(left):
                who = chance.randrange(3)
                size = chance.randrange(1, 60)
                streams[who].sendall(left[who][:size])
                left[who] = left[who][size:]
        came = list(whole_frames(made))
        for stream in streams:
            came += whole_frames(read_until_reset(stream, 1 << 20))
            stream.close()
        return came

    def test_a_mark_of_run(self):
        """At a start nothing is answered without it. At the end all was answered, and is in the file."""
        self.assertEqual(run_journal(self.path, b"".join(ASKED))[0], 0)
        before = contents(self.path)[:-MARK]
        asked = [folder(40, b"new"), folder(41, b"newer")]
        due = due_to(ASKED + asked)[len(due_to(ASKED)) :]
        for number, answered in ((1, b""), (2, due)):
            self.lay(before)
            status, written, said = run_journal(self.path, b"".join(asked), env=self.noting(FAILS_MARK=number))
            self.assertEqual((status, written, said), (4, answered, printed("Journal", UNWRITTEN, self.path)))
            self.assertEqual(self.noted().count(f"mark {FILE}"), number)
            self.assertFalse(read(contents(self.path)).ahead)
            self.assertEqual(run_journal(self.path, b"".join(asked)), (0, due, b""))

    def test_a_mark_of_serve(self):
        """In a silence a mark can't be written: all connections are closed, the service ends, and nothing that was answered is lost."""
        for number in (2, 3):
            self.lay(None)
            with serving(self.path, "--forever", env=self.noting(FAILS_MARK=number), killed=True) as service:
                with connect(service.port) as waits, connect(service.port) as stream:
                    for request in FOLDERS[: number - 1]:
                        stream.sendall(request)
                        read_frame(stream)
                        time.sleep(0.1)
                    self.assertFalse(is_open(stream) or is_open(waits))
                self.assertEqual(service.process.wait(SECONDS), 4)
                self.assertEqual(service.process.stderr.read(), printed("Journal", UNWRITTEN, self.path))
            self.assertEqual(self.noted()[-1], f"mark {FILE}")
            found = read(contents(self.path))
            self.assertEqual(([it.request for it in found.records], found.ahead), (FOLDERS[: number - 1], False))

    def test_interrupted(self):
        """A read or a write that a signal interrupts is made again."""
        self.assertEqual(run_journal(self.path, b"".join(ASKED))[0], 0)
        before, asked, again = contents(self.path), ASKED + MORE, 0
        due = due_to(ASKED + asked)[len(due_to(ASKED)) :]
        for number in range(1, len(self.calls_of(before, asked)) + 1):
            self.lay(before)
            found = run_journal(self.path, b"".join(asked), env=self.noting(FAILS=number, INTERRUPTED=1))
            call = counted(self.noted())[number - 1]
            if call.split()[0] in ("read", "write"):
                self.assertEqual(found, (0, due, b""), call)
                again += 1
        self.assertGreater(again, 2)
        for number in (1, 2):
            self.lay(before[:-MARK])
            found = run_journal(self.path, b"".join(asked), env=self.noting(FAILS_MARK=number, INTERRUPTED=1))
            self.assertEqual(found, (0, due, b""), number)
            # (one at the start, one at the end, and the one that was made again)
            self.assertEqual(self.noted().count(f"mark {FILE}"), 3)

    def calls_of(self, before, asked):
        self.lay(before)
        run_journal(self.path, b"".join(asked), env=self.noting())
        return counted(self.noted())


if __name__ == "__main__":
    unittest.main()
