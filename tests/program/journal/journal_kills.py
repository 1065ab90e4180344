"""`serve` with a journal is killed again and again at random moments, while 16 clients ask. Then its file is as it is, or as
a power cut may leave it: cut anywhere behind what was on the disk (synced.c notes that), or with zeros there. Half the time rubbish is
behind it.
Each accepted command whose reply came is there with that reply; and all that is there is what the model (model_frames.py)
answers, in this order."""

import os
import random
import struct
import threading
import time
import unittest

from journal_file import Place, read, record_bytes
from journal_session import InJournal, contents, serving, store
from lib.connections import connect, read_exactly
from lib.frames import EXPORT, HEADER, REFUSED, abandon, create, cut, export_body, file, finish, folder, frame, piece
from lib.program import preloaded
from model_frames import reply_to, service_of_the_sample

KILLS = int(os.environ.get("KILLS", "30"))
CLIENTS = 16
SEED = 20_271_128
# a service lives at most this many seconds
LONGEST = 0.08


class Client(threading.Thread):
    """A client: it asks what its plan says, notes each reply, and asks again what was not answered."""

    def __init__(self, number, port, chance, answers):
        super().__init__(daemon=True)
        self.client, self.port, self.chance = number, port, chance
        # the replies to its accepted commands, by their numbers, and its requests
        self.replies, self.requests = answers
        self.wrong = []
        self.buffer = b""

    def run(self):
        try:
            with connect(self.port) as self.stream:
                self.repeat()
                while True:
                    self.step()
        except (ConnectionError, EOFError, TimeoutError):
            pass

    def ask(self, *requests):
        """Sends requests, and reads their replies. A reply that differs from an earlier one is noted."""
        for number, request in requests:
            self.requests[number] = request
        self.stream.sendall(b"".join(request for _, request in requests))
        return [self.take(number) for number, _ in requests]

    def take(self, number):
        while len(self.buffer) < HEADER.size or len(self.buffer) < HEADER.size + HEADER.unpack_from(self.buffer)[4]:
            part = self.stream.recv(65_536)
            if not part:
                raise EOFError
            self.buffer += part
        size = HEADER.size + HEADER.unpack_from(self.buffer)[4]
        reply, self.buffer = self.buffer[:size], self.buffer[size:]
        (found,) = cut(reply)
        if (found.client, found.number) != (self.client, number) or self.replies.get(number, reply) != reply:
            self.wrong.append((self.client, number, reply, self.replies.get(number)))
        if found.kind != REFUSED:
            self.replies[number] = reply
        return found

    def repeat(self):
        """Asks again what was not answered, and some of what was."""
        numbers = sorted(self.requests)
        again = [number for number in numbers if number not in self.replies][-8:] + numbers[-3:]
        if again:
            self.ask(*[(number, self.requests[number]) for number in sorted({*again})])

    def next(self):
        return max(self.requests, default=0) + 1

    def step(self):
        if self.chance.random() < 0.2:
            self.make_file()
        else:
            first = self.next()
            asked = range(first, first + self.chance.randrange(1, 5))
            self.ask(*[(number, self.folder(number)) for number in asked])

    def folder(self, number):
        """A folder, of which another client may have the name."""
        name = b"%d" % self.chance.randrange(4_000) if self.chance.random() < 0.5 else b"%d-%d" % (self.client, number)
        return folder(number, name, client=self.client, version=self.chance.choice((1, 2)))

    def make_file(self):
        number = self.next()
        content = self.chance.randbytes(self.chance.randrange(1, 3_000))
        name = b"file-%d-%d" % (self.client, number)
        (added,) = self.ask((number, file(number, name, len(content), len(content), client=self.client)))
        if added.kind == REFUSED:
            return
        (node,) = struct.unpack(">I", added.body)
        sent = piece(number + 1, node, 0, content, client=self.client)
        last = finish if self.chance.random() < 0.8 else abandon
        self.ask((number + 1, sent), (number + 2, last(number + 2, node, client=self.client)))


class Kills(InJournal):
    def setUp(self):
        super().setUp()
        self.chance = random.Random(SEED)
        self.synced = os.path.join(self.folder, "synced")
        self.env = preloaded("SYNCED", JOURNAL="/desk.journal", SYNCED=self.synced)
        self.answers = {client: ({}, {}) for client in range(1, CLIENTS + 1)}

    def test_kills(self):
        self.lives(lambda port: self.create(port))
        for _ in range(KILLS):
            self.lives(self.work)
            self.disturb()
        self.lives(self.look)
        self.agrees()

    def lives(self, use):
        """Starts the service, uses it and kills it. It has to begin with what was whole in the file."""
        before = contents(self.path) if os.path.exists(self.path) else b""
        torn = self.torn()
        found = read(before) if before else None
        with serving(self.path, "--forever", env=self.env, killed=True) as service:
            if found:
                self.assertFalse(found.damaged)
                rest = before[found.end :]
                self.assertEqual(contents(self.path)[: found.end], before[: found.end])
                self.assertEqual(self.torn()[len(torn) :], rest)
            use(service.port)
            service.process.kill()
            service.process.wait()
            said = service.process.stderr.read()
        lines = [b"journal: %d bytes behind the last whole record are now in %s.torn\n" % (len(rest), os.fsencode(self.path))] if found and rest else []
        self.assertEqual(said, b"".join(lines))

    def torn(self):
        path = self.path + ".torn"
        return contents(path) if os.path.exists(path) else b""

    def create(self, port):
        with connect(port) as stream:
            stream.sendall(create(1, client=1_000))
            self.assertEqual(len(read_exactly(stream, 22)), 22)

    def work(self, port):
        clients = [Client(number, port, random.Random(self.chance.random()), self.answers[number]) for number in self.answers]
        for client in clients:
            client.start()
        time.sleep(self.chance.uniform(0.002, LONGEST))
        # (the service is killed by `lives`, which ends the clients)
        self.clients = clients

    def disturb(self):
        """Waits for the clients, and leaves the file as a power cut may."""
        for client in self.clients:
            client.join()
            self.assertEqual(client.wrong, [])
        data = contents(self.path)
        kept = int(contents(self.synced))
        self.assertLessEqual(kept, len(data))
        if self.chance.random() < 0.5:
            data = data[: self.chance.randrange(kept, len(data) + 1)]
        if self.chance.random() < 0.3 and kept < len(data):
            data = self.with_a_hole(data, kept)
        if self.chance.random() < 0.5:
            data += self.rubbish(data)
        store(self.path, data)
        self.shown(data)

    def shown(self, data):
        """Each accepted command whose reply came is in the file with that reply."""
        there = {}
        for record in read(data).records:
            version, _, client, number, _ = HEADER.unpack_from(record.request)
            self.assertEqual(there.setdefault((client, number), record.reply), record.reply)
        for client, (replies, _) in self.answers.items():
            for number, reply in replies.items():
                self.assertEqual(there.get((client, number)), reply, (client, number))

    def with_a_hole(self, data, kept):
        """Some bytes behind what was on the disk are zeros, as where the blocks behind them came to the disk first."""
        start = self.chance.randrange(kept, len(data))
        end = min(len(data), start + self.chance.randrange(1, 5_000))
        return data[:start] + bytes(end - start) + data[end:]

    def rubbish(self, data):
        """Bytes that are no record behind these: any, zeros, an older record, or the front of one."""
        records = read(data).records
        older = record_bytes(bytes(16), Place(0, bytes(16), 0), self.chance.choice(records))
        kinds = (self.chance.randbytes(self.chance.randrange(1, 300)), bytes(self.chance.randrange(1, 5_000)), older, older[: len(older) // 2])
        return self.chance.choice(kinds)

    def look(self, port):
        """Asks for the export."""
        with connect(port) as stream:
            stream.sendall(frame(EXPORT, 1_001, 1, export_body()))
            header = read_exactly(stream, HEADER.size)
            self.export = header + read_exactly(stream, HEADER.unpack(header)[4])

    def agrees(self):
        """The model answers each request of the journal, in order, as the journal has it; and its export is the service's."""
        model = service_of_the_sample()
        for record in read(contents(self.path)).records:
            self.assertEqual(reply_to(model, *next(cut(record.request))), record.reply)
        self.assertEqual(reply_to(model, *next(cut(frame(EXPORT, 1_001, 1, export_body())))), self.export)


if __name__ == "__main__":
    unittest.main()
