"""`serve --at-once` and 64 desks by chance. All work in one profile, in both versions; some are cut within a frame, some
wait within one, some send slowly. There is an order of all requests, with each desk's own order kept, in which the model
(model_frames.py) gives each desk exactly what it got. The replies show that order: by the numbers of nodes, and in an
export by how many commands were accepted before it."""

import random
import select
import socket
import struct
import unittest

from lib.connections import connect, read_exactly
from lib.frames import ADD_FOLDER, CAUSES, EXPORT, HEADER, NODE, PART, REFUSED, STATUS
from lib.frames import create, cut, export_body, folder_body, frame, node_body
from lib.program import Serve
from model_frames import reply_to, service_of_the_sample

DESKS, SEATS, REQUESTS = 64, 48, 25
SEEDS = 3


class Desk:
    """A client: its requests, how many of their bytes it sends, and what came back."""

    def __init__(self, chance, client):
        self.client = client
        self.sent = [self.request(chance, number) for number in range(1, REQUESTS)]
        for place in range(3, len(self.sent), 7):
            self.sent[place] = self.sent[place - 2]
        bytes_of = b"".join(self.sent)
        # a third ends or waits at any byte
        self.waits = chance.random() < 0.12
        self.left = bytes_of[: chance.randrange(len(bytes_of))] if self.waits or chance.random() < 0.2 else bytes_of
        self.due = len(list(whole_frames(self.left)))
        self.came = b""
        self.stream = None

    def request(self, chance, number):
        """Makes a request: a folder, of which another desk may have the name or may not have made the parent yet, or a
        question."""
        version, kind = chance.choice((1, 2)), chance.randrange(10)
        if kind == 0:
            body = export_body(start=chance.randrange(500), most=chance.randrange(1, 400))
            return frame(EXPORT, self.client, number, body, version)
        if kind == 1:
            return frame(STATUS, self.client, number, node_body(chance.randrange(1, 400)), version)
        name = b"%d" % chance.randrange(40) if kind < 6 else b"%d-%d" % (self.client, number)
        parent = chance.choice((0, 0, 0, chance.randrange(1, 200)))
        return frame(ADD_FOLDER, self.client, number, folder_body(name, parent), version)

    def send(self, chance):
        """Sends some more, and reads what has come. Returns whether all was sent."""
        size = chance.choice((1, 7, 40, 200, 2_000))
        self.stream.sendall(self.left[:size])
        self.left = self.left[size:]
        self.read()
        if not self.left and not self.waits:
            self.stream.shutdown(socket.SHUT_WR)
        return not self.left

    def read(self):
        while select.select([self.stream], [], [], 0)[0] and (part := self.stream.recv(65_536)):
            self.came += part

    def end(self):
        """Reads the other replies: up to the end, or as many as there have to be where it waits."""
        if self.waits:
            while len(list(whole_frames(self.came))) < self.due:
                self.came += self.stream.recv(65_536)
        else:
            self.came += read_exactly(self.stream, 1 << 26)
        self.stream.close()

    def steps(self):
        """Returns its requests, each with its reply."""
        replies = list(cut(self.came))
        assert len(replies) == self.due, (self.client, len(replies), self.due)
        return list(zip(cut(b"".join(self.sent)), replies))


def whole_frames(stream):
    """Yields the whole frames at the front of these bytes."""
    while len(stream) >= HEADER.size and len(stream) >= (size := HEADER.size + HEADER.unpack_from(stream)[4]):
        yield stream[:size]
        stream = stream[size:]


class Order:
    """The model, which was asked some of the requests."""

    def __init__(self):
        self.model = service_of_the_sample()
        self.ask(*cut(create(1, client=1_000)))

    def ask(self, request):
        return reply_to(self.model, *request)

    def nodes(self):
        return self.model.profiles[1].nodes

    def is_new(self, request, reply):
        return reply.kind == NODE and (request.client, request.number) not in self.model.kept

    def may_be_next(self, request, reply):
        """Whether the request may be the next one, by its reply. What changes nothing may come as soon as its reply fits."""
        if (request.client, request.number) in self.model.kept:
            return True
        if reply.kind == NODE:
            return reply.body == struct.pack(">I", len(self.nodes()) + 1)
        if reply.kind == PART:
            return struct.unpack_from(">Q", reply.body) == (len(self.model.kept),)
        if reply.kind == REFUSED and reply.body[0] == CAUSES["NameTaken"]:
            _, parent, _ = struct.unpack_from(">IIq", request.body)
            return (parent, request.body[16:]) in self.model.profiles[1].names
        return self.fits(request, reply)

    def fits(self, request, reply):
        """Of a request that names a node: whether the node is there or not, as the reply says."""
        _, node = struct.unpack_from(">II", request.body)
        is_missing = reply.body[0] == CAUSES["NoSuchNode"]
        return (node not in self.nodes()) == is_missing


class ManyDesks(unittest.TestCase):
    def test_by_chance(self):
        for seed in range(SEEDS):
            with self.subTest(seed=seed):
                self.by_chance(random.Random(seed))

    def by_chance(self, chance):
        desks = [Desk(chance, client) for client in range(DESKS)]
        # those that wait keep their seats
        chance.shuffle(desks)
        with Serve(None, ["--at-once", str(SEATS), "--forever"], killed=True) as service:
            with connect(service.port) as first:
                first.sendall(create(1, client=1_000))
                first.shutdown(socket.SHUT_WR)
                read_exactly(first, 1 << 10)
            for desk in desks:
                desk.stream = connect(service.port)
            sending = list(desks)
            while sending:
                desk = chance.choice(sending)
                if desk.send(chance):
                    sending.remove(desk)
            for desk in desks:
                desk.end()
        self.has_an_order([desk.steps() for desk in desks])

    def has_an_order(self, desks):
        order = Order()
        while any(desks):
            # what changes nothing comes as early as it may, and then one new node
            while any([self.go_on(order, steps) for steps in desks]):
                pass
            new = [steps for steps in desks if steps and order.may_be_next(*steps[0])]
            self.assertTrue(new or not any(desks), f"no order goes on before {sum(map(len, desks))} requests")
            if new:
                self.ask(order, new[0])

    def go_on(self, order, steps):
        """Asks the desk's next requests up to a new node; returns whether it asked any."""
        before = len(steps)
        while steps and not order.is_new(*steps[0]) and order.may_be_next(*steps[0]):
            self.ask(order, steps)
        return len(steps) < before

    def ask(self, order, steps):
        request, reply = steps.pop(0)
        self.assertEqual(order.ask(request), frame(reply.kind, reply.client, reply.number, reply.body, reply.version))


if __name__ == "__main__":
    unittest.main()
