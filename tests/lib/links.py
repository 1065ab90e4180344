"""A link to a service: a proxy of this machine that delays what passes, may cut connections, and may let replies trickle."""

import collections
import itertools
import select
import socket
import threading
import time

from lib.connections import HOST, listen, reset

CHUNK = 65_536
# one way is not read while this many bytes are under way on it
MOST_UNDER_WAY = 16 << 20
# how often the thread looks whether it is over, in seconds
LOOK = 0.2


class Way:
    """One way of a connection: from one socket to the other, each byte after the link's delay."""

    def __init__(self, source, target, trickle=None):
        self.source, self.target = source, target
        # how many bytes pass at a time, and the seconds between two times
        self.trickle = trickle
        # bytes with the moment at which they are due; None is the end
        self.under_way = collections.deque()
        self.size = 0
        self.ended = False
        self.next_time = 0.0

    def may_read(self):
        return not self.ended and self.size < MOST_UNDER_WAY

    def due(self):
        """The moment at which the next bytes are due, or None where nothing is under way."""
        return max(self.under_way[0][0], self.next_time) if self.under_way else None

    def read(self, delay):
        """Reads what has come."""
        part = self.source.recv(CHUNK)
        self.size += len(part)
        self.ended = not part
        self.under_way.append((time.monotonic() + delay, part or None))

    def write(self, most):
        """Writes the next bytes, at most so many, and returns them."""
        due, part = self.under_way.popleft()
        if part is None:
            self.target.shutdown(socket.SHUT_WR)
            return b""
        if self.trickle is not None:
            most = min(most, self.trickle[0])
            self.next_time = time.monotonic() + self.trickle[1]
        written = part[: self.target.send(part[:most])] if most else b""
        if len(written) < len(part):
            self.under_way.appendleft((due, part[len(written) :]))
        self.size -= len(written)
        return written


class Pair:
    """A connection: both its ways, and how many bytes may still pass, both ways together, before it is cut."""

    def __init__(self, client, service, left, trickle):
        self.there, self.back = Way(client, service), Way(service, client, trickle)
        self.left = left
        # what was handed on to the service
        self.sent = bytearray()

    def ways(self):
        return self.there, self.back

    def end(self, is_cut):
        """Closes both sockets; a cut resets them."""
        for one in (self.there.source, self.there.target):
            if is_cut:
                reset(one)
            else:
                one.close()


class Link(threading.Thread):
    """Passes connections to its port on to another port, in a `with`, many at once. Each byte takes `delay` seconds each
    way. `cuts` has for each connection, in order, after how many bytes it is cut, both ways together, or None: never.
    `trickle` says how many bytes of replies pass at a time, and the seconds between two times. `pairs` has all
    connections, `cut` counts those that were cut."""

    def __init__(self, to, delay=0.0, cuts=None, trickle=None):
        super().__init__(daemon=True)
        self.to, self.delay, self.trickle = to, delay, trickle
        self.cuts = itertools.repeat(None) if cuts is None else cuts
        self.listener = listen()
        self.listener.setblocking(False)
        self.port = self.listener.getsockname()[1]
        self.pairs, self.open = [], []
        self.cut = 0
        self.ended = False

    def __enter__(self):
        self.start()
        return self

    def __exit__(self, *_):
        self.ended = True
        self.join()
        self.listener.close()

    def run(self):
        while not self.ended:
            self.turn()
        for pair in self.open:
            pair.end(False)

    def turn(self):
        """Waits until something can be done, and does it."""
        now = time.monotonic()
        ways = [way for pair in self.open for way in pair.ways()]
        dues = [way.due() for way in ways if way.under_way]
        # a way whose bytes are due waits until its target takes them
        writing = [way.target for way in ways if way.under_way and way.due() <= now]
        later = [due - now for due in dues if due > now]
        readers = [self.listener, *(way.source for way in ways if way.may_read())]
        readable, writable, _ = select.select(readers, writing, [], min([LOOK, *later]))
        if self.listener in readable:
            self.accept()
        for pair in list(self.open):
            self.serve(pair, set(readable), set(writable))

    def accept(self):
        """Takes a connection, and makes the one to the service. The client is refused where the service is not there."""
        try:
            client, _ = self.listener.accept()
        except OSError:
            return
        try:
            service = socket.create_connection((HOST, self.to))
        except OSError:
            reset(client)
            return
        for one in (client, service):
            one.setblocking(False)
            one.setsockopt(socket.IPPROTO_TCP, socket.TCP_NODELAY, 1)
        self.open.append(Pair(client, service, next(self.cuts), self.trickle))
        self.pairs.append(self.open[-1])

    def serve(self, pair, readable, writable):
        """Reads and writes what can be, and ends the connection where it is cut, broken, or over."""
        try:
            for way in pair.ways():
                if way.source in readable and way.may_read():
                    way.read(self.delay)
                if way.target in writable and way.under_way and way.due() <= time.monotonic():
                    self.hand_on(pair, way)
        except BlockingIOError:
            return
        except OSError:
            return self.close(pair, True)
        if pair.left == 0:
            self.cut += 1
            self.close(pair, True)
        elif all(way.ended and not way.under_way for way in pair.ways()):
            self.close(pair, False)

    def hand_on(self, pair, way):
        written = way.write(CHUNK if pair.left is None else pair.left)
        if way is pair.there:
            pair.sent += written
        if pair.left is not None:
            pair.left -= len(written)

    def close(self, pair, is_cut):
        self.open.remove(pair)
        pair.end(is_cut)
