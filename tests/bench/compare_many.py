"""Many desks at once (`serve --at-once`), each figure beside its peer of the same run.

Usage: compare_many.py [ROUNDS] [PART ..], with the program's path in DROID_DESK and tests/ on Python's path. Prints a
line for each of five parts, with its limit. The parts `waiting` and `pieces` run ROUNDS rounds, 3 if no number is named, in
which both settings take turns, and print medians. Ends with status 1 if a desk was refused, or waited for longer than it
may.

In all parts and settings the service runs on one processor and the clients on those of other cores: where the scheduler
puts them on two threads of one core, each slows the other down by a third, and what is measured is the scheduler. On a
machine of one core nothing is pinned, and the first line says so.
"""
import os
import select
import socket
import statistics
import sys
import threading
import time
from typing import NamedTuple

from lib.connections import connect, read_exactly
from lib.cores import two_sides
from lib.frames import HEADER, LIMITS, REFUSED, TAKEN, create, file, finish, folder, piece, status
from lib.processes import processor_seconds, resident
from lib.program import Serve

SEATS = 64
ROUNDS = 3
# a Status of no profile, and the length of its reply
QUESTION = status(1, 1, client=99)
ANSWERED = HEADER.size + 1
# the length of a reply with a number
REPLY = HEADER.size + 4


class PinnedServe(Serve):
    """A service on the processor of its own, if there is one."""

    processor = None

    def __enter__(self):
        super().__enter__()
        if self.processor is not None:
            os.sched_setaffinity(self.process.pid, {self.processor})
        return self


def many(seats=SEATS):
    return PinnedServe(None, ["--at-once", str(seats), "--forever"], killed=True)


def one():
    return PinnedServe.lasting()


def pin():
    """Puts this process on the processors of the clients, and has services run on one of another core."""
    processor, clients = two_sides()
    if processor is None:
        print("many: one core alone: neither the service nor its clients are pinned", flush=True)
        return
    os.sched_setaffinity(0, clients)
    PinnedServe.processor = processor
    print(f"many: the service runs on processor {processor}, its clients on {clients}, of other cores", flush=True)


class Took(NamedTuple):
    """What some requests took: seconds by the clock, and of a processor in the service and in the clients."""

    clock: float
    service: float
    clients: float

    def __str__(self):
        """Says what part of the time both were at work: clients that are at work all the time are too slow."""
        return f"service {self.service / self.clock:.2f} and clients {self.clients / self.clock:.2f} processors"


def timed(service, work):
    """Returns what some work of the clients took."""
    start, theirs, own = time.perf_counter(), processor_seconds(service.process), time.process_time()
    work()
    return Took(
        time.perf_counter() - start, processor_seconds(service.process) - theirs, time.process_time() - own
    )


def in_turns(rounds, *settings):
    """Runs each setting in this number of rounds, in turns, and returns the runs of the middle by the clock."""
    runs = [[setting() for setting in settings] for _ in range(rounds)]
    return [sorted(each)[rounds // 2] for each in zip(*runs)]


def reply_of(stream):
    """Reads a reply: its kind, and its body."""
    _, kind, _, _, length = HEADER.unpack(read_exactly(stream, HEADER.size))
    return kind, read_exactly(stream, length)


def ask(stream, request):
    """Sends a request, and returns the body of its reply. No reply may be a refusal."""
    stream.sendall(request)
    kind, body = reply_of(stream)
    if kind == REFUSED:
        sys.exit(f"refused: {body!r}")
    return body


# ---- one that asks, beside silent ones

SILENT, QUESTIONS = 63, 10_000


def time_of_questions(port):
    """Returns the median of the seconds from a Status to its reply, one after the other."""
    took = []
    with connect(port) as stream:
        stream.setsockopt(socket.IPPROTO_TCP, socket.TCP_NODELAY, 1)
        for _ in range(QUESTIONS):
            start = time.perf_counter()
            stream.sendall(QUESTION)
            stream.recv(ANSWERED)
            took.append(time.perf_counter() - start)
    return statistics.median(took)


def beside_silent_ones(_rounds):
    with one() as service:
        alone = time_of_questions(service.port)
    with many() as service:
        silent = [connect(service.port) for _ in range(SILENT)]
        for stream in silent:
            stream.sendall(QUESTION[: len(QUESTION) // 2])
        beside = time_of_questions(service.port)
    print(
        f"many: a Status beside {SILENT} connections that wait within a frame: {beside * 1e6:.1f} µs in the middle, with one"
        f" connection and without --at-once {alone * 1e6:.1f}; ratio {beside / alone:.2f}, limit 1.3",
        flush=True,
    )
    return True


# ---- clients that each wait for each reply

CLIENTS, FOLDERS = 32, 5_000


def folders_of(client):
    """Yields the requests of a client in its own profile, which is made before."""
    return [folder(2 + at, b"folder %d" % at, client=client, profile=client) for at in range(FOLDERS)]


def make_profiles(port, count, **profile):
    """Makes profiles 1 to `count`, each by the client of its number."""
    with connect(port) as stream:
        for client in range(1, count + 1):
            ask(stream, create(1, client=client, **profile))


def send_ahead():
    """Has one client send all of it ahead."""
    frames = [frame for rows in zip(*(folders_of(client) for client in range(1, CLIENTS + 1))) for frame in rows]
    joined = b"".join(frames)
    with one() as service:
        make_profiles(service.port, CLIENTS)
        with connect(service.port) as stream:
            return timed(service, lambda: exchange_all(stream, joined, len(frames) * REPLY))


def exchange_all(stream, requests, count):
    """Sends all requests, and reads `count` bytes of replies meanwhile."""
    sender = threading.Thread(target=stream.sendall, args=(requests,), daemon=True)
    sender.start()
    read_all(stream, count)


def read_all(stream, count):
    """Reads this many bytes, and keeps none of them."""
    room = bytearray(1 << 16)
    while count:
        size = stream.recv_into(room, min(count, len(room)))
        if size == 0:
            sys.exit("the replies end too early")
        count -= size


def take_turns(streams, requests):
    """Each stream sends its next request when the reply to the one before has come, of 22 bytes."""
    poll = select.epoll()
    by_number = {}
    for stream, rows in zip(streams, requests):
        # (a method that is looked up once, and a socket that does not wait, cost less for each request)
        stream.setblocking(False)
        following = iter(rows)
        by_number[stream.fileno()] = stream.recv, stream.send, following
        poll.register(stream, select.EPOLLIN)
        stream.send(next(following))
    left = len(streams)
    while left:
        for number, _ in poll.poll():
            recv, send, rows = by_number[number]
            if len(recv(REPLY)) != REPLY:
                sys.exit("a reply came in parts")
            following = next(rows, None)
            if following is None:
                poll.unregister(number)
                left -= 1
            else:
                send(following)


def wait_for_each():
    """Has clients that each wait for the reply before they send the next request."""
    with many() as service:
        make_profiles(service.port, CLIENTS)
        streams = [connect(service.port) for _ in range(CLIENTS)]
        for stream in streams:
            stream.setsockopt(socket.IPPROTO_TCP, socket.TCP_NODELAY, 1)
        requests = [folders_of(client) for client in range(1, CLIENTS + 1)]
        return timed(service, lambda: take_turns(streams, requests))


def waiting_clients(rounds):
    ahead, took = in_turns(rounds, send_ahead, wait_for_each)
    count = CLIENTS * FOLDERS
    print(
        f"many: {CLIENTS} clients with {FOLDERS} folders each, a wait for each reply: {count / took.clock:.0f} requests a second"
        f" ({took}); one that sends ahead: {count / ahead.clock:.0f} ({ahead}); ratio {ahead.clock / took.clock:.2f},"
        " at least 0.9",
        flush=True,
    )
    return True


# ---- clients that send pieces

PIECE, PIECES = 256 << 10, 256


def pieces_of(client):
    """Yields the requests of a client's file, in its own profile."""
    content = bytes(range(256)) * (PIECE // 256)
    yield file(2, b"large.bin", PIECE * PIECES, PIECE, client=client, profile=client)
    for index in range(PIECES):
        yield piece(3 + index, 1, index, content, client=client, profile=client)


def send_pieces(port, clients, ended):
    """Sends the files of these clients on one connection, and notes when the last reply came."""
    with connect(port) as stream:
        sender = threading.Thread(target=send_all, args=(stream, clients), daemon=True)
        sender.start()
        read_all(stream, len(clients) * (PIECES + 1) * REPLY)
        ended.append(time.perf_counter())


def send_all(stream, clients):
    for client in clients:
        for request in pieces_of(client):
            stream.sendall(request)


def send_at_once(port, ended):
    """Has each client send its file on a connection of its own."""
    threads = [threading.Thread(target=send_pieces, args=(port, [client], ended)) for client in range(1, CLIENTS + 1)]
    for thread in threads:
        thread.start()
    for thread in threads:
        thread.join()


def pieces_of_one():
    with one() as service:
        make_profiles(service.port, CLIENTS)
        return timed(service, lambda: send_pieces(service.port, range(1, CLIENTS + 1), []))


def pieces_of_many(slowest):
    """Notes the least of the clients' rates beside their mean."""
    with many() as service:
        make_profiles(service.port, CLIENTS)
        ended = []
        start = time.perf_counter()
        took = timed(service, lambda: send_at_once(service.port, ended))
    rates = [PIECE * PIECES / (end - start) for end in ended]
    slowest.append(min(rates) / statistics.mean(rates))
    return took


def large_files(rounds):
    slowest = []
    alone, took = in_turns(rounds, pieces_of_one, lambda: pieces_of_many(slowest))
    total = CLIENTS * PIECE * PIECES
    print(
        f"many: {CLIENTS} clients with {PIECE * PIECES >> 20} MiB each in pieces of {PIECE >> 10} KiB: {total / took.clock / 1e6:.0f} MB a"
        f" second ({took}); one client with all of it: {total / alone.clock / 1e6:.0f} ({alone}); ratio"
        f" {alone.clock / took.clock:.2f}, at least 0.95; the slowest client has {min(slowest):.2f} of the mean, at least 0.5",
        flush=True,
    )
    return True


# ---- one that asks for dear things without end

ASKING, ROUNDS = 16, 50


def dear_pieces(stream):
    """Sends files of 16 pieces of 4 MiB, the first one last, so that it has all of them hashed: without end."""
    size = LIMITS[2].piece
    content = bytes(size)
    number = 2
    try:
        for node in range(1, 1_000):
            stream.sendall(file(number, b"%d" % node, 16 * size, size, client=1, version=2))
            for index in [*range(1, 16), 0]:
                number += 1
                stream.sendall(piece(number, node, index, content, client=1, version=2))
            stream.sendall(finish(number + 1, node, client=1, version=2))
            number += 2
    except OSError:
        return


def beside_dear_ones(_rounds):
    worst, count = 0.0, 0
    with many() as service:
        with connect(service.port) as stream:
            ask(stream, create(1, client=1, version=2))
        dear = connect(service.port)
        dear.settimeout(None)
        sender = threading.Thread(target=dear_pieces, args=(dear,), daemon=True)
        sender.start()
        taken = []
        reader = threading.Thread(target=read_kinds, args=(dear, taken), daemon=True)
        reader.start()
        for _ in range(1_000):
            if TAKEN in taken:
                break
            time.sleep(0.01)
        streams = [connect(service.port) for _ in range(ASKING)]
        for _ in range(ROUNDS):
            for stream in streams:
                stream.sendall(QUESTION)
            start = time.perf_counter()
            for stream in streams:
                stream.recv(ANSWERED)
                worst = max(worst, time.perf_counter() - start)
                count += 1
            time.sleep(0.05)
        pieces = taken.count(TAKEN)
    print(
        f"many: {ASKING} that ask Status beside one that sends pieces of 4 MiB, fifteen of which wait for the next: the longest of"
        f" {count} took {worst * 1000:.0f} milliseconds, limit 1000; {pieces} pieces were taken meanwhile",
        flush=True,
    )
    return worst <= 1 and pieces > 0


def read_kinds(stream, kinds):
    """Notes the kinds of all replies, until the connection ends."""
    try:
        while header := read_exactly(stream, HEADER.size):
            _, kind, _, _, length = HEADER.unpack(header)
            read_exactly(stream, length)
            kinds.append(kind)
    except (OSError, ValueError):
        return


# ---- connections without a byte

OPENED = 10_000
FIRST = 1_000


def open_and_close(port, rounds):
    for _ in range(rounds):
        streams = [socket.create_connection(("127.0.0.1", port)) for _ in range(SEATS)]
        for stream in streams:
            stream.close()


def resident_at_rest(service):
    """Returns the service's memory once it has closed all connections: an open one has a buffer of 64 KiB."""
    with connect(service.port) as stream:
        stream.sendall(QUESTION)
        stream.recv(ANSWERED)
    time.sleep(0.2)
    return resident(service.process)


def opened_and_closed(_rounds):
    with many() as service:
        open_and_close(service.port, FIRST)
        before = resident_at_rest(service)
        start = time.perf_counter()
        open_and_close(service.port, OPENED)
        took = time.perf_counter() - start
        grown = resident_at_rest(service) - before
    print(
        f"many: {SEATS} connections opened and closed without a byte, {OPENED} times: {OPENED * SEATS / took:.0f} a second, at least 5000;"
        f" memory grew by {grown} bytes",
        flush=True,
    )
    return grown <= 1 << 16


PARTS = {
    "silent": beside_silent_ones,
    "waiting": waiting_clients,
    "pieces": large_files,
    "dear": beside_dear_ones,
    "opened": opened_and_closed,
}


def main():
    rounds, names = ROUNDS, sys.argv[1:]
    if names and names[0].isdigit():
        rounds = int(names.pop(0))
    pin()
    return 0 if all([PARTS[name](rounds) for name in names or PARTS]) else 1


sys.exit(main())
