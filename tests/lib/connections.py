"""Sockets of this machine, and frames read from them. Nothing here waits longer than some seconds."""

import contextlib
import os
import socket
import struct
import threading

from lib.frames import HEADER

HOST = "127.0.0.1"
# how long a test waits for the program at most: longer by WAIT_SECONDS, on a machine that is busy
SECONDS = int(os.environ.get("WAIT_SECONDS", "30"))


def connect(port):
    """Connects to a port of this machine."""
    stream = socket.create_connection((HOST, port), timeout=SECONDS)
    stream.settimeout(SECONDS)
    return stream


def listen(port=0):
    """Listens on this port, or on a free one."""
    listener = socket.socket()
    listener.setsockopt(socket.SOL_SOCKET, socket.SO_REUSEADDR, 1)
    listener.bind((HOST, port))
    listener.listen(8)
    listener.settimeout(SECONDS)
    return listener


class Listening(threading.Thread):
    """A thread that listens on a free port, in a `with`, and takes one connection after the other: `take` is called with
    each."""

    def __init__(self):
        super().__init__(daemon=True)
        self.listener = listen()
        self.port = self.listener.getsockname()[1]

    def __enter__(self):
        self.start()
        return self

    def stop(self):
        """Listens no longer. This wakes the thread."""
        with contextlib.suppress(OSError):
            self.listener.shutdown(socket.SHUT_RDWR)

    def __exit__(self, *_):
        self.stop()
        self.join(SECONDS)
        self.listener.close()

    def run(self):
        while True:
            try:
                stream, _ = self.listener.accept()
            except OSError:
                return
            with stream:
                stream.settimeout(SECONDS)
                self.take(stream)

    def take(self, stream):
        raise NotImplementedError


def free_port():
    """Finds a port on which nobody listens."""
    with listen() as listener:
        return listener.getsockname()[1]


def read_exactly(stream, count):
    """Reads this many bytes, or fewer where the socket ends before."""
    read = b""
    while len(read) < count:
        part = stream.recv(count - len(read))
        if not part:
            break
        read += part
    return read


def read_until_reset(stream, count):
    """Reads this many bytes, or fewer where the socket ends before, by a close or by a reset. A reset comes where the
    other end closed before it had read all that was sent."""
    read = b""
    try:
        while len(read) < count and (part := stream.recv(count - len(read))):
            read += part
    except ConnectionResetError:
        pass
    return read


def read_frame(stream, version=1):
    """Reads the next frame, of this version: its kind, client, number and body, or None where the socket ends."""
    header = read_exactly(stream, HEADER.size)
    if not header:
        return None
    found, kind, client, number, length = HEADER.unpack(header)
    assert found == version, header
    body = read_exactly(stream, length)
    assert len(body) == length, body
    return kind, client, number, body


def send_until_reset(stream, requests):
    """Sends all of it, or as much as the other end takes before it closes."""
    try:
        stream.sendall(requests)
        stream.shutdown(socket.SHUT_WR)
    except OSError:
        pass


def exchange(port, requests, most):
    """Sends these requests on a connection of their own, and reads what comes back, at most this many bytes."""
    with connect(port) as stream:
        send_until_reset(stream, requests)
        return read_until_reset(stream, most)


def reset(stream):
    """Ends the connection by a reset: the other end can neither read more nor write."""
    stream.setsockopt(socket.SOL_SOCKET, socket.SO_LINGER, struct.pack("ii", 1, 0))
    stream.close()
