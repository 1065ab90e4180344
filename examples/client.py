#!/usr/bin/env python3
"""A client of droid_desk in plain Python: sends one file to a service on this machine, and prints what the service
found.

Usage: client.py PORT CLIENT FILE [SECONDS]. It makes a profile with SHA-256, sends FILE in pieces of 1 MiB,
finishes it, and prints the method, the PUIDs (or `-`) and the hash. If the connection breaks, it connects again,
waits longer each time, and sends the same requests again. It gives up with status 1 after SECONDS without a reply
(60 unless given). The protocol: docs/SERVICE.md and docs/FORMATS.md; frames here are of version 2.
"""
import os
import socket
import struct
import sys
import time

HEADER = struct.Struct(">BBIQI")  # version, kind, client, number, length of the body
CREATE_PROFILE, ADD_FILE, PIECE, FINISH, REFUSED = 1, 3, 4, 5, 136
SHA256 = 2
PIECE_SIZE = 1 << 20
METHODS = ["none", "Signature", "Extension"]


class Client:
    """Sends one request at a time, until it has a reply."""

    def __init__(self, port, client, seconds):
        self.port, self.client, self.seconds = port, client, seconds
        self.number, self.stream = 0, None

    def ask(self, kind, body):
        """Sends a new request, and returns the body of its reply. The number stays the same however often it is
        sent."""
        self.number += 1
        request = HEADER.pack(2, kind, self.client, self.number, len(body)) + body
        pause, end = 0.05, time.monotonic() + self.seconds
        while True:
            try:
                reply_kind, reply = self.exchange(request, end)
                break
            except OSError as problem:
                self.close()
                if time.monotonic() + pause > end:
                    sys.exit(f"gave up after {self.seconds} seconds: {problem}")
                time.sleep(pause)
                pause = min(2 * pause, 5)
        if reply_kind == REFUSED:
            sys.exit(f"request {self.number} was refused: {reply[0]}")
        return reply

    def exchange(self, request, end):
        """Sends a request and reads its reply on the open connection, or on a new one."""
        if self.stream is None:
            self.stream = socket.create_connection(("127.0.0.1", self.port), timeout=max(end - time.monotonic(), 0.1))
        self.stream.settimeout(max(end - time.monotonic(), 0.1))
        self.stream.sendall(request)
        version, kind, client, number, length = HEADER.unpack(self.read(HEADER.size))
        if (version, client, number) != (2, self.client, self.number):
            raise OSError("the reply is to another request")
        return kind, self.read(length)

    def read(self, count):
        """Reads exactly this many bytes. The end of the connection is a broken connection here."""
        parts = b""
        while len(parts) < count:
            part = self.stream.recv(count - len(parts))
            if not part:
                raise OSError("the service closed the connection")
            parts += part
        return parts

    def close(self):
        if self.stream is not None:
            self.stream.close()
            self.stream = None


def main(port, number, path, seconds="60"):
    client = Client(int(port), int(number), float(seconds))
    size, modified = os.path.getsize(path), int(os.path.getmtime(path))
    (profile,) = struct.unpack(">I", client.ask(CREATE_PROFILE, struct.pack(">IBB", 65_536, 0, SHA256)))
    name = os.path.basename(path).encode()
    fields = struct.pack(">IIqQI", profile, 0, modified, size, PIECE_SIZE)
    (file,) = struct.unpack(">I", client.ask(ADD_FILE, fields + name))
    with open(path, "rb") as content:
        for index in range(-(-size // PIECE_SIZE)):
            client.ask(PIECE, struct.pack(">III", profile, file, index) + content.read(PIECE_SIZE))
    finished = client.ask(FINISH, struct.pack(">II", profile, file))
    client.close()
    method, digest, rest = METHODS[finished[0]], finished[3:35], finished[37:]
    puids = []
    while rest:
        puids.append(rest[1 : 1 + rest[0]].decode())
        rest = rest[1 + rest[0] :]
    print(method, ",".join(puids) or "-", digest.hex())


if __name__ == "__main__":
    main(*sys.argv[1:])
