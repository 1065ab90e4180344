"""The built program: its commands as processes. The variable DROID_DESK has the program's path, PRELOAD_STREAMS and
PRELOAD_REFUSE those of libraries for LD_PRELOAD (streams.c and refuse.c)."""

import os
import socket
import subprocess

from lib.connections import SECONDS, free_port, read_exactly
from lib.frames import CREATE_PROFILE, HEADER, LIMITS, MADE, MD5, frame, profile_body

PROGRAM = os.environ["DROID_DESK"]
TOP = os.path.dirname(os.path.dirname(os.path.dirname(os.path.abspath(__file__))))
SAMPLE = os.path.join(TOP, "tests", "program", "sample_registry.csv")
EVERYDAY = os.path.join(TOP, "registries", "common.csv")
# the service takes at most this many connections
MOST_CONNECTIONS = 1_000
# the tests of `serve` are run once more with these options: `--at-once 8`
MORE_OPTIONS = os.environ.get("SERVE_OPTIONS", "").split()
# on this many free ports a service is tried
TRIES = 5
# this many requests are sent before their replies are read
BATCH = 1_000
# `run` and `serve` print this first on standard error where they have the sample registry
SAMPLE_NOTE = b"registry: the sample of four invented formats, for trying: use --everyday or --registry FILE for real ones\n"


def preloaded(library, **variables):
    """Returns an environment that preloads a library, "STREAMS" or "REFUSE", with these variables."""
    found = {name: str(value) for name, value in variables.items()}
    return os.environ | {"LD_PRELOAD": os.environ[f"PRELOAD_{library}"]} | found


def faults(said):
    """Returns standard error (bytes) without notes on the registry and without the one sentence behind each fault. The
    stored cases (tests/program/cases) and the tests of single faults have these sentences."""
    kept, behind_fault = [], False
    for line in said.splitlines(keepends=True):
        if not behind_fault and not line.startswith(b"registry: "):
            kept.append(line)
        behind_fault = not behind_fault and line.startswith(b"fault: ")
    assert not behind_fault, said
    return b"".join(kept)


def run_plainly(arguments, given=b"", out=subprocess.PIPE, env=None):
    """Runs the program over these bytes: its status, its standard output, and its standard error as text."""
    done = subprocess.run(
        [PROGRAM, *map(str, arguments)], input=given, stdout=out, stderr=subprocess.PIPE, timeout=SECONDS, env=env
    )
    return done.returncode, done.stdout, done.stderr.decode("ascii")


def run(arguments, given=b"", out=subprocess.PIPE, env=None):
    """Runs the program as `run_plainly` does, and returns of its standard error the faults."""
    status, written, said = run_plainly(arguments, given, out, env)
    return status, written, faults(said.encode("ascii")).decode("ascii")


def send(port, client, lines, first=None, env=None):
    """Runs `send` over these lines."""
    more = [] if first is None else ["--first", first]
    return run(["send", "--port", port, "--client", client, *more], lines, env=env)


class Serve:
    """`serve` on this port or on a free one, for this many connections, in a `with`. At its end the service has to have
    ended with status 0 and without a word; or, where it is `killed`, it is ended then, whatever it does."""

    def __init__(self, connections=None, options=(), port=None, env=None, killed=False):
        self.port = port
        self.env = env
        self.killed = killed
        self.options = [*options, *MORE_OPTIONS]
        if connections is not None:
            self.options += ["--connections", str(connections)]

    @classmethod
    def lasting(cls, options=()):
        """A service for as many connections as it takes."""
        return cls(MOST_CONNECTIONS, options, killed=True)

    def begin(self, port):
        """Starts it on this port, and returns whether it listens."""
        self.process = subprocess.Popen(
            [PROGRAM, "serve", "--port", str(port), *self.options],
            stdin=subprocess.DEVNULL,
            stdout=subprocess.PIPE,
            stderr=subprocess.PIPE,
            env=self.env,
        )
        return self.process.stdout.readline() == f"listening {port}\n".encode("ascii")

    def __enter__(self):
        # another program may take a free port before the service does
        ports = [self.port] if self.port else (free_port() for _ in range(TRIES))
        for self.port in ports:
            if self.begin(self.port):
                return self
            said = self.process.communicate(timeout=SECONDS)
        raise AssertionError(said)

    def __exit__(self, kind, value, trace):
        is_killed = self.killed or kind is not None
        if is_killed:
            self.process.kill()
        out, err = self.process.communicate(timeout=SECONDS)
        if not is_killed:
            assert (self.process.returncode, out, faults(err)) == (0, b"", b""), (self.process.returncode, out, err)


class Run:
    """`run` over a pair of sockets, in a `with`. Requests of one client are numbered from 1, in one version. A
    reply may take this many seconds."""

    def __init__(self, *options, version=1, client=1, seconds=SECONDS):
        self.near, far = socket.socketpair()
        self.near.settimeout(seconds)
        self.process = subprocess.Popen([PROGRAM, "run", *options], stdin=far, stdout=far)
        far.close()
        self.version, self.client, self.number = version, client, 0
        self.most = LIMITS[version]

    def __enter__(self):
        return self

    def __exit__(self, *_):
        self.near.shutdown(socket.SHUT_WR)
        self.near.close()
        assert self.process.wait() == 0, self.process.returncode

    def requests(self, kind, bodies):
        """Returns the frames of these bodies, under the next numbers."""
        first = self.number + 1
        self.number += len(bodies)
        return [frame(kind, self.client, first + place, body, self.version) for place, body in enumerate(bodies)]

    def reply(self, due):
        """Reads a reply, which has to be of this kind: its body."""
        version, kind, _, _, length = HEADER.unpack(read_exactly(self.near, HEADER.size))
        body = read_exactly(self.near, length)
        assert (version, kind) == (self.version, due), (version, kind, body[:20], due)
        return body

    def ask_all(self, kind, bodies, due):
        """Sends requests of one kind, and returns the bodies of their replies."""
        found = []
        for start in range(0, len(bodies), BATCH):
            requests = self.requests(kind, bodies[start : start + BATCH])
            self.near.sendall(b"".join(requests))
            found += [self.reply(due) for _ in requests]
        return found

    def ask(self, kind, body, due):
        """Sends one request, and returns the body of its reply."""
        return self.ask_all(kind, [body], due)[0]

    def create(self, hash=MD5):
        """Makes a profile, and returns its number."""
        return int.from_bytes(self.ask(CREATE_PROFILE, profile_body(version=self.version, hash=hash), MADE), "big")
