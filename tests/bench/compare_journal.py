"""What a journal costs: `submit`, folders by clients that wait for their replies, and a start; beside the same without a
journal, and beside a loop that writes 300 bytes and calls fdatasync. That is measured once as this disk is, and once where
each fdatasync, the service's and the loop's, takes two milliseconds (slow_sync.c). And what it costs to make it smaller,
beside `cp`."""

import os
import subprocess
import sys
import tempfile
import time

sys.path.insert(0, os.path.join(os.path.dirname(os.path.abspath(__file__)), ".."))
from lib.connections import connect, free_port, read_exactly  # noqa: E402
from lib.frames import create, file, finish, folder, piece  # noqa: E402
from lib.program import PROGRAM  # noqa: E402

ROUNDS = int(os.environ.get("ROUNDS", "3"))
SUBMITTED = 256 << 20
PIECE = 256 << 10
CLIENTS = 16
FOLDERS = int(os.environ.get("FOLDERS", "20000"))
ALONE = 2_000
STARTED = int(os.environ.get("STARTED", "1000000"))
PIECES = int(os.environ.get("PIECES", str(4 << 30)))
# how many finished files have these pieces where the journal is made smaller
FINISHED = 1_000
# as long as a sync takes on a common disk that writes before it answers
SLOW = 2_000
# a profile has at most this many nodes
MOST_NODES = 100_000
REPLY = 22


class Service:
    """`serve --at-once`, in a `with`."""

    def __init__(self, *options, env=None):
        self.port = free_port()
        words = [PROGRAM, "serve", "--port", str(self.port), "--at-once", "64", "--forever", *options]
        self.process = subprocess.Popen(words, env=env, stdout=subprocess.PIPE, stderr=subprocess.DEVNULL)
        assert self.process.stdout.readline() == b"listening %d\n" % self.port

    def __enter__(self):
        return self

    def __exit__(self, *_):
        self.process.kill()
        self.process.wait()


def timed(call):
    begun = time.monotonic()
    call()
    return time.monotonic() - begun


def middle(values):
    return sorted(values)[len(values) // 2]


def submit(folder, top, *options):
    with Service(*options) as service:
        words = [PROGRAM, "submit", top, "--port", str(service.port), "--client", "1", "--quiet", "--export", os.path.join(folder, "out.csv"), "--piece-size", str(PIECE)]
        return timed(lambda: subprocess.run(words, check=True, stdout=subprocess.DEVNULL, stderr=subprocess.DEVNULL))


def folder_frame(number, client):
    """A frame that adds a folder. All have one size."""
    return folder(number, b"%02d-%06d" % (client, number), client=client)


def folders(where, clients, each, *options, env=None):
    """Seconds that `clients` clients take for `each` folders each, one at a time. The clients are of waiting_clients.c."""
    asked = [os.path.join(where, f"asked-{client}") for client in range(1, clients + 1)]
    for client, path in enumerate(asked, 1):
        with open(path, "wb") as made:
            made.writelines(folder_frame(number, client) for number in range(1, each + 1))
    words = [built(where, "waiting_clients.c", "waiting_clients"), None, len(folder_frame(1, 1)), REPLY, *asked]
    with Service(*options, env=env) as service:
        with connect(service.port) as stream:
            stream.sendall(create(1, client=1_000))
            read_exactly(stream, REPLY)
        words[1] = service.port
        return float(subprocess.run([str(word) for word in words], stdout=subprocess.PIPE, check=True).stdout)


# prints the seconds of a loop that writes 300 bytes and calls fdatasync
LOOP = """
import os, sys, time
made = os.open(sys.argv[1], os.O_WRONLY | os.O_CREAT | os.O_APPEND, 0o600)
begun = time.monotonic()
for _ in range(int(sys.argv[2])):
    os.write(made, bytes(300))
    os.fdatasync(made)
print(time.monotonic() - begun)
"""


def synced(path, count, env=None):
    """Seconds of that loop, in a process of its own."""
    seconds = float(subprocess.run([sys.executable, "-c", LOOP, path, str(count)], env=env, stdout=subprocess.PIPE, check=True).stdout)
    os.remove(path)
    return seconds


def built(folder, source, name, *options):
    """Builds a program or a library from a source in C beside this file, once, and returns its path."""
    made = os.path.join(folder, name)
    if not os.path.exists(made):
        given = os.path.join(os.path.dirname(os.path.abspath(__file__)), source)
        subprocess.run([os.environ.get("CC", "cc"), "-O2", *options, "-o", made, given, "-ldl"], check=True)
    return made


def slowed(folder):
    """The variables with which a program's fdatasync takes as long as that of a common disk."""
    made = built(folder, "slow_sync.c", "slow_sync.so", "-shared", "-fPIC")
    return os.environ | {"LD_PRELOAD": made, "SYNC_MICROSECONDS": str(SLOW)}


def compare_folders(folder, clients, count, wanted, env=None, where="this disk"):
    """Prints how many folders a second these clients make, beside the loop."""
    rates, loops = [], []
    for turn in range(ROUNDS):
        loops.append(ALONE / synced(os.path.join(folder, "loop"), ALONE, env))
        journal = os.path.join(folder, f"{clients}-{turn}-{env is None}")
        rates.append(count / folders(folder, clients, count // clients, "--journal", journal, env=env))
    rate, loop = middle(rates), middle(loops)
    print(f"folders by {clients} clients, {where}: {rate:.0f} a second, the loop {loop:.0f}: {rate / loop:.2f} ({wanted})")


def many_folders(count):
    """The frames of `count` folders, in as many profiles as they take."""
    number = 0
    for profile in range(1, -(-count // MOST_NODES) + 1):
        number += 1
        yield create(number)
        for name in range(min(MOST_NODES, count - (profile - 1) * MOST_NODES)):
            number += 1
            yield folder(number, b"%d" % name, profile=profile)


def many_pieces(size, pieces=64):
    """The frames of files of `pieces` pieces of 1 MiB each."""
    content = os.urandom(1 << 20)
    yield create(1)
    number = 1
    for node in range(1, size // (pieces << 20) + 1):
        number += 1
        yield file(number, b"%d" % node, pieces << 20, 1 << 20)
        for index in range(pieces):
            number += 1
            yield piece(number, node, index, content)
        number += 1
        yield finish(number, node)


def cached(path):
    """Reads a file, so that the system has what it is asked for next."""
    with open(path, "rb") as read:
        while read.read(1 << 24):
            pass


def start(folder, frames):
    """Seconds of a start over the journal of these requests, and those of the requests through `run`. Each file was read just
    before, so that no disk is measured."""
    asked, path = os.path.join(folder, "asked"), os.path.join(folder, "desk.journal")
    with open(asked, "wb") as made:
        made.writelines(frames)

    def through(given, *more):
        with open(given, "rb") as read:
            subprocess.run([PROGRAM, "run", *more], stdin=read, stdout=subprocess.DEVNULL, stderr=subprocess.DEVNULL, check=True)

    cached(asked)
    plain = timed(lambda: through(asked))
    written = timed(lambda: through(asked, "--journal", path))
    os.remove(asked)
    cached(path)
    begun = timed(lambda: through(os.devnull, "--journal", path))
    size = os.path.getsize(path)
    os.remove(path)
    return begun, plain, written, size


def compaction(folder):
    """Seconds of `compact` over a journal of finished files, and those of `cp` of it, and its size before and after."""
    path, copy = os.path.join(folder, "desk.journal"), os.path.join(folder, "copy.journal")
    with subprocess.Popen([PROGRAM, "run", "--journal", path], stdin=subprocess.PIPE, stdout=subprocess.DEVNULL, stderr=subprocess.DEVNULL) as written:
        for frame in many_pieces(PIECES, max(1, (PIECES >> 20) // FINISHED)):
            written.stdin.write(frame)
    assert written.returncode == 0
    copied, compacted = [], []
    for _ in range(ROUNDS):
        copied.append(timed(lambda: subprocess.run(["cp", path, copy], check=True)))
        # a journal's bytes are on the disk, those of a copy not yet
        with open(copy, "rb") as made:
            os.fsync(made.fileno())
        compacted.append(timed(lambda: subprocess.run([PROGRAM, "compact", "--quiet", copy], check=True, stderr=subprocess.DEVNULL)))
    sizes = os.path.getsize(path), os.path.getsize(copy)
    os.remove(path)
    os.remove(copy)
    return middle(compacted), middle(copied), *sizes


def main():
    place = os.environ.get("JOURNAL_FOLDER")
    with tempfile.TemporaryDirectory(dir=place) as folder_of_all:
        top = os.path.join(folder_of_all, "top")
        os.mkdir(top)
        for place in range(16):
            with open(os.path.join(top, str(place)), "wb") as made:
                made.write(os.urandom(SUBMITTED // 16))
        plain, kept = [], []
        for turn in range(ROUNDS):
            plain.append(submit(folder_of_all, top))
            kept.append(submit(folder_of_all, top, "--journal", os.path.join(folder_of_all, f"submit{turn}")))
            os.remove(os.path.join(folder_of_all, f"submit{turn}"))
        print(f"submit of 256 MiB: {middle(kept):.2f} s, without a journal {middle(plain):.2f} s: {middle(kept) / middle(plain):.2f} (1.6)")
        for env, where in (None, "this disk"), (slowed(folder_of_all), f"{SLOW} microseconds a sync"):
            compare_folders(folder_of_all, CLIENTS, FOLDERS, 8, env, where)
            compare_folders(folder_of_all, 1, ALONE, 0.8, env, where)
        for what, frames in (f"{STARTED} folders", many_folders(STARTED)), (f"{PIECES >> 20} MiB of pieces", many_pieces(PIECES)):
            begun, through, written, size = start(folder_of_all, frames)
            print(f"a start over {what}: {begun:.2f} s ({size} bytes), `run` {through:.2f} s: {begun / through:.2f} (1.2); with a journal {written:.2f} s")
        compacted, copied, before, after = compaction(folder_of_all)
        print(f"compaction of {before} bytes to {after} (at most 5000000): {compacted:.2f} s, `cp` {copied:.2f} s: {compacted / copied:.2f} (2)")


if __name__ == "__main__":
    main()
