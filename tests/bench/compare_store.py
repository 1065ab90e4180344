"""Adds folders to a service with many nodes, and abandons files in it, and runs the same statements by Python's
sqlite3, at as many nodes, with names in no order and 50 clients in turn.

Usage: compare_store.py [RUNS], with the program's path in DROID_DESK and tests/ on Python's path. Prints the
microseconds and the bytes for each folder of both, the median of all runs (3 by default) with the least and the
most, beside the limits. The service's time is that of a processor for the whole request: its frame, its mark, its
look-ups and its commit. With the word `sqlite3` and numbers of nodes it is Python's run, and prints its figures.
"""
import sqlite3
import statistics
import subprocess
import sys
import time
from typing import NamedTuple

from lib.connections import connect, read_exactly
from lib.frames import ABANDONED, HEADER, MADE, MOST_NODES, NODE, abandon, create, file, folder
from lib.processes import processor_milliseconds, resident
from lib.program import Serve

RUNS = 3
# the numbers of nodes at which a folder is measured, over how many folders and how many removals
COUNTS = [1_000, 10_000, 100_000, 1_000_000]
MEASURED = 500
REMOVED = 50
CLIENTS = 50
BATCH = 1_000
# the limits: how many times as long as Python's a folder takes, how many times as long at the most nodes as at the
# fewest, the microseconds of a removal, and the bytes of a folder with its reply
TIMES_PYTHON = 1.5
TIMES_FEWEST = 2
REMOVAL = 100
BYTES = 900

TABLES = [
    "CREATE TABLE profiles (id INTEGER PRIMARY KEY, scan_limit INTEGER NOT NULL, match_all INTEGER NOT NULL, nodes INTEGER NOT NULL,"
    " hash INTEGER NOT NULL)",
    "CREATE TABLE nodes (profile INTEGER NOT NULL, id INTEGER NOT NULL, parent INTEGER NOT NULL, modified INTEGER NOT NULL,"
    " state INTEGER NOT NULL, size INTEGER NOT NULL, piece_size INTEGER NOT NULL, method INTEGER NOT NULL, mismatch INTEGER NOT NULL,"
    " name TEXT NOT NULL, path TEXT NOT NULL, formats TEXT NOT NULL, hash BLOB NOT NULL,"
    " PRIMARY KEY (profile, id), UNIQUE (profile, parent, name))",
    "CREATE TABLE replies (seq INTEGER PRIMARY KEY, client INTEGER NOT NULL, number INTEGER NOT NULL, version INTEGER NOT NULL,"
    " kind INTEGER NOT NULL, mark BLOB NOT NULL, body BLOB NOT NULL, UNIQUE (client, number))",
]


def look_up(db, client, number):
    if db.execute("SELECT version, kind, mark, body FROM replies WHERE client = ?1 AND number = ?2", (client, number)).fetchone():
        raise SystemExit("the number is kept")


def add_reply(db, client, number, kind, body):
    db.execute(
        "INSERT INTO replies (client, number, version, kind, mark, body) VALUES (?1, ?2, ?3, ?4, ?5, ?6)",
        (client, number, 1, kind, b"\xd4" * 16, body),
    )


def add_node(db, state, size):
    """Runs the look-ups of a node's request, and its transaction."""
    nodes = db.execute("SELECT scan_limit, match_all, nodes, hash FROM profiles WHERE id = ?1", (1,)).fetchone()[2]
    node = nodes + 1
    name = f"{node * 0x9E3779B97F4A7C15 % 2**64:016x}"
    look_up(db, node % CLIENTS, node // CLIENTS)
    if db.execute("SELECT id FROM nodes WHERE profile = ?1 AND parent = ?2 AND name = ?3", (1, 0, name)).fetchone():
        raise SystemExit("the name is taken")
    db.execute("BEGIN")
    db.execute(
        "INSERT INTO nodes (profile, id, parent, modified, state, size, piece_size, method, mismatch, name, path, formats, hash)"
        " VALUES (?1, ?2, ?3, ?4, ?5, ?6, ?7, 0, 0, ?8, ?9, '', x'')",
        (1, node, 0, 0, state, size, size, name, "/" + name),
    )
    db.execute("UPDATE profiles SET nodes = ?2 WHERE id = ?1", (1, node))
    add_reply(db, node % CLIENTS, node // CLIENTS, 130, b"\0\0\0\1")
    db.execute("COMMIT")
    return node


def remove(db, node):
    """Runs the look-ups of a removal's request, and its transaction."""
    look_up(db, CLIENTS, node)
    row = db.execute(
        "SELECT id, parent, modified, state, size, piece_size, method, mismatch, name, path, formats, hash FROM nodes"
        " WHERE profile = ?1 AND id = ?2",
        (1, node),
    ).fetchone()
    if row[3] != 1:
        raise SystemExit("the file is not unfinished")
    db.execute("BEGIN")
    db.execute("DELETE FROM nodes WHERE profile = ?1 AND id = ?2", (1, node))
    add_reply(db, CLIENTS, node, 133, b"")
    db.execute("COMMIT")


def times(run, count):
    """Returns the nanoseconds of each of this many runs."""
    start = time.perf_counter()
    for _ in range(count):
        run()
    return (time.perf_counter() - start) / count * 1e9


def opened():
    db = sqlite3.connect(":memory:", isolation_level=None)
    for table in TABLES:
        db.execute(table)
    db.execute("INSERT INTO profiles (id, scan_limit, match_all, nodes, hash) VALUES (1, 65536, 0, 0, 1)")
    return db


def run_python(counts):
    """Prints a folder's time, its bytes and a removal's time at each of these numbers of nodes."""
    before = resident()
    db = opened()
    filled = 0
    for count in counts:
        for _ in range(filled, count - MEASURED):
            add_node(db, 0, 0)
        folder = times(lambda: add_node(db, 0, 0), MEASURED)
        print(f"store: a folder at {count} nodes in {folder:.0f} nanoseconds")
        print(f"  resident: {(resident() - before) // count} bytes for each folder with its reply")
        files = [add_node(db, 1, 1000) for _ in range(REMOVED)]
        removal = times(lambda: remove(db, files.pop()), REMOVED)
        print(f"store: a removal at {count} nodes in {removal:.0f} nanoseconds")
        filled = count + REMOVED


def run_python(counts):
    """Prints for each number of nodes a folder's microseconds, its bytes, and a removal's microseconds."""
    before = resident(Own)
    db = opened()
    filled = 0
    for count in counts:
        for _ in range(filled, count - MEASURED):
            add_node(db, 0, 0)
        folder = times(lambda: add_node(db, 0, 0), MEASURED) / 1000
        kept = (resident(Own) - before) // count
        files = [add_node(db, 1, 1000) for _ in range(REMOVED)]
        removal = times(lambda: remove(db, files.pop()), REMOVED) / 1000
        print(count, folder, kept, removal)
        filled = count + REMOVED


class Own:
    """This process."""

    pid = "self"


class Figures(NamedTuple):
    """A folder's microseconds, its bytes, and a removal's microseconds."""

    folder: float
    bytes: int
    removal: float


def name_of(number):
    return b"%016x" % (number * 0x9E3779B97F4A7C15 % 2**64)


class Filled:
    """A service with many folders. One connection may have a million requests, so there are several."""

    def __init__(self, service):
        self.service, self.nodes, self.profiles, self.stream = service, 0, 0, None

    def place_of(self, node):
        """Returns the profile of a node, and its number in it."""
        return node // MOST_NODES + 1, node % MOST_NODES + 1

    def send(self, requests, kind):
        """Sends requests, each with a reply of this kind, and returns their microseconds of a processor."""
        before = processor_milliseconds(self.service.process)
        size = HEADER.size + (0 if kind == ABANDONED else 4)
        for start in range(0, len(requests), BATCH):
            batch = requests[start : start + BATCH]
            self.stream.sendall(b"".join(batch))
            replies = read_exactly(self.stream, size * len(batch))
            if set(replies[1::size]) != {kind}:
                sys.exit(f"answered {replies[:size].hex()}")
        return (processor_milliseconds(self.service.process) - before) * 1000 / len(requests)

    def next_nodes(self, count):
        """Takes numbers for nodes, and makes the profiles that they need."""
        nodes = range(self.nodes, self.nodes + count)
        while self.profiles < self.place_of(nodes[-1])[0]:
            if self.stream:
                self.stream.close()
            self.stream = connect(self.service.port)
            self.stream.settimeout(None)
            self.profiles += 1
            self.send([create(self.profiles, client=CLIENTS)], MADE)
        self.nodes += count
        return nodes

    def add_folders(self, count):
        """Adds folders, and returns the microseconds of each."""
        took = 0
        for start in range(0, count, MOST_NODES):
            part = min(MOST_NODES, count - start)
            requests = [
                folder(1 + node // CLIENTS, name_of(node), client=node % CLIENTS, profile=self.place_of(node)[0])
                for node in self.next_nodes(part)
            ]
            took += self.send(requests, NODE) * part
        return took / count

    def removal(self, count):
        """Adds unfinished files, abandons them, and returns the microseconds of each removal."""
        nodes = self.next_nodes(count)
        files = [
            file(1 + node // CLIENTS, name_of(node), 1000, 1000, client=node % CLIENTS, profile=self.place_of(node)[0])
            for node in nodes
        ]
        self.send(files, NODE)
        ends = [abandon(1 + node, self.place_of(node)[1], self.place_of(node)[0], client=CLIENTS + 1) for node in nodes]
        return self.send(ends, ABANDONED)


def run_program():
    """Returns the program's figures by the number of nodes."""
    found = {}
    with Serve.lasting() as service:
        before, filled = resident(service.process), Filled(service)
        for count in COUNTS:
            filled.add_folders(count - MEASURED - filled.nodes)
            took = filled.add_folders(MEASURED)
            kept = (resident(service.process) - before) // count
            found[count] = Figures(took, kept, filled.removal(REMOVED))
        filled.stream.close()
    return found


def figures_of_python():
    words = [sys.executable, __file__, "sqlite3", *map(str, COUNTS)]
    out = subprocess.run(words, stdout=subprocess.PIPE, check=True, text=True).stdout
    rows = [line.split() for line in out.splitlines()]
    return {int(count): Figures(float(folder), int(kept), float(removal)) for count, folder, kept, removal in rows}


def span(values):
    """Formats the median with the least and the most."""
    return f"{statistics.median(values):.1f} ({min(values):.1f} to {max(values):.1f})"


def compare(count, own, python):
    """Prints the figures of all runs at this many nodes, and returns the median of a folder's microseconds."""
    own, python = Figures(*zip(*own)), Figures(*zip(*python))
    folder = statistics.median(own.folder)
    ratio = folder / statistics.median(python.folder)
    print(
        f"store: a folder at {count} nodes: {span(own.folder)} microseconds; Python's sqlite3 {span(python.folder)};"
        f" ratio {ratio:.2f}, limit {TIMES_PYTHON}"
    )
    print(f"  a removal: {span(own.removal)} microseconds, limit {REMOVAL}; Python's {span(python.removal)}")
    kept, other = statistics.median(own.bytes), statistics.median(python.bytes)
    print(f"  a folder's memory: {kept:.0f} bytes, limit {BYTES}; Python's {other:.0f}", flush=True)
    return folder


def main():
    if sys.argv[1:2] == ["sqlite3"]:
        return run_python([int(word) for word in sys.argv[2:]])
    own, python = [], []
    for _ in range(int(sys.argv[1]) if sys.argv[1:] else RUNS):
        own.append(run_program())
        python.append(figures_of_python())
    folders = [compare(count, [run[count] for run in own], [run[count] for run in python]) for count in COUNTS]
    growth = folders[-1] / folders[0]
    print(f"store: at {COUNTS[-1]} nodes {growth:.2f} times as long as at {COUNTS[0]}, limit {TIMES_FEWEST}", flush=True)


main()
