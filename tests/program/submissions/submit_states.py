"""A folder is submitted in one state, then in another, and then in the first again, under one name; this for each pair of
states. The status, what is reported, how many bytes are read and what the profile has are those of the short model here."""
import os
import unittest
from concurrent.futures import ThreadPoolExecutor
from hashlib import md5

from lib.program import Serve
from lib.submissions import WithExport, records, submit_and_print
from lib.trees import SKIPPED, lines, moment

OLD, NEW = 1_500_000_000, 1_600_000_000
PIPE = b": neither a folder nor a regular file, or it can't be looked at"
UNREAD = b": it could not be opened or read"
CHANGED = b": changed since it was submitted"
MISSING, READ, TAKEN = b"not in the folder: ", b"bytes read: ", b"folders and files: "
NOT_READ = b"files not read again: "
# lines with these fronts never come here: all files are read, or were finished before
NEVER = (b"differs: ", b"not in the profile: ", b"fault: ", b"bytes that were there: ")


def file(content, when=OLD):
    return "File", when, content


def folder(when=OLD):
    return "Folder", when, b""


LETTER = b"a letter " * 100
REST = {b"/in": folder(), b"/in/b.txt": file(b"below"), b"/in/deep": folder(), b"/in/deep/c.txt": file(b"deep"), b"/z.bin": file(b"z" * 600)}
PLAIN = {b"/a.txt": file(LETTER), **REST}

# The entries of each state, by path. In the state `first read fails` the first read of a file fails, whichever it is.
STATES = {
    "plain": PLAIN,
    "first read fails": PLAIN,
    "added at the top": PLAIN | {b"/m.txt": file(b"new")},
    "removed": REST,
    "renamed": REST | {b"/y.txt": file(LETTER)},
    "grown": PLAIN | {b"/a.txt": file(LETTER + b".")},
    "shrunk": PLAIN | {b"/a.txt": file(LETTER[1:])},
    "other moment": PLAIN | {b"/a.txt": file(LETTER, NEW)},
    "changed in place": PLAIN | {b"/a.txt": file(LETTER.upper())},
    "folder in its place": PLAIN | {b"/a.txt": folder(), b"/a.txt/d.txt": file(b"in it")},
    "pipe in its place": PLAIN | {b"/a.txt": ("pipe", OLD, b"")},
    "added in the subfolder": PLAIN | {b"/in": folder(NEW), b"/in/n.txt": file(b"new")},
    "grown in the subfolder": PLAIN | {b"/in/b.txt": file(b"below this")},
    "subfolder removed": {b"/a.txt": file(LETTER), b"/z.bin": file(b"z" * 600)},
    "nothing": {},
}
FAILING = "first read fails"
PLACES = {state: b"/%d" % place for place, state in enumerate(STATES)}


def make(top, tree):
    """Makes a tree on disk. The moments come last, those of the deepest entries first."""
    os.mkdir(top)
    for path, (kind, _, content) in tree.items():
        if kind == "Folder":
            os.mkdir(top + path)
        elif kind == "pipe":
            os.mkfifo(top + path)
        else:
            with open(top + path, "wb") as it:
                it.write(content)
    for path in sorted(tree, reverse=True):
        os.utime(top + path, (tree[path][1], tree[path][1]))


def row_of(kind, when, content):
    """Returns the type, moment, size and hash that the export has for an entry."""
    return kind, moment(when), *((str(len(content)), md5(content).hexdigest()) if kind == "File" else ("", ""))


class Profile:
    """The model: what a profile has, by path."""

    def __init__(self):
        self.entries = {}

    def submit(self, state):
        """Submits a state: the skipped paths with their reasons, the missing ones, the taken ones, the bytes read, and how many
        files were not read."""
        self.skipped, self.taken, self.read, self.unread = {}, set(), 0, 0
        self.fails = state == FAILING
        tree, waiting = STATES[state], [b""]
        while waiting:
            above = waiting.pop(0)
            for path in sorted(path for path in tree if path.rpartition(b"/")[0] == above):
                reason = self.take(path, *tree[path])
                if reason:
                    self.skipped[path] = reason
                    continue
                self.taken.add(path)
                if tree[path][0] == "Folder":
                    waiting.append(path)
        missing = [path for path in self.entries if path not in self.taken and not self.is_hidden(path)]
        return [path + reason for path, reason in self.skipped.items()], missing, self.taken, self.read, self.unread

    def take(self, path, kind, when, content):
        """Takes an entry, or returns the reason why it is skipped. What is there has to have its kind, moment and size."""
        if kind == "pipe":
            return PIPE
        if path in self.entries:
            there = self.entries[path]
            if (kind, when, len(content)) != (*there[:2], len(there[2])):
                return CHANGED
            self.unread += kind == "File" and len(content) > 0
            return None
        if kind == "File":
            if self.fails:
                self.fails = False
                return UNREAD
            self.read += len(content)
        self.entries[path] = kind, when, content
        return None

    def is_hidden(self, path):
        """Says whether a path was skipped, or a folder above it."""
        return any(path == skipped or path.startswith(skipped + b"/") for skipped in self.skipped)

    def rows(self):
        return {path.decode(): row_of(*entry) for path, entry in self.entries.items()}


class States(WithExport):
    def setUp(self):
        super().setUp()
        for state, tree in STATES.items():
            make(self.top + PLACES[state], tree)

    def test_each_pair(self):
        """Each first state has a service of its own, and each pair a name, and so a profile."""
        with ThreadPoolExecutor(len(os.sched_getaffinity(0)) + 2) as pool:
            for problems in pool.map(self.problems_with, STATES):
                self.assertEqual(problems, [])

    def problems_with(self, first):
        """Returns the pairs with this first state that go wrong."""
        problems = []
        with Serve.lasting() as service:
            for number, second in enumerate(STATES, 1):
                profile = Profile()
                for state in (first, second, first):
                    due = self.due(profile, state, number)
                    found = self.found(state, service.port, f"{first}, {second}", self.work + PLACES[first] + b".csv")
                    if found != due:
                        problems.append((first, second, state, found, due))
        return problems

    def found(self, state, port, name, export):
        """Submits a state: the status, standard output, the lines on standard error, and the rows of the export."""
        failing = {"LD_PRELOAD": os.environ["PRELOAD_READS"], "PREAD_FAILS": "1"} if state == FAILING else {}
        words = ["--name", name, "--export", export]
        status, out, err = submit_and_print(self.top + PLACES[state], port, 7, *words, quiet=False, env=os.environ | failing)
        reported = [lines(err, front) for front in (SKIPPED, MISSING, TAKEN, READ, NOT_READ)]
        others = [front + line for front in NEVER for line in lines(err, front)]
        with open(export, "rb") as text:
            rows = records(text.read())
        columns = ("TYPE", "LAST_MODIFIED", "SIZE", "MD5_HASH")
        return status, out, reported, others, {path: tuple(row[name] for name in columns) for path, row in rows.items()}

    @staticmethod
    def due(profile, state, number):
        """Returns what `found` has to be, by the model."""
        skipped, missing, taken, read, unread = profile.submit(state)
        reported = [skipped, missing, [b"%d" % len(taken)], [b"%d" % read], [b"%d" % unread]]
        return 5 if skipped or missing else 0, b"profile %d\n" % number, reported, [], profile.rows()


if __name__ == "__main__":
    unittest.main()
