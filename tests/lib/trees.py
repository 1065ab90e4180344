"""Folders that a test makes, their rows by Python's own walk and hashlib, and runs of `profile` over them."""
import csv
import datetime
import hashlib
import io
import os
import shutil
import stat
import subprocess
import tempfile
import unittest

from lib.program import EVERYDAY, PROGRAM

# how the program's lines on standard error begin: of a skipped entry, of how many there are, and of how many of these
# are symbolic links
SKIPPED, ALL_SKIPPED, LINKS = b"skipped: ", b"skipped in all: ", b"of these symbolic links, which are no part of a profile: "
# why an entry is skipped
LINK = b"it is a symbolic link, which is no part of a profile"
KIND = b"neither a folder nor a regular file, or it can't be looked at"
NAME = b"its name is no UTF-8"
UNREAD = b"it could not be opened or read"
CHANGED = b"it changed while it was read"
TWICE = b"same name: its folder lists the name twice"


def exchanged(link=LINK):
    """Returns why a file is skipped in whose place something else is put, by what that is and before which look. A command
    looks at each file when it lists the folder, and before it opens the file. Then it opens the file, which has the number
    0 here. What is put there before the listing is taken as it is: of a link there the reason is `link`."""
    return {
        ("file", 1): None,
        ("file", 2): CHANGED,
        ("file", 0): CHANGED,
        ("pipe", 1): KIND,
        ("pipe", 2): UNREAD,
        ("link", 1): link,
        ("link", 2): UNREAD,
        ("link", 0): CHANGED,
    }


def registry_of(path):
    """Returns how a registry is named: its path, or the built-in one, and the MD5 of its bytes."""
    with open(path or EVERYDAY, "rb") as file:
        digest = hashlib.md5(file.read()).hexdigest().encode()
    return (path or b"the built-in registry of everyday formats") + b", MD5 " + digest


OWN_REGISTRY = b"registry: " + registry_of(None)


def profile(*words, **more):
    """Runs `profile`: its status, its standard output and its standard error."""
    run = subprocess.run([PROGRAM, "profile", *words], capture_output=True, timeout=120, **more)
    return run.returncode, run.stdout, run.stderr


def moment(seconds):
    """Formats a moment as an export has it."""
    epoch = datetime.datetime(1970, 1, 1)
    return (epoch + datetime.timedelta(seconds=seconds)).strftime("%Y-%m-%dT%H:%M:%S")


def walk(top):
    """Walks a folder in the order of `profile`: folder by folder, each after the one above it, and within a folder
    in the order of the names' bytes. Returns the rows of the entries, and the paths of those that `profile` has to
    skip, each with the reason."""
    rows, skipped, waiting, number = [], {}, [(b"", "")], 0
    while waiting:
        path, parent = waiting.pop(0)
        for name in sorted(os.listdir(top + path)):
            below = path + b"/" + name
            is_what = os.lstat(top + below)
            try:
                text = below.decode()
            except UnicodeDecodeError:
                skipped[below] = NAME
                continue
            if not (stat.S_ISDIR(is_what.st_mode) or stat.S_ISREG(is_what.st_mode)):
                skipped[below] = LINK if stat.S_ISLNK(is_what.st_mode) else KIND
                continue
            number += 1
            row = {"ID": str(number), "PARENT_ID": parent, "FILE_PATH": text, "NAME": name.decode(), "LAST_MODIFIED": moment(int(is_what.st_mtime // 1))}
            if stat.S_ISDIR(is_what.st_mode):
                waiting.append((below, str(number)))
                row.update({"TYPE": "Folder", "SIZE": "", "MD5_HASH": ""})
            else:
                with open(top + below, "rb") as file:
                    digest = hashlib.md5(file.read()).hexdigest()
                row.update({"TYPE": "File", "SIZE": str(is_what.st_size), "MD5_HASH": digest})
            rows.append(row)
    return rows, skipped


def read(text):
    """Reads the rows of an export, one for each node. (A file with several formats has a row for each.)"""
    rows, seen = [], set()
    for row in csv.DictReader(io.StringIO(text.decode(), newline=""), strict=True):
        if row["ID"] not in seen:
            seen.add(row["ID"])
            rows.append(row)
    return rows


def status_of(skipped):
    """Returns the status of `profile` where these entries are skipped: symbolic links are no part of a profile."""
    return 5 if set(skipped.values()) - {LINK} else 0


def read_skipped(path):
    """Reads a file of --skipped: the path of each entry, and the reason, behind the names of the columns."""
    with open(path, encoding="utf-8", errors="surrogateescape", newline="") as file:
        rows = list(csv.reader(file, strict=True))
    assert rows[0] == ["path", "reason"], rows[0]
    return [tuple(os.fsencode(field) for field in row) for row in rows[1:]]


def lines(text, front):
    """Finds the lines that begin with this front: the rest of each."""
    return [line[len(front) :] for line in text.split(b"\n") if line.startswith(front)]


class InFolder(unittest.TestCase):
    """A test with a temporary folder `work`, and an empty folder `top` in it."""

    def setUp(self):
        self.work = os.fsencode(tempfile.mkdtemp())
        self.addCleanup(shutil.rmtree, self.work)
        self.top = self.work + b"/tree"
        os.mkdir(self.top)

    def folder(self, path):
        os.makedirs(self.top + path, exist_ok=True)

    def file(self, path, content=b"", when=1_600_000_000):
        with open(self.top + path, "wb") as file:
            file.write(content)
        os.utime(self.top + path, ns=(0, int(when * 1_000_000_000)))

    def as_nobody(self, command, *words):
        """Runs a copy of the program over the folder as a user who is not root, whom permissions stop: its status, its
        standard output and its standard error."""
        if os.geteuid():
            run = subprocess.run([PROGRAM, command, self.top, *words], capture_output=True, timeout=120, check=False)
            return run.returncode, run.stdout, run.stderr
        for path in (self.work, self.top):
            os.chmod(path, 0o755)
        copy = self.work + b"/program"
        shutil.copy(PROGRAM, copy)
        os.chmod(copy, 0o755)
        run = subprocess.run([copy, command, self.top, *words], capture_output=True, timeout=120, user=65534, group=65534, extra_groups=[], cwd="/", check=False)
        return run.returncode, run.stdout, run.stderr

    def same(self, text, rows):
        """Checks that the export has exactly these rows, in their order."""
        found = read(text)
        self.assertEqual([row["FILE_PATH"] for row in found], [row["FILE_PATH"] for row in rows])
        for due, row in zip(rows, found):
            self.assertEqual({name: row[name] for name in due}, due)


class InChangingFolder(InFolder):
    """A test with three files, one of which something else takes the place of while the program reads them."""

    PATH = b"/in/b.txt"

    def setUp(self):
        super().setUp()
        self.other = self.work + b"/other"

    def make(self, kind):
        """Makes the tree, and what takes the file's place: another of its size and moment, a pipe, or a link to such a file."""
        shutil.rmtree(self.top)
        self.folder(b"/in")
        for path, content in ((b"/in/a.txt", b"one"), (self.PATH, b"two"), (b"/in/c.txt", b"three")):
            self.file(path, content)
        if kind == "file":
            self.file(b"/../other", b"six")
        elif kind == "pipe":
            os.mkfifo(self.other)
        else:
            self.file(b"/../target", b"six")
            os.symlink(self.work + b"/target", self.other)

    def exchanging(self, look):
        """The variables with which it takes the file's place before this look at it (tests/program/folders/changes.c)."""
        places = {"EXCHANGED_BY": self.other, "EXCHANGED_TO": self.top + self.PATH}
        return {"EXCHANGED": "b.txt", "EXCHANGED_LOOK": str(look)} | {name: os.fsdecode(path) for name, path in places.items()}
