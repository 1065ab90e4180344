"""`verify` beside a model in Python: every kind of difference, alone and in pairs, by each form of a list and each hash,
and over random pairs of trees."""
import csv
import hashlib
import io
import itertools
import os
import random
import re
import shutil
import stat
import subprocess
import unittest
from concurrent.futures import ProcessPoolExecutor

from lib.program import PROGRAM, SAMPLE, Serve
from lib.submissions import submit
from lib.trees import CHANGED, KIND, TWICE, UNREAD, InChangingFolder, InFolder, profile

COLUMNS = ["difference", "path", "size", "hash", "formats", "found_path", "found_size", "found_hash", "found_formats", "reason"]
# names of files and folders that a list has to quote or escape
NAMES = [b"a", b"b", b"c.txt", b'quote"', b"comma,", b"line\nfeed", b"back\\slash", b"return\r", "Stra\u00dfe".encode(), b" blank ", b"-", b"%0A"]
HASHES = {"md5": hashlib.md5, "sha256": hashlib.sha256}


def verify(*words, **more):
    """Runs `verify`: its status, its standard output and its standard error."""
    run = subprocess.run([PROGRAM, "verify", *words], capture_output=True, timeout=120, **more)
    return run.returncode, run.stdout, run.stderr


def records_in(text):
    """Reads the rows of a report, as dictionaries of bytes."""
    found = list(csv.reader(io.StringIO(text.decode("utf-8", "surrogateescape"), newline=""), strict=True))
    assert found[0] == COLUMNS, found[0]
    return [dict(zip(COLUMNS, map(os.fsencode, row), strict=True)) for row in found[1:]]


def rows_in(text):
    """Reads the rows of a report without `--identify`: tuples of bytes, without the two columns of formats, which are empty."""
    records = records_in(text)
    assert not any(record["formats"] or record["found_formats"] for record in records), records
    return [tuple(record[name] for name in COLUMNS if not name.endswith("formats")) for record in records]


def bytes_of(path):
    with open(path, "rb") as file:
        return file.read()


def contents(top):
    """Walks a folder: for each path below it None, if it is a folder, or else the bytes of the file. Links and pipes are
    left out."""
    found = {}
    for folder, folders, files in os.walk(top):
        for name in folders + files:
            path = os.path.join(folder, name)
            if os.path.isdir(path) and not os.path.islink(path):
                found[path[len(top) :]] = None
            elif stat.S_ISREG(os.lstat(path).st_mode):
                found[path[len(top) :]] = bytes_of(path)
    return found


def moments(top):
    """The moment of each file and folder below a folder."""
    return {path: os.lstat(top + path).st_mtime_ns // 10**9 for path in contents(top)}


def files_of(items):
    """The files among these, as a list of checksums has them."""
    return {path: content for path, content in items.items() if content is not None}


def escaped(path):
    """A path as `md5sum` writes it, and what stands in front of its line."""
    text = path.replace(b"\\", b"\\\\").replace(b"\n", b"\\n").replace(b"\r", b"\\r")
    return text, b"\\" if text != path else b""


def sums(items, name):
    """The list that `md5sum` or `sha256sum` writes of these files."""
    lines = []
    for path, content in sorted(items.items()):
        if content is not None:
            text, front = escaped(path[1:])
            lines.append(front + HASHES[name](content).hexdigest().encode() + b"  " + (b"./-" if text == b"-" else text) + b"\n")
    return b"".join(lines)


def bag(items, name):
    """The manifest of a bag with these files (RFC 8493)."""
    encode = lambda path: path.replace(b"%", b"%25").replace(b"\n", b"%0A").replace(b"\r", b"%0D")
    return b"".join(HASHES[name](content).hexdigest().encode() + b"  data" + encode(path) + b"\n" for path, content in items.items() if content is not None)


def expected(listed, found, name, with_sizes=True, unreadable=None, when=None):
    """The report by the definition: for each path of either side what differs; a missing file moved where it and a new file
    are the only ones with their hash, and their sizes are not known to differ. A file of both sides that does not differ, and
    has no hash, is unchecked. An unreadable path (with its reason) is reported as that, and nothing else is of it and of what
    lies below it. By `--quick` the moments of both sides (`when`) are compared in the place of hashes, if there are sizes; no
    file moves, and none is unchecked."""
    unreadable = unreadable or {}
    readable = lambda items: {p: items[p] for p in items if not any(p == u or p.startswith(u + b"/") for u in unreadable)}
    listed, found = readable(listed), readable(found)
    digest = lambda content: b"" if content is None or name == "none" else HASHES[name](content).hexdigest().encode()
    size = lambda content: b"" if content is None else str(len(content)).encode()
    old = lambda content: (size(content) if with_sizes else b"", digest(content))
    new = lambda content: (size(content), b"" if when else digest(content))

    def differ(path, a, b):
        if (a is None) != (b is None):
            return True
        if when:
            return a is not None and with_sizes and (len(a) != len(b) or when[0][path] != when[1][path])
        return a is not None and (digest(a) != digest(b) or (with_sizes and len(a) != len(b)))

    missing = [path for path in listed if path not in found]
    added = [path for path in found if path not in listed]
    by = lambda paths, items: {d: [p for p in paths if digest(items[p]) == d] for d in {digest(items[p]) for p in paths} if d}
    lost, came = by(missing, listed), by(added, found)
    moves = {}
    for d, paths in lost.items():
        if len(paths) == 1 and len(came.get(d, [])) == 1 and not when:
            moves[paths[0]] = came[d][0]
    rows = []
    for path in sorted({*listed, *found, *unreadable}):
        if path in unreadable:
            rows.append((b"unreadable", path, b"", b"", b"", b"", b"", unreadable[path]))
        elif path in listed and path in found:
            a, b = listed[path], found[path]
            if differ(path, a, b):
                rows.append((b"changed", path, *old(a), path, *new(b), b""))
            elif a is not None and name == "none" and not when:
                rows.append((b"unchecked", path, *old(a), path, *new(b), b"no hash to compare"))
        elif path in moves:
            rows.append((b"moved", path, *old(listed[path]), moves[path], *new(found[moves[path]]), b""))
        elif path in listed:
            rows.append((b"missing", path, *old(listed[path]), b"", b"", b"", b""))
        elif path not in moves.values():
            rows.append((b"new", path, b"", b"", path, *new(found[path]), b""))
    return rows


def fields_of(text):
    """Finds the fields of a CSV whose fields all stand between double quotes: for each record the places of each."""
    records, row, place = [], [], 0
    while place < len(text):
        end = place + 1
        while text[end : end + 1] != b'"' or text[end + 1 : end + 2] == b'"':
            end += 2 if text[end : end + 1] == b'"' else 1
        row.append(range(place + 1, end))
        if text[end + 1 : end + 2] == b"\n":
            records.append(row)
            row = []
        place = end + 2
    return records


# the forms of a list: a profile's CSV, a list of checksums, and the manifest of a bag
FORMS = [("csv", "none"), *itertools.product(("csv", "list", "bag"), HASHES)]
# how many random pairs of trees are compared, by a fixed seed
SEED, PAIRS, WORKERS = 54, 2_000, 4


class InLists(InFolder):
    def write(self, name, text):
        path = self.work + b"/" + name
        with open(path, "wb") as file:
            file.write(text)
        return path


class Lists(InLists):

    def checked(self, top, against, rows, *words, **more):
        """Checks the report of `verify`, its status and that standard error counts what it has."""
        status, out, said = verify(top, "--against", against, *words, **more)
        self.assertEqual((rows_in(out), status), (rows, 5 if rows else 0), said)
        for kind in [b"changed", b"missing", b"new", b"moved", b"unreadable"]:
            self.assertIn(b"\n" + kind + b": %d\n" % sum(row[0] == kind for row in rows), said)

    def listed_as(self, form, name):
        """Makes a list of the tree: what `verify` is to compare, the list's path, and whether it has folders and sizes."""
        path = self.work + f"/{name}.{form}".encode()
        if form == "csv":
            self.assertEqual(profile(self.top, "--hash", name, "--output", path, "--quiet")[0], 0)
            return self.top, path, True
        if form == "list":
            self.write(os.path.basename(path), sums(contents(self.top), name))
            return self.top, path, False
        folder = self.work + b"/bag"
        if not os.path.isdir(folder):
            os.mkdir(folder)
            self.write(b"bag/bagit.txt", b"BagIt-Version: 1.0\nTag-File-Character-Encoding: UTF-8\n")
            os.symlink(self.top, folder + b"/data")
        self.write(os.path.basename(path), bag(contents(self.top), name))
        return folder, path, False

    def by_each_form(self, change, forms=FORMS, quick=False, **more):
        """Makes the lists of the tree, changes the tree, and compares it with each list. The change returns what is
        unreadable after it, if anything is."""
        listed, before = contents(self.top), moments(self.top)
        lists = [(name, *self.listed_as(form, name)) for form, name in forms]
        unreadable = change()
        found, after = contents(self.top), moments(self.top)
        for name, top, path, with_sizes in lists:
            both = (listed, found) if with_sizes else (files_of(listed), files_of(found))
            rows = expected(*both, name, with_sizes, unreadable, (before, after) if quick else None)
            self.checked(top, path, rows, *["--quick"] * quick, **more)

    def tree(self):
        for folder in (b"/in", b"/out"):
            self.folder(folder)
        for at, name in enumerate(NAMES):
            self.file(b"/" + name, b"top %d" % at)
            self.file(b"/in/" + name, b"in %d" % at)
        self.file(b"/out/file", b"out")
        self.file(b"/out/unread", b"unread")

    def in_place_of(self, path, make):
        """Puts something in the place of what is at a path."""
        full = self.top + path
        if os.path.isdir(full):
            shutil.rmtree(full)
        else:
            os.remove(full)
        make(full)

    def test_nothing_differs(self):
        self.tree()
        self.by_each_form(lambda: None)

    def test_each_difference_alone_and_in_pairs(self):
        steps = {
            "changed": lambda: self.file(b"/a", b"TOP 0"),
            "copied": lambda: self.file(b"/copy of a", b"top 0"),
            "file": lambda: self.in_place_of(b"/in", lambda path: self.file(b"/in", b"of a folder")),
            "folder": lambda: self.in_place_of(b"/b", os.mkdir),
            "link": lambda: self.in_place_of(b"/back\\slash", lambda path: os.symlink(b"a", path)),
            "longer": lambda: self.file(b"/c.txt", b"longer than before"),
            "missing": lambda: os.remove(self.top + b"/-"),
            "moved": lambda: os.rename(self.top + b"/line\nfeed", self.top + b"/out/line2"),
            "new": lambda: self.file(b"/out/newer", b"new"),
            "pipe": lambda: self.in_place_of(b"/comma,", os.mkfifo),
            "unread": lambda: None,
        }
        reasons = {"pipe": (b"/comma,", KIND), "unread": (b"/out/unread", UNREAD)}
        reads = {"LD_PRELOAD": os.environ["PRELOAD_READS"], "PREAD_OF": "unread", "PREAD_FAILS": "1"}
        for pair in itertools.combinations_with_replacement(steps, 2):
            with self.subTest(pair=pair):
                shutil.rmtree(self.top)
                self.tree()

                def change():
                    for step in sorted({*pair}):
                        steps[step]()
                    return dict(reasons[step] for step in pair if step in reasons)

                self.by_each_form(change, env=os.environ | (reads if "unread" in pair else {}))

    def test_moment_alone(self):
        self.file(b"/a", b"a")
        self.by_each_form(lambda: self.file(b"/a", b"a", when=1_700_000_000))

    def test_two_files_of_one_hash_do_not_move(self):
        self.file(b"/a", b"same")
        self.file(b"/b", b"same")

        def change():
            for name in (b"a", b"b"):
                os.rename(self.top + b"/" + name, self.top + b"/new " + name)

        self.by_each_form(change)

    def test_lists_of_coreutils(self):
        self.tree()
        for name, mark in itertools.product(HASHES, ("--text", "--binary")):
            made = subprocess.run(f"find . -type f -exec {name}sum {mark} {{}} +", shell=True, cwd=self.top, capture_output=True, check=True).stdout
            self.checked(self.top, self.write(b"list", made), [])
            self.checked(self.top, self.write(b"list", made.replace(b"\n", b"\r\n")), [])
            digests = re.compile(rb"^\\?[0-9a-f]+ ", re.MULTILINE)
            self.checked(self.top, self.write(b"list", digests.sub(lambda found: found[0].upper(), made)), [])

    def test_bag(self):
        self.folder(b"/data")
        self.file(b"/bagit.txt", b"BagIt-Version: 1.0\nTag-File-Character-Encoding: UTF-8\n")
        for at, name in enumerate(NAMES):
            self.file(b"/data/" + name, b"%d" % at)
        for name in HASHES:
            listed = files_of(contents(self.top + b"/data"))
            manifest = self.write(b"manifest", bag(listed, name))
            self.checked(self.top, manifest, [])
            self.file(b"/data/a", b"another")
            found = files_of(contents(self.top + b"/data"))
            self.checked(self.top, manifest, expected(listed, found, name, False))
            self.file(b"/data/a", b"0")

    def test_order_of_the_rows(self):
        self.tree()
        path = self.work + b"/list.csv"
        profile(self.top, "--output", path, "--quiet")
        lines = list(csv.reader(io.StringIO(bytes_of(path).decode(), newline="")))
        lines[1:] = lines[:0:-1]
        text = io.StringIO()
        csv.writer(text, lineterminator="\r\n").writerows(lines)
        self.checked(self.top, self.write(b"other.csv", text.getvalue().encode()), [])

    def test_unreadable_files_are_not_missing(self):
        """What lies in a folder that cannot be listed is neither missing nor moved. Root reads all, so another user does."""
        for path in (b"/a", b"/in/b", b"/in/deep/c", b"/d"):
            self.folder(os.path.dirname(path))
            self.file(path, path)
        lists = [(name, *self.listed_as(form, name)) for form, name in FORMS if form != "bag"]
        listed = contents(self.top)
        self.file(b"/copy of b", b"/in/b")
        os.remove(self.top + b"/d")
        found = contents(self.top)
        for path in (b"/a", b"/in"):
            os.chmod(self.top + path, 0)
            self.addCleanup(os.chmod, self.top + path, 0o700)
        for name, _, path, with_sizes in lists:
            both = (listed, found) if with_sizes else (files_of(listed), files_of(found))
            status, out, said = self.as_nobody("verify", "--against", path)
            self.assertEqual((rows_in(out), status), (expected(*both, name, with_sizes, {b"/a": UNREAD, b"/in": UNREAD}), 5), said)

    def test_links_are_no_part(self):
        self.file(b"/a", b"a")
        path = self.work + b"/list.csv"
        profile(self.top, "--output", path, "--quiet")
        os.symlink(b"a", self.top + b"/link")
        self.checked(self.top, path, [])
        os.remove(self.top + b"/a")
        os.symlink(b"link", self.top + b"/a")
        self.checked(self.top, path, expected({b"/a": b"a"}, {}, "md5"))

    def test_names_that_are_no_text(self):
        self.file(b"/\xff", b"a")
        listed = self.write(b"list", hashlib.md5(b"a").hexdigest().encode() + b"  \xff\n")
        status, out, said = verify(self.top, "--against", listed)
        self.assertEqual((status, [row[:2] for row in rows_in(out)]), (5, [(b"unreadable", b"/\xff")]), said)

    def test_quiet(self):
        self.file(b"/a", b"a")
        listed = self.write(b"list", sums({b"/a": b"b"}, "md5"))
        status, out, said = verify(self.top, "--against", listed, "--quiet")
        self.assertEqual((status, len(rows_in(out)), said), (5, 1, b""))

    def test_quick_compares_sizes_and_moments(self):
        when = 1_700_000_000
        for name in (b"/same", b"/touched", b"/longer", b"/moved", b"/gone", b"/in/same"):
            self.folder(b"/in")
            self.file(name, b"text" + name, when=when)
        path = self.work + b"/list.csv"
        self.assertEqual(profile(self.top, "--hash", "md5", "--output", path, "--quiet")[0], 0)
        size = lambda name, more=0: str(len(b"text" + name) + more).encode()
        md5 = lambda name: hashlib.md5(b"text" + name).hexdigest().encode()
        self.assertEqual(verify(self.top, "--against", path, "--quick")[0], 0)
        # other bytes, and a folder's other moment, are not seen
        self.file(b"/same", b"TEXT/same", when=when)
        self.file(b"/in/new", b"", when=when)
        self.file(b"/touched", b"text/touched", when=when + 60)
        self.file(b"/longer", b"text/longer.", when=when)
        os.rename(self.top + b"/moved", self.top + b"/moved2")
        os.remove(self.top + b"/gone")
        os.chmod(self.top + b"/in/same", 0)
        rows = [
            (b"missing", b"/gone", size(b"/gone"), md5(b"/gone"), b"", b"", b"", b""),
            (b"new", b"/in/new", b"", b"", b"/in/new", b"0", b"", b""),
            (b"changed", b"/longer", size(b"/longer"), md5(b"/longer"), b"/longer", size(b"/longer", 1), b"", b""),
            (b"missing", b"/moved", size(b"/moved"), md5(b"/moved"), b"", b"", b"", b""),
            (b"new", b"/moved2", b"", b"", b"/moved2", size(b"/moved"), b"", b""),
            (b"changed", b"/touched", size(b"/touched"), md5(b"/touched"), b"/touched", size(b"/touched"), b"", b""),
        ]
        status, out, said = verify(self.top, "--against", path, "--quick")
        self.assertEqual((rows_in(out), status), (rows, 5), said)
        # what is new or missing was compared with nothing
        self.assertIn(b"files compared by size and modification time alone: 4\n", said)

    def test_quick_with_a_list_of_checksums_compares_names(self):
        self.file(b"/a", b"a")
        self.file(b"/b", b"b")
        listed = self.write(b"list", sums({b"/a": b"another", b"/c": b"c"}, "md5"))
        status, out, said = verify(self.top, "--against", listed, "--quick")
        self.assertEqual([row[:2] for row in rows_in(out)], [(b"new", b"/b"), (b"missing", b"/c")], said)
        self.assertEqual(status, 5)
        # names alone: no size is known
        self.assertIn(b"files compared by size and modification time alone: 0\n", said)

    def test_lists_that_are_none(self):
        self.tree()
        path = self.work + b"/list.csv"
        profile(self.top, "--output", path, "--quiet")
        whole = bytes_of(path)
        rows = whole.split(b"\n")
        for bad in [
            b"no list\n",
            whole.replace(b'"SIZE"', b'"SIZES"'),
            whole.replace(b'"File"', b'"Fil"', 1),
            whole + b'"a"\n',
            whole + rows[-2].replace(b'"1"', b'"2"', 1) + b"\n" + rows[1] + b"\n",
            sums({b"/a": b"a"}, "md5") + sums({b"/b": b"b"}, "sha256"),
            sums({b"/a": b"a"}, "md5") * 2,
            hashlib.md5(b"").hexdigest().encode() + b"  ../a\n",
        ]:
            with self.subTest(bad=bad[-60:]):
                status, out, said = verify(self.top, "--against", self.write(b"bad", bad))
                self.assertEqual((status, out), (3, b""), said)
                self.assertTrue(said.startswith(b"fault: List\n"), said)
        status, out, said = verify(self.top, "--against", self.work + b"/none")
        self.assertEqual((status, out, said.startswith(b"fault: Open\n")), (3, b"", True))
        status, out, said = verify(self.work + b"/none", "--against", path)
        self.assertEqual((status, out, said.startswith(b"fault: Folder\n")), (4, b"", True))

    def test_lists_cut_at_each_byte(self):
        """What is left of a list is malformed, or is all but its last rows. The path of a list of checksums may be cut too."""
        self.file(b"/a", b"a")
        self.file("/\u00e9, \"b\"\nc".encode(), b"b")
        for form, name in (*FORMS[:3], ("list", "md5")):
            whole = bytes_of(self.listed_as(form, name)[1])
            kinds, enough = ({b"new"}, 3) if form == "csv" else ({b"new", b"moved"}, 1)
            for end in range(len(whole)):
                words = ["--quiet"] + ["--sizes-only"] * (name == "none")
                status, out, said = verify(self.top, "--against", self.write(b"cut", whole[:end]), *words)
                self.assertIn(status, [3, 5] if end < len(whole) - enough else [0], (end, said))
                if status == 5:
                    self.assertLessEqual({row[0] for row in rows_in(out)}, kinds, (end, out))

    def test_lists_with_a_byte_changed(self):
        """Where a byte of a path, a size or a hash is another, the list is none or something differs."""
        self.file(b"/a", b"a")
        self.folder(b"/in")
        self.file(b"/in/b.txt", b"bb")
        path = self.work + b"/list.csv"
        profile(self.top, "--hash", "md5", "--output", path, "--quiet")
        whole = bytes_of(path)
        compared = {place for row in fields_of(whole)[1:] for column in (3, 7, 8, 12) for place in row[column]}
        for place in range(len(whole)):
            for byte in b"x0\"\n":
                if byte != whole[place]:
                    self.check_changed(whole[:place] + bytes([byte]) + whole[place + 1 :], place in compared, (place, byte))
        listed = sums({b"/a": b"a", b"/in/b.txt": b"bb"}, "md5")
        self.assertEqual(verify(self.top, "--against", self.write(b"list", listed))[0], 0)
        for place in range(len(listed)):
            # (a hash, a path or the space between them)
            if listed[place] not in b"x\n":
                self.check_changed(listed[:place] + b"x" + listed[place + 1 :], True, place)

    def check_changed(self, text, differs, where):
        status, out, said = verify(self.top, "--against", self.write(b"changed", text))
        self.assertIn(status, (3, 5) if differs else (0, 3, 5), (where, said))
        if status == 3:
            self.assertEqual((out, said.startswith(b"fault: List\n")), (b"", True), (where, said))
        else:
            self.assertEqual(bool(rows_in(out)), status == 5, where)

    def test_exports_of_a_service(self):
        self.tree()
        path = self.work + b"/export.csv"
        with Serve.lasting() as service:
            self.assertEqual(submit(self.top, service.port, 7, "--export", path)[0], 0)
        listed = contents(self.top)
        self.checked(self.top, path, [])
        self.file(b"/a", b"TOP 0")
        os.rename(self.top + b"/c.txt", self.top + b"/out/c.txt")
        self.checked(self.top, path, expected(listed, contents(self.top), "md5"))

    def test_random_pairs(self):
        """Each is compared by one form of a list, with --quick or without."""
        with ProcessPoolExecutor(WORKERS) as pool:
            wrong = [it for it in pool.map(compare_pair, range(PAIRS)) if it is not None]
        self.assertEqual(wrong, [])

    def fill(self, chance, count):
        """Adds, changes, moves and removes some files."""
        for _ in range(count):
            folder = chance.choice([b"/", b"/in/", b"/in/deep/"])
            path = folder + chance.choice(NAMES)
            full = self.top + path
            what = chance.randrange(6)
            if what == 0 and os.path.isdir(full):
                shutil.rmtree(full)
            elif what == 0 and os.path.exists(full):
                os.remove(full)
            elif what == 1 and os.path.isfile(full):
                os.rename(full, full + b".moved")
            elif what == 2 and not os.path.exists(full):
                self.folder(path)
            elif not os.path.isdir(full):
                self.folder(folder)
                self.file(path, b"%d" % chance.randrange(5) * chance.randrange(3), 1_600_000_000 + chance.randrange(2))

    def spoil(self, chance):
        """Puts a pipe or a link in the place of a file, or neither: what is unreadable then."""
        files = sorted(files_of(contents(self.top)))
        what = chance.randrange(4)
        if not files or what > 1:
            return {}
        path = chance.choice(files)
        self.in_place_of(path, os.mkfifo if what == 0 else lambda full: os.symlink(b"a", full))
        return {path: KIND} if what == 0 else {}


def compare_pair(number):
    """Compares the random pair of trees of this number, in a folder of its own: what is wrong, if anything is."""
    chance = random.Random(f"{SEED} {number}")
    case = Lists()
    case.setUp()

    def change():
        case.fill(chance, 8)
        return case.spoil(chance)

    try:
        case.fill(chance, 16)
        case.by_each_form(change, [chance.choice(FORMS)], chance.randrange(4) == 0)
    except AssertionError as wrong:
        return f"pair {number}: {wrong}"
    finally:
        case.doCleanups()
    return None


class Formats(InLists):
    """`--identify`: the formats of the list beside those that are found."""

    def setUp(self):
        super().setUp()
        self.folder(b"/in")
        self.file(b"/in/a.msg", b"message of a file")
        self.file(b"/in/b.abc", b"abc .. xyz")
        self.file(b"/c", b"nothing that is known")
        self.path = self.work + b"/list.csv"
        self.assertEqual(profile(self.top, "--registry", SAMPLE, "--output", self.path, "--quiet")[0], 0)
        self.text = bytes_of(self.path)

    def identified(self, text, formats, others=(), by=("--registry", SAMPLE)):
        """Checks the rows of formats: by path those of the list and those that are found."""
        status, out, said = verify(self.top, "--against", self.write(b"changed.csv", text), "--identify", *by)
        found = records_in(out)
        self.assertEqual({r["path"]: (r["formats"], r["found_formats"]) for r in found if r["difference"] == b"format"}, formats, said)
        self.assertEqual([(r["difference"], r["path"]) for r in found if r["difference"] != b"format"], list(others), said)
        self.assertEqual([r["path"] for r in found], sorted(r["path"] for r in found))
        self.assertEqual(status, 5 if found else 0, said)
        self.assertIn(b"\nformat: %d\n" % len(formats), said)

    def with_puids(self, puids):
        """The list in which the files at these paths have these formats, each in a row."""
        rows = list(csv.reader(io.StringIO(self.text.decode(), newline="")))
        changed = rows[:1]
        for row in rows[1:]:
            found = puids.get(row[3], [row[14]])
            count = row[13] and str(sum(puid != "" for puid in found))
            for puid in found:
                changed.append(row[:13] + [count, puid] + row[15:])
        text = io.StringIO()
        csv.writer(text, lineterminator="\n").writerows(changed)
        return text.getvalue().encode()

    def test_nothing_differs(self):
        self.identified(self.text, {})

    def test_other_formats(self):
        puids = [row["PUID"] for row in csv.DictReader(io.StringIO(self.text.decode(), newline="")) if row["TYPE"] == "File"]
        self.assertEqual(sorted(puids), ["", "dev/1", "dev/2"])
        self.identified(self.with_puids({"/in/a.msg": ["dev/9"]}), {b"/in/a.msg": (b"dev/9", b"dev/1")})
        self.identified(self.with_puids({"/in/a.msg": [""]}), {b"/in/a.msg": (b"", b"dev/1")})
        self.identified(self.with_puids({"/c": ["dev/4"]}), {b"/c": (b"dev/4", b"")})
        self.identified(self.with_puids({"/in/b.abc": ["dev/2", "dev/1"]}), {b"/in/b.abc": (b"dev/2 dev/1", b"dev/2")})
        # the order of formats, and one that is there twice, make no difference
        self.identified(self.with_puids({"/in/b.abc": ["dev/2", "dev/2"]}), {})

    def test_beside_other_differences(self):
        self.file(b"/in/a.msg", b"another, of no format")
        os.remove(self.top + b"/c")
        self.file(b"/new.msg", b"message")
        others = [(b"missing", b"/c"), (b"changed", b"/in/a.msg"), (b"new", b"/new.msg")]
        # `Message` also goes by its extension, but only with --match-all
        self.identified(self.text, {b"/in/a.msg": (b"dev/1", b"")}, others)

    def test_another_registry(self):
        registry = self.write(b"other.csv", bytes_of(SAMPLE).replace(b"dev/1,", b"dev/7,"))
        self.identified(self.text, {b"/in/a.msg": (b"dev/1", b"dev/7")}, by=("--registry", registry))

    def test_options(self):
        """A signature that begins at byte 3 is found with a limit of 4 and not with one of 3; a format that has one goes by its
        extension only with --match-all."""
        by = "--registry", self.write(b"registry.csv", b"F,dev/1,One,,,\nE,dev/1,one,,,\nS,dev/1,BOF,3,3,61\n")
        self.file(b"/x.bin", b"...a")
        self.file(b"/y.one", b"...b")
        self.assertEqual(profile(self.top, *by, "--output", self.path, "--quiet")[0], 0)
        text = bytes_of(self.path)
        self.identified(text, {}, by=by)
        self.identified(text, {}, by=(*by, "--limit", "4"))
        self.identified(text, {b"/x.bin": (b"dev/1", b"")}, by=(*by, "--limit", "3"))
        self.identified(text, {b"/y.one": (b"", b"dev/1")}, by=(*by, "--match-all"))

    def test_everyday_formats(self):
        """They are those of `profile`, with --everyday and without."""
        self.file(b"/d.png", b"\x89PNG\r\n\x1a\n\0\0\0\rIHDR")
        self.assertEqual(profile(self.top, "--output", self.path, "--quiet")[0], 0)
        text = bytes_of(self.path)
        [png] = [row["PUID"] for row in csv.DictReader(io.StringIO(text.decode(), newline="")) if row["NAME"] == "d.png"]
        self.assertTrue(png)
        for by in ((), ("--everyday",)):
            self.identified(text, {}, by=by)
        status, out, said = verify(self.top, "--against", self.path, "--identify", "--registry", SAMPLE)
        self.assertIn((b"/d.png", png.encode(), b""), [(row["path"], row["formats"], row["found_formats"]) for row in records_in(out)], said)

    def test_lists_without_formats(self):
        listed = self.write(b"list", sums({b"/c": b"nothing that is known"}, "md5"))
        status, out, said = verify(self.top, "--against", listed, "--identify")
        self.assertEqual((status, out), (3, b""), said)
        self.assertIn(b"fault: Formats\n", said)

    def test_without_it(self):
        """Formats are compared only where that is asked for."""
        status, out, said = verify(self.top, "--against", self.write(b"changed.csv", self.with_puids({"/c": ["dev/4"]})))
        self.assertEqual((status, rows_in(out)), (0, []), said)
        self.assertNotIn(b"format", said)


class Changes(InChangingFolder):
    """Trees that change, or cannot be read, while they are compared."""

    # before which look at the file something else is put in its place, as profile_exchanged has it
    DUE = {
        ("file", 1): "other",
        ("file", 2): CHANGED,
        ("file", 0): CHANGED,
        ("pipe", 1): KIND,
        ("pipe", 2): UNREAD,
        ("link", 1): "gone",
        ("link", 2): UNREAD,
        ("link", 0): CHANGED,
    }

    def make(self, kind):
        super().make(kind)
        self.path = self.work + b"/list.csv"
        self.assertEqual(profile(self.top, "--hash", "md5", "--output", self.path, "--quiet")[0], 0)

    def seen(self, **how):
        status, out, said = verify(self.top, "--against", self.path, "--quiet", env=os.environ | how)
        self.assertEqual(status, 5, said)
        return [(row[0], row[1], row[-1]) for row in rows_in(out)]

    def test_exchanged(self):
        kinds = {"other": (b"changed", self.PATH, b""), "gone": (b"missing", self.PATH, b"")}
        for (kind, look), due in self.DUE.items():
            with self.subTest(kind=kind, look=look):
                self.make(kind)
                rows = self.seen(LD_PRELOAD=os.environ["PRELOAD_CHANGES"], **self.exchanging(look))
                self.assertEqual(rows, [kinds.get(due, (b"unreadable", self.PATH, due))])

    def test_listed_twice(self):
        """Of a name that its folder lists twice the first entry counts. With --quick both do, which ends the command."""
        self.make("file")
        env = os.environ | {"LD_PRELOAD": os.environ["PRELOAD_CHANGES"], "LISTED_TWICE": "b.txt"}
        status, out, said = verify(self.top, "--against", self.path, "--quiet", env=env)
        self.assertEqual((status, rows_in(out)), (0, []), said)
        self.assertIn(TWICE, said)
        status, out, said = verify(self.top, "--against", self.path, "--quick", "--quiet", env=env)
        self.assertEqual((status, out, said.startswith(b"fault: Twice\n")), (4, b"", True), said)

    def test_removed(self):
        """A file that is no longer there, or not any more when it is opened, is unreadable: its folder had it."""
        for look, due in (1, KIND), (2, UNREAD), (0, UNREAD):
            with self.subTest(look=look):
                self.make("file")
                paths = {"EXCHANGED_BY": os.fsdecode(self.top + self.PATH), "EXCHANGED_TO": os.fsdecode(self.work + b"/away")}
                rows = self.seen(LD_PRELOAD=os.environ["PRELOAD_CHANGES"], **(self.exchanging(look) | paths))
                self.assertEqual(rows, [(b"unreadable", self.PATH, due)])

    def test_file_that_grows(self):
        """A file to which another process writes all the time has other bytes, or changed while it was read."""
        self.make("file")
        self.file(self.PATH, b"x" * 30_000_000)
        self.assertEqual(profile(self.top, "--output", self.path, "--quiet")[0], 0)
        with subprocess.Popen(["sh", "-c", 'while :; do echo more >>"$0"; done', self.top + self.PATH]) as writer:
            self.addCleanup(writer.kill)
            while os.path.getsize(self.top + self.PATH) == 30_000_000:
                pass
            rows = self.seen()
            writer.kill()
        self.assertIn(rows, [[(b"changed", self.PATH, b"")], [(b"unreadable", self.PATH, CHANGED)]])

    def test_failed_reads(self):
        self.make("file")
        rows = self.seen(LD_PRELOAD=os.environ["PRELOAD_READS"], PREAD_OF="b.txt", PREAD_FAILS="1")
        self.assertEqual(rows, [(b"unreadable", self.PATH, UNREAD)])

    def test_report_that_cannot_be_written(self):
        self.make("file")
        with open("/dev/full", "wb") as full:
            run = subprocess.run([PROGRAM, "verify", self.top, "--against", self.path, "--quiet"], stdout=full, stderr=subprocess.PIPE, timeout=60)
        self.assertEqual((run.returncode, run.stderr.startswith(b"fault: Write\n")), (4, True), run.stderr)


if __name__ == "__main__":
    unittest.main()
