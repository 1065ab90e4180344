"""`verify` of one tree after each of sixteen steps, alone and in pairs, by lists of every form: the report, byte for byte."""
import itertools
import os
import shutil
import unittest

from lib.program import SAMPLE
from lib.trees import CHANGED, KIND, NAME, UNREAD
from verify_lists import COLUMNS, FORMS, HASHES, InLists, expected, verify

# what is neither a folder nor a regular file
FOLDER, LINK, PIPE = None, "link", "pipe"
# the entries of the tree: a path, a file's bytes or what else it is, the step after which it is there ("": from the
# beginning), and the step after which it isn't ("": it stays)
ROWS = [
    (b"/a", b"one", "", "changed"),
    (b"/a", b"ONE", "changed", ""),
    (b"/b", b"two", "", "longer"),
    (b"/b", b"two..", "longer", ""),
    (b"/copy", b"gone", "copied", ""),
    (b"/d", FOLDER, "", ""),
    (b"/d/gone", b"gone", "", "missing"),
    (b"/d/moving", b"moving", "", "moved"),
    (b"/empty", b"", "", ""),
    (b"/f", b"f", "", "folder"),
    (b"/f", FOLDER, "folder", ""),
    (b"/g", FOLDER, "", "file"),
    (b"/g", b"g", "file", ""),
    (b"/grown", b"grown", "", "grown"),
    (b"/grown", b"grown.", "grown", ""),
    (b"/link", b"link", "", "link"),
    (b"/link", LINK, "link", ""),
    (b"/moved", b"moving", "moved", ""),
    (b"/new", b"one", "new", ""),
    (b"/pipe", b"pipe", "", "pipe"),
    (b"/pipe", PIPE, "pipe", ""),
    (b"/s", FOLDER, "", ""),
    (b"/s/t", b"t", "", ""),
    (b"/same", b"message", "", ""),
    (b"/sealed", b"secret", "", ""),
    (b"/t1", b"twin", "", "twins"),
    (b"/t2", b"twin", "", "twins"),
    (b"/t3", b"twin", "twins", ""),
    (b"/t4", b"twin", "twins", ""),
    (b"/touched", b"moment", "", ""),
    (b"/\xff", b"name", "named", ""),
]
STEPS = ["changed", "longer", "copied", "missing", "moved", "folder", "file", "grown", "link", "new", "pipe", "shut", "sealed", "twins", "touched", "named"]
# the paths that are unreadable after a step, with the reason; with --quick only where it isn't for what is read
UNREADABLE = {"grown": (b"/grown", CHANGED), "pipe": (b"/pipe", KIND), "shut": (b"/s", UNREAD), "sealed": (b"/sealed", UNREAD), "named": (b"/\xff", NAME)}
ONLY_READ = {"grown", "sealed"}
# the format that the sample registry finds in `/same`
FOUND = "dev/1"


def entries(steps):
    """What is there after these steps, by path."""
    return {path: what for path, what, after, until in ROWS if (not after or after in steps) and until not in steps}


def files_and_folders(steps):
    """The same without links and pipes. A folder lists the file that has grown as it was."""
    found = {path: what for path, what in entries(steps).items() if what not in (LINK, PIPE)}
    return found | {b"/grown": b"grown"}


def moments(steps):
    return {path: 60 if path == b"/touched" and "touched" in steps else 0 for path in entries(steps)}


def list_text(form, name, puid):
    """The list of the tree before all steps. A profile gives `/same` this format."""
    hash_of = lambda what: b"" if name == "none" else HASHES[name](what).hexdigest().encode()
    if form != "csv":
        front = {"list": b"  .", "bag": b"  data"}[form]
        return b"".join(hash_of(what) + front + path + b"\n" for path, what in entries([]).items() if what is not FOLDER)
    column = {"none": "HASH", "md5": "MD5_HASH", "sha256": "SHA256_HASH"}[name]
    names = f"ID,PARENT_ID,URI,FILE_PATH,NAME,METHOD,STATUS,SIZE,TYPE,EXT,LAST_MODIFIED,EXTENSION_MISMATCH,{column},FORMAT_COUNT,PUID,MIME_TYPE,FORMAT_NAME,FORMAT_VERSION\n"
    rows = [names.encode()]
    ids = {path: b"%d" % number for number, path in enumerate(entries([]), 1)} | {b"": b""}
    for path, what in entries([]).items():
        above, name_of_row = path.rsplit(b"/", 1)
        size, kind, digest, count = (b"", b"Folder", b"", b"") if what is FOLDER else (b"%d" % len(what), b"File", hash_of(what), b"0")
        puid_of_row = (puid or "").encode() if path == b"/same" else b""
        fields = (ids[path], ids[above], path, name_of_row, size, kind, digest, b"1" if puid_of_row else count, puid_of_row)
        rows.append(b"%b,%b,u,%b,%b,,Done,%b,%b,,1970-01-01T00:00:00,false,%b,%b,%b,,,\n" % fields)
    return b"".join(rows)


def report(form, name, quick, puid, steps):
    """The report about the tree after these steps."""
    listed, found = files_and_folders([]), files_and_folders(steps)
    if form != "csv":
        listed, found = ({path: what for path, what in side.items() if what is not FOLDER} for side in (listed, found))
    unreadable = dict(UNREADABLE[step] for step in steps if step in UNREADABLE and not (quick and step in ONLY_READ))
    rows = expected(listed, found, name, form == "csv", unreadable, (moments([]), moments(steps)) if quick else None)
    rows = [(*row[:4], b"", *row[4:7], b"", row[7]) for row in rows]
    if puid not in (None, FOUND):
        rows.append((b"format", b"/same", b"", b"", puid.encode(), b"", b"", b"", FOUND.encode(), b""))
    lines = [[name.encode() for name in COLUMNS], *sorted(rows, key=lambda row: row[1])]
    return b"".join(b'"' + b'","'.join(line) + b'"\n' for line in lines)


class Steps(InLists):
    def setUp(self):
        super().setUp()
        self.bag = self.work + b"/bag"
        os.mkdir(self.bag)
        self.write(b"bag/bagit.txt", b"BagIt-Version: 1.0\nTag-File-Character-Encoding: UTF-8\n")
        os.symlink(self.top, self.bag + b"/data")

    def make(self, steps):
        """Makes the tree after these steps. What can't be opened, or is longer than its folder says, is so by what is
        preloaded (changes.c)."""
        shutil.rmtree(self.top)
        os.mkdir(self.top)
        when = moments(steps)
        for path, what in entries(steps).items():
            if what is FOLDER:
                self.folder(path)
            elif what == LINK:
                os.symlink(b"a", self.top + path)
            elif what == PIPE:
                os.mkfifo(self.top + path)
            else:
                self.file(path, what, when[path])
        names = "/".join(name for step, name in (("shut", "s"), ("sealed", "sealed")) if step in steps)
        shortened = "grown" if "grown" in steps else ""
        self.env = os.environ | {"LD_PRELOAD": os.environ["PRELOAD_CHANGES"], "UNOPENED": names, "SHORTENED": shortened}

    def compare(self, form, name, steps, quick=False, puid=None):
        """Compares the tree with a list of the tree before. Its formats are compared if the list gives `/same` one."""
        listed = self.write(b"listed", list_text(form, name, puid))
        words = ["--quick"] * quick + ([] if puid is None else ["--identify", "--registry", SAMPLE, "--limit", "64"])
        status, out, said = verify(self.bag if form == "bag" else self.top, "--against", listed, "--quiet", *words, env=self.env)
        due = report(form, name, quick, puid, steps)
        self.assertEqual((out, status), (due, 5 if due.count(b"\n") > 1 else 0), (form, name, steps, quick, puid, said))

    def test_each_step(self):
        for steps in ([], *([step] for step in STEPS)):
            self.make(steps)
            for (form, name), quick in itertools.product(FORMS, (False, True)):
                self.compare(form, name, steps, quick)
            for puid in ("", "dev/1", "dev/9"):
                self.compare("csv", "sha256", steps, puid=puid)

    def test_each_pair_of_steps(self):
        for steps in itertools.combinations(STEPS, 2):
            self.make(steps)
            self.compare("csv", "md5", steps)
            self.compare("bag", "sha256", steps)
            self.compare("csv", "sha256", steps, quick=True)

    def test_all_steps(self):
        self.make(STEPS)
        self.compare("csv", "md5", STEPS, puid="dev/9")
        self.compare("csv", "md5", STEPS, quick=True)


if __name__ == "__main__":
    unittest.main()
