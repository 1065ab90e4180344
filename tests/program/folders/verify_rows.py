"""The CSV of a profile, row by row: how `verify` reads it, and what it reports beside a tree of one file. What is expected is
written by hand; Python's `hashlib` computed the hashes, its `csv` the rows of the first comparison."""
import csv
import io
import os
import random
import shutil
import unittest

from verify_lists import InLists, profile, records_in, rows_in, verify

# the names of the columns of a profile with MD5 hashes
NAMES = "ID,PARENT_ID,URI,FILE_PATH,NAME,METHOD,STATUS,SIZE,TYPE,EXT,LAST_MODIFIED,EXTENSION_MISMATCH,MD5_HASH,FORMAT_COUNT,PUID,MIME_TYPE,FORMAT_NAME,FORMAT_VERSION\n"
# the rows after the names of the columns, and what is read: for each item its path, `d` or `f`, the length, the last digit of
# the moment and the last byte of the hash, or the fault
ROWS = [
    ("", ""),
    ("1,,file:/d/,/d,d,,Done,,Folder,,2026-01-31T23:59:59,false,,,,,,\n", "/d d - 9 -;"),
    ("1,,u,/a,a,Signature,Done,5,File,,2026-01-31T23:59:51,false,000102030405060708090a0b0c0d0e0f,1,fmt/1,m,n,v\n", "/a f 5 1 15;"),
    # digits in upper case, and quoted fields
    ('"1","","u","/a","a","","Done","5","File","","2026-01-31T23:59:51","false","000102030405060708090A0B0C0D0E0F","0","","","",""\n', "/a f 5 1 15;"),
    # two formats
    ("1,,u,/a,a,,Done,5,File,,2026-01-31T23:59:51,false,,2,fmt/1,,,\n1,,u,/a,a,,Done,5,File,,2026-01-31T23:59:51,false,,2,fmt/2,,,\n2,,u,/b,b,,Done,6,File,,2026-01-31T23:59:52,false,,0,,,,\n", "/a f 5 1 -;/b f 6 2 -;"),
    # three formats, of which all columns differ
    ("1,,u,/a,a,Signature,Done,5,File,,2026-01-31T23:59:51,false,,3,fmt/1,m/a,A,1\n1,,u,/a,a,Signature,Done,5,File,,2026-01-31T23:59:51,false,,3,fmt/2,m/b,B,2\n1,,u,/a,a,Signature,Done,5,File,,2026-01-31T23:59:51,false,,3,,,,\n", "/a f 5 1 -;"),
    # a row that repeats a row, but not the row before it; and one that repeats all but its number
    ("1,,u,/a,a,,Done,5,File,,,false,,0,,,,\n2,,u,/b,b,,Done,5,File,,,false,,0,,,,\n1,,u,/a,a,,Done,5,File,,,false,,0,,,,\n", "record 4: ID contradicts another record"),
    ("1,,u,/a,a,,Done,5,File,,,false,,0,,,,\n2,,u,/b,b,,Done,5,File,,,false,,0,,,,\n3,,u,/a,a,,Done,5,File,,,false,,0,,,,\n", "/a f 5 - -;/b f 5 - -;/a f 5 - -;"),
    # one path with two lengths: both are kept, and no inventory takes them
    ("1,,u,/a,a,,Done,5,File,,2026-01-31T23:59:51,false,,0,,,,\n2,,u,/a,a,,Done,6,File,,2026-01-31T23:59:51,false,,0,,,,\n", "/a f 5 1 -;/a f 6 1 -;"),
    # one path with a hash and without
    ("1,,u,/a,a,,Done,5,File,,2026-01-31T23:59:51,false,000102030405060708090a0b0c0d0e0f,0,,,,\n2,,u,/a,a,,Done,5,File,,2026-01-31T23:59:51,false,,0,,,,\n", "/a f 5 1 15;/a f 5 1 -;"),
    # one path with a moment and without
    ("1,,u,/a,a,,Done,5,File,,,false,,0,,,,\n2,,u,/a,a,,Done,5,File,,2026-01-31T23:59:51,false,,0,,,,\n", "/a f 5 - -;/a f 5 1 -;"),
    # one path with three IDs, and with two counts of formats
    ("1,,u,/a,a,,Done,5,File,,,false,,0,,,,\n2,,u,/a,a,,Done,5,File,,,false,,0,,,,\n3,,u,/a,a,,Done,5,File,,,false,,1,,,,\n", "/a f 5 - -;/a f 5 - -;/a f 5 - -;"),
    # the same hash with digits of another case: the row is no further row of the file
    ("1,,u,/a,a,,Done,5,File,,,false,000102030405060708090a0b0c0d0e0f,0,,,,\n1,,u,/a,a,,Done,5,File,,,false,000102030405060708090A0B0C0D0E0F,0,,,,\n", "record 3: ID contradicts another record"),
    ("1,,u,/a,a,,Done,5,File,,,false,000102030405060708090a0b0c0d0e0f,0,,,,\n2,,u,/a,a,,Done,5,File,,,false,000102030405060708090A0B0C0D0E0F,0,,,,\n", "/a f 5 - 15;/a f 5 - 15;"),
    # a row again
    ("1,,u,/a,a,,Done,5,File,,,false,,0,,,,\n1,,u,/a,a,,Done,5,File,,,false,,0,,,,\n", "record 3: FORMAT_COUNT contradicts another record"),
    # a name with a line feed, a quote and a comma; line ends of two bytes
    ('1,,u,"/a\n"",b","a\n"",b",,Done,5,File,,2026-01-31T23:59:51,false,,0,,,,\r\n2,,u,/c,c,,Done,6,File,,2026-01-31T23:59:52,false,,0,,,,\r\n', '/a\n",b f 5 1 -;/c f 6 2 -;'),
    # no moment
    ("1,,u,/a,a,,Done,5,File,,,false,,0,,,,\n", "/a f 5 - -;"),
    # no line feed at the end
    ("1,,u,/a,a,,Done,18446744073709551615,File,,,false,,0,,,,", "/a f 18446744073709551615 - -;"),
    # malformed: the size
    ("1,,u,/a,a,,Done,,File,,,false,,0,,,,\n", "record 2: SIZE is wrong"),
    ("1,,u,/a,a,,Done,+5,File,,,false,,0,,,,\n", "record 2: SIZE is wrong"),
    ("1,,u,/a,a,,Done,5 ,File,,,false,,0,,,,\n", "record 2: SIZE is wrong"),
    ("1,,u,/a,a,,Done,18446744073709551616,File,,,false,,0,,,,\n", "record 2: SIZE is wrong"),
    ("1,,u,/a,a,,Done,5,Folder,,,false,,,,,,\n", "record 2: SIZE is wrong"),
    # the kind
    ("1,,u,/a,a,,Done,5,file,,,false,,0,,,,\n", "record 2: TYPE is wrong"),
    ("1,,u,/a,a,,Done,5,,,,false,,0,,,,\n", "record 2: TYPE is wrong"),
    # the path
    ("1,,u,a,a,,Done,5,File,,,false,,0,,,,\n", "record 2: FILE_PATH is wrong"),
    ("1,,u,,a,,Done,5,File,,,false,,0,,,,\n", "record 2: FILE_PATH is wrong"),
    # the moment
    ("1,,u,/a,a,,Done,5,File,,2026-01-31,false,,0,,,,\n", "record 2: LAST_MODIFIED is wrong"),
    # the hash
    ("1,,u,/a,a,,Done,5,File,,,false,00010203,0,,,,\n", "record 2: MD5_HASH is wrong"),
    ("1,,u,/a,a,,Done,5,File,,,false,0001020304050607_8090a0b0c0d0e0f,0,,,,\n", "record 2: MD5_HASH is wrong"),
    ("1,,u,/d,d,,Done,,Folder,,,false,000102030405060708090a0b0c0d0e0f,,,,,\n", "record 2: MD5_HASH is wrong"),
    # the number of fields
    ("1,,u,/a,a,,Done,5,File,,,false,,0,,,\n", "record 2 does not have a field for each column"),
    ("1,,u,/a,a,,Done,5,File,,,false,,0,,,,\n2,,u,/b,b,,Done,6,File,,,false,,0,,,,,\n", "record 3 does not have a field for each column"),
]
# the columns that a list is read by, in the order in which a missing one is named, and the others
NEEDED = "ID PARENT_ID FILE_PATH NAME SIZE TYPE LAST_MODIFIED MD5_HASH FORMAT_COUNT".split()
OTHERS = "URI METHOD STATUS EXT EXTENSION_MISMATCH PUID MIME_TYPE FORMAT_NAME FORMAT_VERSION".split()
# a file with two formats, a folder, and a file in it whose name has a quote and a comma
SEVERAL = (
    '1,,u,/a,a,Signature,Done,5,File,,2026-01-31T23:59:51,false,000102030405060708090a0b0c0d0e0f,2,fmt/1,m,n,v\n'
    '1,,u,/a,a,Signature,Done,5,File,,2026-01-31T23:59:51,false,000102030405060708090a0b0c0d0e0f,2,fmt/2,m,o,v\n'
    '2,,u,/d,d,,Done,,Folder,,2026-01-31T23:59:53,false,,,,,,\n'
    '3,2,u,"/d/""b"",","""b"",",,Done,6,File,,2026-01-31T23:59:52,false,,0,,,,\n'
)
SEVERAL_ITEMS = '/a f 5 1 15;/d d - 3 -;/d/"b", f 6 2 -;'
# the hash of the rows that have one, and a moment of 2026-01-31T23:59:50
HASH, MOMENT = bytes(range(16)).hex().encode(), 1_769_903_990
# lists without rows, and whether they have the header of a profile
HEADERS = [
    ("ID,PARENT_ID,URI,FILE_PATH,NAME,METHOD,STATUS,SIZE,TYPE,EXT,LAST_MODIFIED,EXTENSION_MISMATCH,HASH,FORMAT_COUNT,PUID,MIME_TYPE,FORMAT_NAME,FORMAT_VERSION", ""),
    ('"ID",PARENT_ID,URI,FILE_PATH,NAME,METHOD,STATUS,SIZE,TYPE,EXT,LAST_MODIFIED,EXTENSION_MISMATCH,SHA256_HASH,FORMAT_COUNT,PUID,MIME_TYPE,FORMAT_NAME,FORMAT_VERSION\r\n', ""),
    ("ID,PARENT_ID,URI,FILE_PATH,NAME,METHOD,STATUS,SIZE,TYPE,EXT,LAST_MODIFIED,EXTENSION_MISMATCH,SHA1_HASH,FORMAT_COUNT,PUID,MIME_TYPE,FORMAT_NAME,FORMAT_VERSION\n", "header"),
]
# rows, the moment of the file `/a` of the six bytes `first\n` after MOMENT, options, and what is reported
COMPARED = [
    # another file at the path
    ("1,,u,/a,a,,Done,7,File,,2026-01-31T23:59:59,false,59d0d19fc45ca69230d858f60a5557f8,0,,,,\n", 9, [], "changed /a length hash;"),
    # removed since
    (
        "1,,u,/a,a,,Done,6,File,,2026-01-31T23:59:59,false,eb260e9ae827821beceeed4104f0ad89,0,,,,\n"
        "2,,u,/b,b,,Done,6,File,,2026-01-31T23:59:59,false,eb260e9ae827821beceeed4104f0ad89,0,,,,\n",
        9, [], "missing /b;",
    ),
    # not in the profile
    ("", 9, [], "new /a;"),
    # under another path
    ("1,,u,/b,b,,Done,6,File,,2026-01-31T23:59:59,false,eb260e9ae827821beceeed4104f0ad89,0,,,,\n", 9, [], "moved /b /a;"),
    # another moment
    ("1,,u,/a,a,,Done,6,File,,2026-01-31T23:59:59,false,eb260e9ae827821beceeed4104f0ad89,0,,,,\n", 8, ["--quick"], "touched /a;"),
    # a hash that is not known
    ("1,,u,/a,a,,Done,6,File,,2026-01-31T23:59:59,false,eb260e9ae827821beceeed4104f0ad89,0,,,,\n", 9, ["--quick"], ""),
    # a folder in the place of a file
    ("1,,u,/a,a,,Done,,Folder,,2026-01-31T23:59:59,false,,,,,,\n", 9, [], "changed /a kind;"),
    # a path twice in the CSV
    (
        "1,,u,/a,a,,Done,6,File,,2026-01-31T23:59:59,false,eb260e9ae827821beceeed4104f0ad89,0,,,,\n"
        "2,,u,/a,a,,Done,6,File,,2026-01-31T23:59:59,false,eb260e9ae827821beceeed4104f0ad89,0,,,,\n",
        9, [], "twice /a",
    ),
]
# a folder, and a file with two formats whose path has a quote
TWO_FORMATS = (
    '"1","","file:/d/","/d","d","","Done","","Folder","","2026-01-31T23:59:50","false","","","","","",""\n'
    '"2","1","file:/d/a%22.txt","/d/a"".txt","a"".txt","Signature","Done","6","File","txt","2026-01-31T23:59:59","false","eb260e9ae827821beceeed4104f0ad89","2","fmt/1","m","n","v"\n'
    '"2","1","file:/d/a%22.txt","/d/a"".txt","a"".txt","Signature","Done","6","File","txt","2026-01-31T23:59:59","false","eb260e9ae827821beceeed4104f0ad89","2","fmt/2","m","n, of ""two""","v"\n'
)


def sentence(fault):
    """What is said of a list with this fault."""
    what, _, of = fault.partition(" ")
    return {"header": "does not begin with the column names of a profile: name a CSV of `profile` or of an export", "twice": f"has a path twice: {of}"}.get(what, fault).encode()


def items_of(text):
    """The items of a text: path, whether it is a file, size, moment after MOMENT and hash, as they stand in a report or None."""
    items = []
    for item in text.split(";")[:-1]:
        path, kind, length, digit, last = item.rsplit(" ", 4)
        assert last in ("15", "-") and kind == ("d" if length == "-" else "f"), item
        items.append((path.encode(), kind == "f", b"" if length == "-" else length.encode(), None if digit == "-" else int(digit), HASH if last == "15" else b""))
    return items


def words_of(rows):
    """A report in words. (The rows of `changed` say by `--quick` alone that it is the moment.)"""
    text = b""
    for kind, path, size, digest, found, found_size, found_digest, reason in rows:
        assert not reason, reason
        words = [kind, path]
        if kind == b"changed":
            words += [b"kind"] * ((not size) != (not found_size))
            words += [b"length"] * (b"" not in (size, found_size) and size != found_size)
            words += [b"hash"] * (b"" not in (digest, found_digest) and digest != found_digest)
            words[0] = b"touched" if len(words) == 2 else kind
        elif kind == b"moved":
            words.append(found)
        text += b" ".join(words) + b";"
    return text.decode()


def part(text, names, quoting=csv.QUOTE_MINIMAL):
    """The columns of these names alone, as Python's `csv` writes them."""
    rows = [*csv.reader(io.StringIO(text, newline=""), strict=True)]
    places = [rows[0].index(name) for name in names]
    out = io.StringIO(newline="")
    csv.writer(out, quoting=quoting, lineterminator="\n").writerows([[row[place] for place in places] for row in rows])
    return out.getvalue()


def in_order(names):
    return [name for name in NAMES.strip().split(",") if name in names]


class Rows(InLists):
    def fails(self, text, fault):
        listed = self.write(b"listed", text.encode())
        self.assertEqual(verify(self.top, "--against", listed), (3, b"", b"fault: List\n" + listed + b": " + sentence(fault) + b"\n"), text)

    def reports(self, text, rows, *words):
        status, out, said = verify(self.top, "--against", self.write(b"listed", text.encode()), "--quiet", *words)
        self.assertEqual((status, rows_in(out), said), (5 if rows else 0, rows, b""), (text, words))

    def reads(self, text, items):
        """Checks that a list has these items: in an empty folder all of them are missing. Beside files of their sizes and moments
        `--quick` finds no difference, and beside files of other moments one of each file whose moment is listed. (The moment of a
        folder is compared by `submit` alone, in ../submissions/submit_lies.py.)"""
        self.reports(text, [(b"missing", path, size, digest, b"", b"", b"", b"") for path, _, size, _, digest in items])
        if any(len(size) > 3 for _, _, size, _, _ in items):
            return
        for later in (0, 1):
            for path, is_file, size, digit, _ in items:
                if is_file:
                    self.file(path, b"x" * int(size), MOMENT + (digit or 0) + later)
                else:
                    self.folder(path)
            touched = [(b"changed", path, size, digest, path, size, b"", b"") for path, _, size, digit, digest in items if later and digit is not None and size]
            self.reports(text, touched, "--quick")
        shutil.rmtree(self.top)
        os.mkdir(self.top)

    def test_rows(self):
        for rows, due in ROWS:
            items = items_of(due)
            paths = [item[0] for item in items]
            if not due.endswith(";") and due:
                self.fails(NAMES + rows, due)
            elif len({*paths}) == len(paths):
                self.reads(NAMES + rows, items)
            else:
                # each item alone, those of one path that stand behind one another, and all
                lines = rows.splitlines(True)
                for line, item in zip(lines, items, strict=True):
                    self.reads(NAMES + line, [item])
                for place in range(1, len(lines)):
                    if paths[place] == paths[place - 1]:
                        self.fails(NAMES + lines[place - 1] + lines[place], "twice /a")
                self.fails(NAMES + rows, "twice /a")

    def test_headers(self):
        for text, due in HEADERS:
            if due:
                self.fails(text, due)
            else:
                self.reads(text, [])

    def test_some_columns(self):
        chance = random.Random(18)
        kept = [[], OTHERS] + [[other for other in OTHERS if other != one] for one in OTHERS] + [chance.sample(OTHERS, chance.randrange(9)) for _ in range(12)]
        for others in kept:
            for quoting in (csv.QUOTE_MINIMAL, csv.QUOTE_ALL):
                self.reads(part(NAMES + SEVERAL, in_order(NEEDED + others), quoting), items_of(SEVERAL_ITEMS))

    def test_missing_columns(self):
        chance = random.Random(19)
        for count in range(1, 9):
            for first in NEEDED[1:]:
                gone = {first, *chance.sample(NEEDED[1:], count - 1)}
                named = next(name for name in NEEDED if name in gone).replace("MD5_HASH", "MD5_HASH, SHA256_HASH or HASH")
                left = in_order([name for name in NEEDED + chance.sample(OTHERS, 4) if name not in gone])
                self.fails(part(NAMES + SEVERAL, left), f"there is no column {named}")
                self.fails(part(NAMES, left, csv.QUOTE_ALL), f"there is no column {named}")

    def test_other_headers(self):
        names = in_order(NEEDED)
        for place in range(1, len(names)):
            for others in (
                names[:place] + [names[place], names[place]] + names[place + 1 :],
                names[:place] + ["SHA1_HASH"] + names[place + 1 :],
                names[: place - 1] + [names[place], names[place - 1]] + names[place + 1 :],
                names[:place] + [names[place] + " "] + names[place + 1 :],
            ):
                if others[0] == "ID":
                    self.fails(",".join(others) + "\n", "header")

    def test_fields_of_some_columns(self):
        text = part(NAMES + SEVERAL, in_order(NEEDED))
        lines = text.splitlines(True)
        for place in range(1, len(lines)):
            for line in (lines[place].replace("\n", ",\n"), lines[place].rpartition(",")[0] + "\n", "x\n"):
                wrong = "".join(lines[:place]) + line + "".join(lines[place + 1 :])
                self.fails(wrong, f"record {place + 1} does not have a field for each column")
        # a field is that of its own column, whatever is left out before it
        for name, value in [("SIZE", "x"), ("TYPE", "file"), ("LAST_MODIFIED", "2026-13-01T00:00:00"), ("MD5_HASH", "00"), ("FORMAT_COUNT", "-1"), ("FILE_PATH", "a"), ("NAME", "c"), ("PARENT_ID", "0")]:
            for others in (OTHERS, [], OTHERS[:3], OTHERS[4:]):
                names = in_order(NEEDED + others)
                rows = [*csv.reader(io.StringIO(part(NAMES + SEVERAL, names), newline=""))]
                rows[2][names.index(name)] = value
                out = io.StringIO(newline="")
                csv.writer(out, lineterminator="\n").writerows(rows)
                self.fails(out.getvalue(), f"record 3: {name} is wrong")

    def test_formats_of_some_columns(self):
        self.file(b"/a.txt", b"first\n", MOMENT)
        listed = self.work + b"/whole"
        self.assertEqual(profile(self.top, "--output", listed, "--quiet")[0], 0)
        with open(listed, encoding="utf-8", newline="") as file:
            whole = file.read()
        other = whole.replace("x-fmt/111", "fmt/43")
        self.assertNotEqual(whole, other)
        for others in (OTHERS, ["PUID"], ["URI", "PUID", "FORMAT_NAME"]):
            names = in_order(NEEDED + others)
            for text, due in ((whole, []), (other, [(b"format", b"/a.txt", b"fmt/43", b"x-fmt/111")])):
                against = self.write(b"listed", part(text, names).encode())
                status, out, said = verify(self.top, "--against", against, "--identify", "--quiet")
                found = [(row["difference"], row["path"], row["formats"], row["found_formats"]) for row in records_in(out)]
                self.assertEqual((status, found), (5 if due else 0, due), names)
                self.assertRegex(said, rb"\Aregistry: the built-in registry of everyday formats, MD5 [0-9a-f]{32}\n\Z")
        without = part(other, in_order(NEEDED + OTHERS[:5]))
        self.reports(without, [])
        against = self.write(b"listed", without.encode())
        status, out, said = verify(self.top, "--against", against, "--identify")
        self.assertEqual((status, out, said.partition(b"\n")[2]), (3, b"", b"fault: List\n" + against + b": there is no column PUID\n"))

    def test_comparisons(self):
        for rows, later, words, due in COMPARED:
            self.file(b"/a", b"first\n", MOMENT + later)
            if due.startswith("twice"):
                self.fails(NAMES + rows, due)
                continue
            status, out, said = verify(self.top, "--against", self.write(b"listed", (NAMES + rows).encode()), "--quiet", *words)
            self.assertEqual((status, words_of(rows_in(out)), said), (5 if due else 0, due, b""), rows)

    def test_two_formats(self):
        self.folder(b"/d")
        self.file(b'/d/a".txt', b"first\n", MOMENT + 9)
        os.utime(self.top + b"/d", (0, MOMENT))
        for words in ([], ["--quick"]):
            self.reports(NAMES + TWO_FORMATS, [], *words)


if __name__ == "__main__":
    unittest.main()
