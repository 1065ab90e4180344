"""The document of --json-sf.

The shape is that which `sf -json` of Siegfried 1.11 writes: each key is there once, with its type, in that order, and no other; each
file that was read has a match, and one that was not has the reason in `errors`.
"""

import json
import os
import re
import tempfile
import unittest
from datetime import datetime
from random import Random

from asking import identify, write

TOP = {"siegfried": str, "scandate": str, "signature": str, "created": str, "identifiers": list, "files": list}
IDENTIFIER = {"name": str, "details": str}
FILE = {"filename": str, "filesize": int, "modified": str, "errors": str, "matches": list}
MATCH = {"ns": str, "id": str, "format": str, "version": str, "mime": str, "class": str, "basis": str, "warning": str}
MOMENT = re.compile(r"[0-9]{4}-[0-9]{2}-[0-9]{2}T[0-9]{2}:[0-9]{2}:[0-9]{2}(Z|[+-][0-9]{2}:[0-9]{2})")


def once(pairs):
    """An object of JSON. No key may be there twice."""
    keys = [key for key, _ in pairs]
    assert len(set(keys)) == len(keys), keys
    return dict(pairs)


def check_keys(value, keys):
    assert list(value) == list(keys), value
    for key, kind in keys.items():
        assert type(value[key]) is kind, (key, value[key])


def check_document(document):
    check_keys(document, TOP)
    assert MOMENT.fullmatch(document["scandate"]) and MOMENT.fullmatch(document["created"])
    for identifier in document["identifiers"]:
        check_keys(identifier, IDENTIFIER)
    assert [identifier["name"] for identifier in document["identifiers"]] == ["pronom"]
    for file in document["files"]:
        check_keys(file, FILE)
        assert MOMENT.fullmatch(file["modified"]) and file["filesize"] >= 0 and bool(file["matches"]) != bool(file["errors"])
        for match in file["matches"]:
            check_keys(match, MATCH)
            assert match["ns"] == "pronom" and match["id"]
            assert (match["id"] == "UNKNOWN") == (not match["format"])


def random_names(random):
    """Names of all kinds of characters that a name in UTF-8 may have."""
    letters = "\"\\/<>&'\t\n\r\x01\x1f\x7f é€😀\u0085\u2028ab."
    for number in range(60):
        yield str(number) + "".join(letter for letter in random.choices(letters, k=random.randrange(12)) if letter != "/")


def document_of(*words):
    out, err, status = identify("--json-sf", *words)
    document = json.loads(out.decode("utf-8"), object_pairs_hook=once)
    check_document(document)
    return document["files"], err, status


CONTENTS = [b"", b"\x89PNG\r\n\x1a\n\x00\x00\x00\rIHDR", b"text", b"%PDF-1.4\n"]


class Shape(unittest.TestCase):
    def test_names_by_chance(self):
        with tempfile.TemporaryDirectory() as folder:
            names = [os.path.join(folder, name) for name in random_names(Random(1))]
            for number, name in enumerate(names):
                write(name, CONTENTS[number % len(CONTENTS)])
            files, err, status = document_of(*names)
            self.assertEqual((err, status), (b"", 0))
            self.assertEqual([file["filename"] for file in files], names)
            self.assertEqual([file["filesize"] for file in files], [os.path.getsize(name) for name in names])
            moments = [int(os.stat(name).st_mtime) for name in names]
        self.assertEqual([moment(file["modified"]) for file in files], moments)
        self.assertEqual({match["id"] for file in files[::4] for match in file["matches"]}, {"UNKNOWN"})

    def test_words_of_siegfried(self):
        with tempfile.TemporaryDirectory() as folder:
            names = [os.path.join(folder, name) for name in ("a.png", "b.txt", "c", "d.txt", "e.xyz")]
            for name, content in zip(names, [CONTENTS[1], b"text", b"", CONTENTS[3], b"text"], strict=True):
                write(name, content)
            files, _, _ = document_of(*names)
        found = [[(its["id"], its["basis"], its["warning"]) for its in file["matches"]] for file in files]
        self.assertEqual(
            found,
            [
                [("fmt/11", "byte match at 0, 16", "")],
                [("x-fmt/111", "extension match txt", "match on extension only")],
                [("UNKNOWN", "", "no match")],
                [("fmt/18", "byte match at 0, 8", "extension mismatch")],
                [("UNKNOWN", "text match ASCII", "no match")],
            ],
        )

    def test_a_file_that_is_not_there(self):
        with tempfile.TemporaryDirectory() as folder:
            there = write(os.path.join(folder, "a"), b"")
            lost = os.path.join(folder, "lost")
            files, err, status = document_of(lost, there, lost)
        self.assertEqual(status, 5)
        self.assertEqual(err.count(b"\n"), 2)
        self.assertEqual([bool(file["errors"]) for file in files], [True, False, True])
        self.assertEqual([file["filename"] for file in files], [lost, there, lost])

    def test_matches_at_both_ends(self):
        with tempfile.TemporaryDirectory() as folder:
            registry = write(os.path.join(folder, "r.csv"), b"F,t/1,Both,,,\nS,t/1,BOF,1,1,6161\nB,t/1,EOF,2,2,62\n")
            name = write(os.path.join(folder, "x"), b"_aa___b..")
            files, _, _ = document_of("--registry", registry, name)
        self.assertEqual(files[0]["matches"][0]["basis"], "byte match at [[1 2] [6 1]]")


def moment(text):
    return int(datetime.fromisoformat(text.replace("Z", "+00:00")).timestamp())


if __name__ == "__main__":
    unittest.main()
