"""The parts of an export, whatever comes between them. Each part belongs to the text that the profile has at that
moment (docs/SERVICE.md). The model, which makes the whole text for each part, says what is due."""

import tempfile
import unittest
from struct import pack

from lib.frames import ABANDON, ADD_FILE, ADD_FOLDER, CREATE_PROFILE, EXPORT, FINISH, PART, PIECE, STATUS
from lib.frames import cut, export_body, file_body, folder_body, frame, node_body, piece_body, profile_body
from lib.program import SAMPLE, run
from lib.rows import COLUMNS, IN_ROW
from model_frames import reply_to, service_of_the_sample

ALL, ANY = 1, 0

# criteria as bodies have them; those of a pair match other records, or mean other things by the same bytes
FOLDERS, FILES = b"\7\1", b"\7\0"
AT_LEAST, AT_MOST = (bytes([tag]) + pack(">Q", 3) for tag in (5, 6))
EXTENSIONS = b"\3\2\1a\1b"
OTHER_ORDER = b"\3\2\1b\1a"
OTHER_LIST = b"\3\2\1a\1c"
ONE_TEXT = b"\3\1\1a"
IDENTIFIERS = b"\2\2\1a\1b"
FILTERS = [
    (ALL, []),
    (ANY, []),
    (ALL, [FILES, AT_LEAST]),
    (ANY, [FILES, AT_LEAST]),
    (ANY, [AT_LEAST, FILES]),
    (ANY, [FILES, AT_MOST]),
    (ANY, [FOLDERS, AT_LEAST]),
    (ANY, [FILES]),
    (ANY, [FILES, AT_LEAST, AT_LEAST]),
    (ANY, [EXTENSIONS]),
    (ANY, [OTHER_ORDER]),
    (ANY, [OTHER_LIST]),
    (ANY, [ONE_TEXT]),
    (ANY, [IDENTIFIERS]),
    (ALL, [b"\1\1"]),
    (ALL, [b"\1\2"]),
    (ALL, [b"\4\0"]),
    (ALL, [b"\4\1"]),
]

# the length of parts, and the number of folders with the longest names in the profile
SIZES = [(1, 0), (7, 0), (1_000, 4), (1_048_576, 1_300)]


def texts(tag, *words):
    """A criterion with a list of texts."""
    return bytes([tag, len(words)]) + b"".join(bytes([len(word)]) + word for word in words)


def puids(*words):
    return texts(2, *words)


def extensions(*words):
    return texts(3, *words)


def at_least(size):
    return b"\5" + pack(">Q", size)


def at_most(size):
    return b"\6" + pack(">Q", size)


# criteria, and which records meet all of them and any of them: the folder `in` (i), the file `m.MSG` of 14 bytes with two
# formats (m), and the empty file `a.b` (e), which is unidentified
CHOSEN = [
    ([b"\1\0"], "ie", "ie"),
    ([b"\1\1"], "m", "m"),
    ([b"\1\2"], "", ""),
    ([b"\4\1"], "m", "m"),
    ([b"\4\0"], "ie", "ie"),
    ([FILES], "me", "me"),
    ([FOLDERS], "i", "i"),
    ([at_least(0)], "me", "me"),
    ([at_least(14)], "m", "m"),
    ([at_least(15)], "", ""),
    ([at_most(0)], "e", "e"),
    ([at_most(13)], "e", "e"),
    ([at_most(14)], "me", "me"),
    ([puids()], "", ""),
    ([puids(b"dev/2", b"dev/3")], "m", "m"),
    ([puids(b"DEV/3", b"dev/")], "", ""),
    ([extensions()], "", ""),
    ([extensions(b"x", b"mSg")], "m", "m"),
    ([extensions(b"B", b"ms")], "e", "e"),
    ([extensions(b"")], "i", "i"),
    ([], "ime", "ime"),
    ([extensions(b"msg"), puids(b"dev/3")], "m", "m"),
    ([extensions(b"b", b"msg"), extensions(b"MSG")], "m", "me"),
    ([puids(b"dev/1"), puids(b"dev/3")], "m", "m"),
    ([puids(b"dev/1"), puids(b"dev/2")], "", "m"),
    ([extensions(), FOLDERS], "", "i"),
    ([FOLDERS], "i", "i"),
    ([FOLDERS, at_least(14)], "", "im"),
    ([extensions(b"a", b"a", b"B"), at_most(0), FILES], "e", "me"),
]
# the rows of the three
MESSAGE = b'"2","","file:/m.MSG","/m.MSG","m.MSG","Signature","Done","14","File","MSG","1970-01-01T00:00:00","true","f96b697d7cb7938d525a2f31aaf161d0","2",'
ROWS = {
    "i": IN_ROW,
    "m": MESSAGE + b'"dev/1","","Message","1"\n' + MESSAGE + b'"dev/3","","Letters",""\n',
    "e": b'"3","","file:/a.b","/a.b","a.b","","Done","0","File","b","1970-01-01T00:00:00","false","d41d8cd98f00b204e9800998ecf8427e","0","","","",""\n',
}


def export(profile, start, size, every, criteria):
    return export_body(start, size, bytes([every, len(criteria)]) + b"".join(criteria), profile)


class Session:
    """Requests in order, with the model's replies."""

    def __init__(self):
        self.service = service_of_the_sample()
        self.requests, self.replies = [], []
        self.last = None

    def ask(self, kind, body):
        """Adds a request under a new number, and returns the kind and the body of the model's reply."""
        return self.send((kind, 1, len(self.requests) + 1, body))

    def command(self, kind, body):
        """Adds a command, which can be repeated."""
        self.last = kind, 1, len(self.requests) + 1, body
        return self.send(self.last)

    def send(self, request):
        self.requests.append(frame(*request))
        self.replies.append(reply_to(self.service, 1, *request))
        return self.replies[-1][1], self.replies[-1][18:]

    def folder(self, profile, name):
        return self.command(ADD_FOLDER, folder_body(name, profile=profile))

    def file(self, profile, name, content, piece_size=2):
        """Adds a finished file with these bytes, and returns its number."""
        _, body = self.command(ADD_FILE, file_body(name, len(content), piece_size, profile=profile))
        number = int.from_bytes(body, "big")
        for index, start in enumerate(range(0, len(content), piece_size)):
            self.command(PIECE, piece_body(number, index, content[start : start + piece_size], profile))
        self.command(FINISH, node_body(number, profile))
        return number

    def unfinished(self, profile, name):
        """Adds a file of two pieces, neither of which is sent, and returns its number."""
        _, body = self.command(ADD_FILE, file_body(name, 2, 1, profile=profile))
        return int.from_bytes(body, "big")

    def part(self, profile, start, size, every, criteria):
        """Asks for a part, and returns the length of the whole text."""
        kind, body = self.ask(EXPORT, export(profile, start, size, every, criteria))
        assert kind == PART, kind
        return int.from_bytes(body[8:16], "big")

    def text(self, profile, size, every, criteria, between=None):
        """Asks for the whole text in parts. `between` is called after each of the first three; after these only
        the last three are asked for."""
        start, done, total = 0, 0, 1
        while start < total:
            total = self.part(profile, start, size, every, criteria)
            start += size
            if between and done < 3:
                between(f"{len(self.requests)}".encode("ascii"))
                done += 1
                if done == 3:
                    start = max(start, total - 3 * size)
        self.part(profile, start, size, every, criteria)


def session_of(folders):
    """Makes two profiles with the same nodes, and this many folders more in the first."""
    session = Session()
    for profile in (1, 2):
        session.command(CREATE_PROFILE, profile_body())
        session.folder(profile, b"in")
        session.file(profile, b"x.a", b"12345")
        session.file(profile, b"y.B", b"1")
    for place in range(folders):
        session.folder(1, b"%04d" % place + b"n" * 251)
    return session


def ways_between(session, size):
    """Returns, by name, what may come between two parts of the first profile's text by the first filter."""
    every, criteria = FILTERS[0]
    open_file = session.unfinished(1, b"open")
    ways = {
        "nothing": None,
        "a folder in it": lambda name: session.folder(1, name),
        "a folder in another profile": lambda name: session.folder(2, name),
        "a file in it": lambda name: session.file(1, name, b"12"),
        "an unfinished file in it": lambda name: session.unfinished(1, name),
        "a piece of an unfinished file": lambda name: session.command(PIECE, piece_body(open_file, int(name) % 2, b"1")),
        "its end": lambda name: session.command(FINISH, node_body(open_file)),
        "an abandoned file": lambda name: session.command(ABANDON, node_body(session.unfinished(1, name))),
        "a profile": lambda name: session.command(CREATE_PROFILE, profile_body(match_all=1)),
        "a folder that is refused": lambda name: session.folder(1, b"in"),
        "a command that is repeated": lambda name: session.send(session.last),
        "a status": lambda name: session.ask(STATUS, node_body(2)),
        "no request": lambda name: session.ask(9, name),
        "a part that is too large": lambda name: session.ask(EXPORT, export(1, 0, 1_048_577, every, criteria)),
        "no such profile": lambda name: session.ask(EXPORT, export(999, 0, size, every, criteria)),
        "another profile": lambda name: session.part(2, 3, size, every, criteria),
        "another place": lambda name: session.part(1, 1, size, every, criteria),
        "the last byte": lambda name: session.part(1, session.part(1, 0, 1, every, criteria) - 1, 1, every, criteria),
        "a place past the end": lambda name: session.part(1, 2**64 - 1, size, every, criteria),
        "another size": lambda name: session.part(1, 0, size // 2 + 1, every, criteria),
    }
    for place, (joining, others) in enumerate(FILTERS[1:]):
        ways[f"filter {place + 1}"] = lambda name, joining=joining, others=others: session.part(1, 2, size, joining, others)
    return ways


class ExportParts(unittest.TestCase):
    maxDiff = 500

    def check(self, session):
        """Compares the program's replies with the model's."""
        status, out, err = run(["run"], b"".join(session.requests))
        self.assertEqual((status, err), (0, ""))
        start = 0
        for request, reply in zip(session.requests, session.replies):
            found = out[start : start + len(reply)]
            self.assertTrue(found == reply, (request[:64], found[:64], reply[:64]))
            start += len(reply)
        self.assertEqual(len(out), start)

    def test_whatever_comes_between(self):
        for size, folders in SIZES:
            with self.subTest(size=size):
                session = session_of(folders)
                every, criteria = FILTERS[0]
                for between in ways_between(session, size).values():
                    session.text(1, size, every, criteria, between)
                self.check(session)

    def test_each_filter_after_each(self):
        """Asks for each filter after each, in the same profile and in the one with the same nodes."""
        session = session_of(0)
        for every, criteria in FILTERS:
            for other in FILTERS:
                for profile in (1, 2):
                    for size in (1, 1_000):
                        session.part(1, 0, 1, every, criteria)
                        session.part(profile, 1, size, *other)
        self.check(session)

    def test_texts_by_each_filter(self):
        session = session_of(0)
        for every, criteria in FILTERS:
            session.text(1, 7, every, criteria, lambda name: session.folder(2, name))
            session.text(2, 7, every, criteria)
        self.check(session)

    def test_chosen_records(self):
        """With a registry by which the extension of `m.MSG` contradicts its formats."""
        content = b"message digest"
        bodies = [
            (CREATE_PROFILE, profile_body()),
            (ADD_FOLDER, folder_body(b"in")),
            (ADD_FILE, file_body(b"m.MSG", len(content), len(content))),
            (PIECE, piece_body(2, 0, content)),
            (FINISH, node_body(2)),
            (ADD_FILE, file_body(b"a.b", 0, 1)),
            (FINISH, node_body(3)),
        ]
        bodies += [(EXPORT, export(1, 0, 1_048_576, every, criteria)) for criteria, *_ in CHOSEN for every in (ALL, ANY)]
        stream = b"".join(frame(kind, 1, number, body) for number, (kind, body) in enumerate(bodies, 1))
        with open(SAMPLE, "rb") as sample, tempfile.NamedTemporaryFile() as registry:
            registry.write(sample.read().replace(b"E,dev/1,msg,", b"E,dev/1,mail,"))
            registry.flush()
            status, out, err = run(["run", "--registry", registry.name], stream)
        self.assertEqual((status, err), (0, ""))
        texts_found = [found.body[16:] for found in cut(out) if found.kind == PART]
        due = [COLUMNS + b"".join(ROWS[letter] for letter in letters) for _, *both in CHOSEN for letters in both]
        self.assertEqual(texts_found, due)


if __name__ == "__main__":
    unittest.main()
