"""What the service has after commands of tables, and after random ones. Beside it stand plain lists of what each command
makes, and all that both show is compared, through `run`: the reply to each command that comes again, each profile and each
node by its number, each name in its folder, and the exports."""

import random
import unittest
from struct import pack

from export import export_text
from found import find
from lib.connections import read_exactly
from lib.frames import ABANDON, ABANDONED, ADD_FILE, ADD_FOLDER, CAUSES, CREATE_PROFILE, EXPORT, FINISH, LARGEST_PART, MADE
from lib.frames import MOST_UNFINISHED, NODE, PART, PIECE, PROGRESS, REFUSED, STATUS, TAKEN, UNFINISHED
from lib.frames import cut, export_body, file_body, folder_body, frame, node_body, numbers, piece_body, profile_body
from lib.program import Run
from lines import HASH_NUMBERS
from model_frames import reply_of, service_of_the_sample
from service import DIGESTS, Node

REGISTRY = service_of_the_sample().registry
# the client of the requests that look; none of them is kept under its number
LOOKING = 4_000_000_000
# a moment past the last: a name that is there is refused before that is
NEVER = 2**63 - 1
# this many requests are sent before their replies are read
BATCH = 500

# Commands: the client, the number and the version; what it does; a new profile's scan limit, whether extensions also match,
# and its hash; a new node's profile, parent, moment and name, and of a file the content and the size of pieces; or which of
# the nodes is meant, counted from 1 in the order in which they came, and what is found in it.
ONE_PROFILE = [
    ((1, 1, 1), "make", 65_536, 0, "md5"),
    ((1, 2, 2), "add", 1, 0, 0, b"in"),
    ((1, 3, 1), "add", 1, 1, -1, b"m.txt", b"message digest", 20),
    ((1, 4, 2), "send", 2),
    # the digest is that of RFC 1321, its test suite
    ((1, 5, 2), "finish", 2, b"finished Signature true f96b697d7cb7938d525a2f31aaf161d0 dev/1,dev/3\n"),
    ((1, 6, 1), "add", 1, 0, 86_399, b"other", b"four", 3),
    ((1, 7, 2), "abandon", 3),
]
# before the first command, and after each: how many profiles and unfinished files there are, and how many nodes each profile
# has accepted
TOTALS_OF_ONE = [(0, 0), (1, 0, 0), (1, 0, 1), (1, 1, 2), (1, 1, 2), (1, 0, 2), (1, 1, 3), (1, 0, 3)]

# The client says which profile a command is for, so clients share their numbers. Of profile 1 the nodes 1 and 4 are
# abandoned, and still count; their name is used again.
THREE_PROFILES = [
    ((1, 1, 2), "make", 1, 0, "sha256"),
    ((2, 1, 2), "make", 65_536, 1, "md5"),
    ((2, 2, 1), "add", 2, 0, 21, b"a", b"c" * 21, 21),
    ((1, 2, 1), "add", 1, 0, 11, b"a", b"d" * 11, 1),
    ((1, 3, 2), "add", 1, 0, 12, b"f"),
    ((1, 4, 1), "add", 1, 2, 13, b"b", b"", 3),
    ((2, 3, 2), "send", 1),
    ((2, 4, 1), "finish", 1),
    ((1, 5, 2), "abandon", 2),
    ((1, 6, 1), "add", 1, 0, 14, b"a", b"e" * 14, 4),
    ((1, 7, 2), "finish", 4),
    ((3, 1, 2), "make", 512, 1, "none"),
    ((1, 8, 1), "abandon", 5),
    ((1, 9, 2), "add", 1, 0, 15, b"a"),
    ((2, 5, 1), "add", 2, 0, 22, b"b", b"f" * 22, 5),
]
TOTALS_OF_THREE = [
    (0, 0),
    (1, 0, 0),
    (2, 0, 0, 0),
    (2, 1, 0, 1),
    (2, 2, 1, 1),
    (2, 2, 2, 1),
    (2, 3, 3, 1),
    (2, 3, 3, 1),
    (2, 2, 3, 1),
    (2, 1, 3, 1),
    (2, 2, 4, 1),
    (2, 1, 4, 1),
    (3, 1, 4, 1, 0),
    (3, 0, 4, 1, 0),
    (3, 0, 5, 1, 0),
    (3, 1, 5, 2, 0),
]

# names that lie in one folder side by side
NAMES = (
    *("in", "In", "IN", "in ", " in", "in  ", "in.", "io", "im", "i", "inn", " ", "  ", "\t", "\n", "\x01", "in\x01", "\x7f"),
    *("'", "''", '"in"', "%", "%%", "i%", "_", "*", "?1", "\\", "x'00'", "NULL", "1", "01", "1.0", "1e0"),
    *("\u00e9", "e\u0301", "\u00c9", "\U00010000", "\U0010ffff"),
    *("a" * 255, "a" * 254 + "A", "a" * 254 + " ", "a" * 254, "\U0001f4c1" * 63 + "abc"),
)
# names that are not there, and those of them that can't be
ABSENT = ("iN", "in   ", "in\t", "\x02", "%n", "i_", "in'", "1.", "E\u0301", "\U00010001", "a" * 253, "a" * 254 + "b")
IMPOSSIBLE = ("", "in\0", "\0", "a" * 256)

# one name in several folders and profiles: profile, number, parent
SAME_NAME = [(1, 1, 0), (1, 2, 1), (2, 1, 0), (1, 3, 2), (2, 2, 1), (3, 1, 0), (1, 4, 3)]
# folders in which nothing lies under it, and why a node in them is refused whose moment is out of range
EMPTY_FOLDERS = [
    (1, 4, "BadOption"),
    (2, 2, "BadOption"),
    (3, 1, "BadOption"),
    (4, 0, "NoSuchProfile"),
    (0, 0, "NoSuchProfile"),
    (1, 4_294_967_295, "NoSuchNode"),
    (4_294_967_295, 0, "NoSuchProfile"),
]

# random commands: how many, after how many all is compared, and how many clients send them in turn
COMMANDS, COMPARED_EACH, CLIENTS = 10_000, 1_000, 50
PROFILES = [(1_000, 1, "md5"), (2_000, 0, "sha256"), (3_000, 1, "none"), (4_000, 0, "md5")]
CONTENTS = (b"", b"message digest", b"abcdefghijklmnopqrstuvwxyz", b"a body of more than twenty bytes", b"abcd")
ENDINGS = (b"", b".txt", b".msg", b".abc")


def refused(name, *fields):
    return REFUSED, bytes([CAUSES[name], *fields])


def asked(kind, body, due):
    """Returns a request that looks, and its reply."""
    return frame(kind, LOOKING, 0, body, 2), frame(due[0], LOOKING, 0, due[1], 2)


def name_asked(profile, parent, name, due):
    return asked(ADD_FOLDER, folder_body(name, parent, profile, NEVER), refused(due))


class Lists:
    """What was made: the profiles as their options, all nodes that ever were, the folders of each profile by number, the
    unfinished files, the names that are taken, and each command with its reply."""

    def __init__(self):
        self.profiles, self.counts, self.folders = [], [], []
        self.nodes, self.open, self.names = [], [], set()
        self.commands = []

    def totals(self):
        return len(self.profiles), len(self.open), *self.counts

    def command(self, ends, kind, body, due, reply):
        client, number, version = ends
        self.commands.append((frame(kind, client, number, body, version), frame(due, client, number, reply, version)))

    def make(self, ends, limit, match_all, hash):
        self.profiles.append((limit, match_all, hash))
        self.counts.append(0)
        self.folders.append({0: b""})
        body = profile_body(limit, ends[2], HASH_NUMBERS[hash], match_all)
        self.command(ends, CREATE_PROFILE, body, MADE, numbers(len(self.profiles)))

    def add(self, ends, profile, parent, modified, name, content=None, piece_size=0):
        kind, size = ("folder", 0) if content is None else ("file", len(content))
        self.counts[profile - 1] += 1
        number, path = self.counts[profile - 1], self.folders[profile - 1][parent] + b"/" + name
        asked = {"kind": kind, "parent": parent, "modified": modified, "name": name, "size": size, "piece_size": piece_size}
        node = Node(number, asked, path)
        node.profile, node.bytes, node.sent, node.is_there, node.row = profile, content, 0, True, b""
        self.nodes.append(node)
        self.names.add((profile, parent, name))
        place = {"parent": parent, "profile": profile, "modified": modified}
        if node.is_file:
            self.open.append(node)
            self.command(ends, ADD_FILE, file_body(name, size, piece_size, **place), NODE, numbers(number))
        else:
            self.folders[profile - 1][number] = path
            node.row = self.rows_of(node)
            self.command(ends, ADD_FOLDER, folder_body(name, **place), NODE, numbers(number))

    def rows_of(self, *nodes, profile=None):
        """Returns what the export has of these nodes, without its first line, or that line alone."""
        hash = self.profiles[(profile or nodes[0].profile) - 1][2]
        head = export_text([], True, [], hash)
        return export_text(nodes, True, [], hash)[len(head) :] if nodes else head

    def node_of(self, place):
        return place if isinstance(place, Node) else self.nodes[place - 1]

    def send(self, ends, place):
        """Sends the next piece of a file."""
        node = self.node_of(place)
        start = node.sent * node.piece_size
        body = piece_body(node.number, node.sent, node.bytes[start : start + node.piece_size], node.profile)
        node.sent += 1
        self.command(ends, PIECE, body, TAKEN, numbers(node.sent))

    def finish(self, ends, place, due=None):
        node = self.node_of(place)
        limit, match_all, hash = self.profiles[node.profile - 1]
        node.method, node.formats, node.mismatch = find(REGISTRY, node.name, node.bytes, limit, match_all)
        node.digest, node.is_done = DIGESTS[hash](node.bytes), True
        node.row = self.rows_of(node)
        self.open.remove(node)
        puids = b",".join(form.puid for form in node.formats) or b"-"
        words = node.method or "none", str(node.mismatch).lower(), node.digest or "-"
        printed = b"finished %s %s\n" % (" ".join(words).encode("ascii"), puids)
        assert due in (None, printed), printed
        self.command(ends, FINISH, node_body(node.number, node.profile), *reply_of(printed, ends[2]))

    def abandon(self, ends, place):
        node = self.node_of(place)
        node.is_there = False
        self.open.remove(node)
        self.names.remove((node.profile, node.parent, node.name))
        self.command(ends, ABANDON, node_body(node.number, node.profile), ABANDONED, b"")

    def shown(self):
        """Yields requests that look at everything, each with its reply."""
        yield from self.commands
        yield asked(STATUS, node_body(1, 0), refused("NoSuchProfile"))
        yield asked(STATUS, node_body(1, len(self.profiles) + 1), refused("NoSuchProfile"))
        for node in self.nodes:
            yield asked(STATUS, node_body(node.number, node.profile), self.status(node))
            is_taken = (node.profile, node.parent, node.name) in self.names
            yield name_asked(node.profile, node.parent, node.name, "NameTaken" if is_taken else "BadOption")
        for profile, count in enumerate(self.counts, 1):
            yield asked(STATUS, node_body(0, profile), refused("NoSuchNode"))
            yield asked(STATUS, node_body(count + 1, profile), refused("NoSuchNode"))
            yield from self.exported(profile)

    @staticmethod
    def status(node):
        if not node.is_there:
            return refused("NoSuchNode")
        return (PROGRESS, numbers(node.sent, node.sent)) if node.is_file else refused("NotAFile")

    def exported(self, profile):
        text = self.rows_of(profile=profile) + b"".join(node.row for node in self.nodes if node.profile == profile)
        for start in range(0, len(text), LARGEST_PART):
            body = pack(">QQ", len(self.commands), len(text)) + text[start : start + LARGEST_PART]
            yield asked(EXPORT, export_body(start, profile=profile), (PART, body))


class Compared(unittest.TestCase):
    def setUp(self):
        run = Run()
        self.addCleanup(run.__exit__)
        self.stream, self.lists = run.near, Lists()

    def replies(self, pairs):
        """Sends requests, each of which has to have its reply."""
        pairs = list(pairs)
        for start in range(0, len(pairs), BATCH):
            part = pairs[start : start + BATCH]
            due = b"".join(reply for _, reply in part)
            self.stream.sendall(b"".join(request for request, _ in part))
            found = read_exactly(self.stream, len(due))
            if found != due:
                wrong = next(pair for pair, reply in zip(part, cut(found)) if pair[1] != frame(*reply[1:], reply[0]))
                self.fail(wrong)

    def compare(self):
        self.replies(self.lists.shown())

    def give(self, commands, totals):
        """Gives the service each command, and compares all before the first and after each."""
        for command, after in zip([None, *commands], totals, strict=True):
            if command:
                ends, what, *fields = command
                getattr(self.lists, what)(ends, *fields)
                self.replies(self.lists.commands[-1:])
            self.assertEqual(self.lists.totals(), after)
            self.compare()


class Tables(Compared):
    def test_one_profile(self):
        self.give(ONE_PROFILE, TOTALS_OF_ONE)

    def test_three_profiles_side_by_side(self):
        self.give(THREE_PROFILES, TOTALS_OF_THREE)

    def made(self, count):
        for profile in range(1, count + 1):
            self.lists.make((2, profile, 1), 1, 1, "md5")

    def test_names_byte_for_byte(self):
        self.made(2)
        names = [name.encode() for name in NAMES]
        self.assertEqual(len(set(names)), 44)
        for number, name in enumerate(names, 1):
            self.lists.add((1, number, 1), 1, 0, 0, name)
        self.replies(self.lists.commands)
        self.compare()
        # each lies in no other folder
        self.replies(name_asked(1, number, name, "BadOption") for number, name in enumerate(names, 1))
        self.replies(name_asked(2, 0, name, "BadOption") for name in names)
        self.replies(name_asked(1, 0, name.encode(), "BadOption") for name in ABSENT)
        self.replies(name_asked(1, 0, name.encode(), "BadName") for name in IMPOSSIBLE)

    def test_one_name_in_many_folders(self):
        self.made(3)
        for number, (profile, _, parent) in enumerate(SAME_NAME, 1):
            self.lists.add((1, number, 1), profile, parent, 0, b"in")
        self.assertEqual([(node.profile, node.number, node.parent) for node in self.lists.nodes], SAME_NAME)
        self.replies(self.lists.commands)
        self.compare()
        self.replies(name_asked(profile, parent, b"in", due) for profile, parent, due in EMPTY_FOLDERS)

    def test_longest_path(self):
        """Sixteen folders, each in the one before: the last one's path has 4,096 bytes."""
        self.made(1)
        for parent in range(16):
            self.lists.add((1, parent + 1, 1), 1, parent, 0, b"n" * 255)
        self.assertEqual(len(self.lists.nodes[-1].path), 4_096)
        self.replies(self.lists.commands)
        self.compare()


class ByChance(Compared):
    def setUp(self):
        super().setUp()
        self.random = random.Random(20_251_125)
        self.given, self.refused = [], 0
        # the folders of each profile, and its top
        self.parents = [[0] for _ in range(1 + len(PROFILES))]

    def ends(self, needs_second=False):
        """Returns the next client and number. Each third command is of version 2."""
        number = len(self.lists.commands)
        return number % CLIENTS, number, 2 if needs_second or number % 3 == 0 else 1

    def add(self, is_file):
        profile = 1 + self.random.randrange(len(PROFILES))
        number = self.lists.counts[profile - 1] + 1
        parent = self.random.choice(self.parents[profile])
        # in no order, and never twice
        mixed = (profile << 32 | number) * 0x9E37_79B9_7F4A_7C15 % 2**64
        place = profile, parent, mixed % 250_000_000_000 - 62_000_000_000
        if not is_file:
            self.lists.add(self.ends(), *place, b"%016x" % mixed)
            self.parents[profile].append(number)
        elif len(self.lists.open) < MOST_UNFINISHED:
            name = b"%016x" % mixed + ENDINGS[number % len(ENDINGS)]
            self.lists.add(self.ends(), *place, name, CONTENTS[number % len(CONTENTS)], 16)
        else:
            # as many are unfinished as may be
            self.refused += 1
            body = file_body(b"no place", 0, 1, profile=profile)
            self.given.append(asked(ADD_FILE, body, refused("LimitReached", UNFINISHED)))

    def finish(self, node):
        while node.sent < node.count():
            self.lists.send(self.ends(), node)
        self.lists.finish(self.ends(self.lists.profiles[node.profile - 1][2] != "md5"), node)

    def next(self):
        """Of ten commands three add a folder, three a file, one finishes a file, two abandon one, and one sends a piece."""
        kind = self.random.randrange(10)
        if kind < 6 or not self.lists.open:
            return self.add(kind in (3, 4, 5))
        node = self.random.choice(self.lists.open)
        if kind == 6:
            self.finish(node)
        elif kind < 9:
            self.lists.abandon(self.ends(), node)
        elif node.sent < node.count():
            self.lists.send(self.ends(), node)

    def test_random_commands(self):
        for options in PROFILES:
            self.lists.make(self.ends(True), *options)
        self.given += self.lists.commands
        for most in range(COMPARED_EACH, COMMANDS + 1, COMPARED_EACH):
            while (before := len(self.lists.commands)) < most:
                self.next()
                self.given += self.lists.commands[before:]
            self.replies(self.given)
            self.given = []
            self.compare()
        self.assertGreater(self.refused, 0)


if __name__ == "__main__":
    unittest.main()
