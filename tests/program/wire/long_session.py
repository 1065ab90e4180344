"""A session with every kind of request and of reply, small ones and the largest of a version. Each request has the
reply that docs/SERVICE.md and docs/FORMATS.md give it."""

import struct
from hashlib import md5

from lib.frames import ABANDON, ABANDONED, ADD_FILE, ADD_FOLDER, CREATE_PROFILE, EXPORT, FINISH, FINISHED
from lib.frames import LARGEST_PART, LIMITS
from lib.frames import MADE, MOST_PIECES, NODE, PART, PIECE, PROGRESS, REFUSED, STATUS, TAKEN
from lib.frames import export_body, file_body, folder_body, frame, in_version, node_body, numbers, piece_body
from lib.frames import profile_body
from lib.rows import COLUMNS, IN_ROW

REPLY_KINDS = {
    CREATE_PROFILE: MADE,
    ADD_FOLDER: NODE,
    ADD_FILE: NODE,
    PIECE: TAKEN,
    FINISH: FINISHED,
    ABANDON: ABANDONED,
}
MOST_PROFILES = 64

# lengths of parts: the powers of two below the largest, and those about a body of 4,096 bytes, up to which the program
# gathers a reply's frame, and about a frame of 8,192 or 65,536 bytes, as buffers usually have
PART_SIZES = [1 << power for power in range(1, 20)]
PART_SIZES += [size + more for size in (4_096 - 16, 8_192 - 34, 65_536 - 34) for more in (-1, 0, 1)]

# a registry with the most formats and the longest texts; a file that begins with `a` is of all formats
PUIDS = [b"dev/%028d" % number for number in range(1, 4_097)]
TEXT = b"t" * 255
REGISTRY = b"".join(b"F,%s,%s,%s,%s,\nS,%s,BOF,0,0,61\n" % (puid, TEXT, TEXT, TEXT, puid) for puid in PUIDS)

# the rows of the two files that the session finishes
OF_A = b'"2","","file:/a","/a","a","Signature","Done","1","File","","1970-01-01T00:00:00","false","%s","4096"' % (
    md5(b"a").hexdigest().encode("ascii")
)
ROWS_OF_A = b"".join(OF_A + b',"%s","%s","%s","%s"\n' % (puid, TEXT, TEXT, TEXT) for puid in PUIDS)
ROW_OF_B = b'"3","","file:/b","/b","b","","Done","%d","File","","1970-01-01T00:00:00","false","%s","0","","","",""\n'


def largest_filter(last, largest_body):
    """Returns a filter with the most criteria and PUIDs, in the longest body. Any criterion has to be met, and
    only the last PUID of the last one is that of a format."""
    lengths = [15] * (255 * 255 - 1) + [len(last)]
    left = largest_body - len(export_body(0, 1, b"\0\xff")) - 2 * 255 - sum(lengths) - len(lengths)
    for at in range(len(lengths) - 1):
        more = min(left, 255 - lengths[at])
        lengths[at] += more
        left -= more
    texts = [bytes([length]) + b"-" * length for length in lengths[:-1]] + [bytes([len(last)]) + last]
    lists = [b"\2\xff" + b"".join(texts[at : at + 255]) for at in range(0, len(texts), 255)]
    return b"\0\xff" + b"".join(lists)


class Session:
    """The steps so far in a version, and how many commands were accepted; the content of the second file, and the
    export."""

    def __init__(self, version):
        self.version = version
        self.steps = []
        self.accepted = 0
        self.content = b"b" * (LIMITS[version].piece + 1)
        self.digest = md5(self.content)
        row = ROW_OF_B % (len(self.content), self.digest.hexdigest().encode("ascii"))
        self.text = COLUMNS + IN_ROW + ROWS_OF_A + row

    def step(self, kind, body, reply_kind, reply_body, number=None):
        number = number or len(self.steps) + 1
        request, reply = frame(kind, 1, number, body), frame(reply_kind, 1, number, reply_body)
        self.steps.append((in_version(self.version, request), in_version(self.version, reply)))

    def command(self, kind, body, reply_body):
        self.step(kind, body, REPLY_KINDS[kind], reply_body)
        self.accepted += 1

    def status(self, node, held, missing):
        self.step(STATUS, node_body(node), PROGRESS, numbers(held, missing))

    def part(self, text, start, most, *filter_bytes):
        body = struct.pack(">QQ", self.accepted, len(text)) + text[start : start + most]
        self.step(EXPORT, export_body(start, most, *filter_bytes), PART, body)

    def refused(self, cause, kind, body, fields=b""):
        self.step(kind, body, REFUSED, bytes([cause]) + fields)


def add_files(session):
    """Adds a folder and three files, with some refusals."""
    largest, content = LIMITS[session.version].piece, session.content
    session.command(CREATE_PROFILE, profile_body(), numbers(1))
    session.command(ADD_FOLDER, folder_body(b"in", 0), numbers(1))
    session.command(ADD_FILE, file_body(b"a", 1, 1), numbers(2))
    session.status(2, 0, 0)
    session.refused(16, FINISH, node_body(2), numbers(0))
    session.command(PIECE, piece_body(2, 0, b"a"), numbers(1))
    session.refused(14, PIECE, piece_body(2, 0, b"a"))
    all_formats = struct.pack(">H", len(PUIDS)) + b"".join(b"\x20" + puid for puid in PUIDS)
    session.command(FINISH, node_body(2), b"\1\0" + md5(b"a").digest() + all_formats)
    session.refused(12, FINISH, node_body(2))
    session.status(2, 1, 1)
    session.command(ADD_FILE, file_body(b"b", len(content), largest), numbers(3))
    session.command(PIECE, piece_body(3, 0, content[:largest]), numbers(1))
    session.status(3, 1, 1)
    session.command(PIECE, piece_body(3, 1, content[largest:]), numbers(2))
    session.command(FINISH, node_body(3), b"\0\0" + session.digest.digest() + b"\0\0")
    session.command(ADD_FILE, file_body(b"c", 17, 1), numbers(4))
    session.refused(15, PIECE, piece_body(4, 16, b"c"), numbers(0))
    session.refused(13, PIECE, piece_body(4, 17, b"c"))
    session.command(ABANDON, node_body(4), b"")
    session.refused(4, STATUS, node_body(4))


def add_exports(session):
    """Asks for the whole text in parts, for parts of other sizes, and for the text by the largest filter."""
    text = session.text
    for start in (*range(0, len(text), LARGEST_PART), len(text)):
        session.part(text, start, LARGEST_PART)
    session.part(text, len(COLUMNS), 1)
    for size in PART_SIZES:
        session.part(text, len(COLUMNS), size)
    shown = largest_filter(PUIDS[-1], LIMITS[session.version].body)
    session.part(COLUMNS + ROWS_OF_A, len(COLUMNS), LARGEST_PART, shown)
    session.part(COLUMNS + ROWS_OF_A, 0, 1, shown)


def add_refusals(session):
    """Adds the remaining refusals, with the names and the profiles that lead to them."""
    session.refused(1, 9, b"")
    session.refused(3, STATUS, node_body(1, profile=9))
    session.refused(5, ADD_FOLDER, folder_body(b"d", 2))
    session.refused(6, FINISH, node_body(1))
    session.refused(7, ADD_FOLDER, folder_body(b"..", 0))
    session.refused(9, ADD_FOLDER, folder_body(b"in", 0))
    session.refused(10, EXPORT, export_body(0, 0))
    session.refused(11, ADD_FILE, file_body(b"d", MOST_PIECES + 1, 1))
    for depth in range(16):
        session.command(ADD_FOLDER, folder_body(b"n" * 255, 0 if depth == 0 else 4 + depth), numbers(5 + depth))
    session.refused(8, ADD_FOLDER, folder_body(b"d", 20))
    for profile in range(2, MOST_PROFILES + 1):
        session.command(CREATE_PROFILE, profile_body(), numbers(profile))
    session.refused(17, CREATE_PROFILE, profile_body(), b"\1")
    session.step(ADD_FOLDER, folder_body(b"in", 0), REFUSED, b"\2", number=1)


def steps(version):
    session = Session(version)
    add_files(session)
    add_exports(session)
    add_refusals(session)
    return session.steps
