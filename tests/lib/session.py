"""A session with a request of each kind and its replies, as rows of a request and its reply (docs/SERVICE.md)."""

import hashlib

from lib.frames import ABANDONED, FINISH, FINISHED, MADE, NODE, PROGRESS, TAKEN
from lib.frames import abandon, create, export, file, finish, folder, frame, in_version, part, piece, refusal, reply
from lib.frames import status
from lib.rows import COLUMNS, IN_ROW, LETTERS_ROW, folder_row

LETTERS = b"abcdefghijklmnopqrstuvwxyz"
FOUND = b"\1\0" + hashlib.md5(LETTERS).digest() + b"\0\1\5dev/2"


def deposit_frames(client=1, profile=1):
    """Returns the requests that make a profile, and in it a folder with the 26 letters as a file of two pieces,
    the second one first."""
    place = {"profile": profile, "client": client}
    return [
        create(1, client=client),
        folder(2, b"in", **place),
        file(3, b"a.abc", 26, 16, parent=1, **place),
        piece(4, 2, 1, LETTERS[16:], **place),
        piece(5, 2, 0, LETTERS[:16], **place),
        finish(6, 2, **place),
    ]


MADE_BY_DEPOSIT = [
    reply(MADE, 1, 1),
    reply(NODE, 2, 1),
    reply(NODE, 3, 2),
    reply(TAKEN, 4, 1),
    reply(TAKEN, 5, 2),
    frame(FINISHED, 1, 6, FOUND),
]

# commands, whose replies the service keeps
KEPT = [*zip(deposit_frames(), MADE_BY_DEPOSIT)] + [
    (file(7, b"b", 9, 3), reply(NODE, 7, 3)),
    (piece(8, 3, 2, b"ghi"), reply(TAKEN, 8, 1)),
    (abandon(9, 3), reply(ABANDONED, 9)),
    (file(10, b"b", 9, 3), reply(NODE, 10, 4)),
    (piece(11, 4, 1, b"def"), reply(TAKEN, 11, 1)),
]
TEXT = COLUMNS + IN_ROW + LETTERS_ROW

# queries and refused commands after these, whose replies the service doesn't keep
NOT_KEPT = [
    (status(12, 4), reply(PROGRESS, 12, 1, 0)),
    (status(12, 2), reply(PROGRESS, 12, 2, 2)),
    (export(12), part(12, 11, TEXT)),
    (folder(12, b"in"), refusal(12, 9)),
    (piece(12, 4, 1, b"def"), refusal(12, 14)),
    (finish(12, 4), refusal(12, 16, 0)),
    (folder(2, b"out"), refusal(2, 2)),
    (frame(FINISH, 1, 12, b"short"), refusal(12, 1)),
]

# After all this each statement was used, for a new request and for a repeat, and the database's lists, which begin with
# 4 places and double, have room: 18 replies, 5 profiles and 6 nodes. The next node is number 8.
MORE = [(create(20 + place), reply(MADE, 20 + place, 2 + place)) for place in range(4)]
MORE += [(folder(30 + place, b"%d" % place), reply(NODE, 30 + place, 5 + place)) for place in range(3)]
ALL = KEPT + KEPT + NOT_KEPT + MORE
ALL_TEXT = TEXT + b"".join(folder_row(5 + place, b"%d" % place) for place in range(3))


def rows_in_version(version, rows):
    """Translates rows of version 1 to a version; what else a row has stays."""
    return [(in_version(version, request), in_version(version, answer), *rest) for request, answer, *rest in rows]


def requests_of(rows):
    return b"".join(request for request, _ in rows)


def replies_of(rows):
    return b"".join(answer for _, answer in rows)
