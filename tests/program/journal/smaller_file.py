"""A journal that was made smaller (docs/FORMATS.md), written without the program: a command that came again is left out, and
the pieces and the Finish of a file that was finished or abandoned have no bytes of that file. No record begins a turn: the mark at
the end says of all of them that they are on the disk."""

import struct

from journal_file import Record, journal_bytes, md5
from lib import frames
from lib.frames import ABANDON, FINISH, HEADER, PIECE

BARE = 64


def file_of(request):
    return request[HEADER.size : HEADER.size + 8]


def ended_files(records):
    """The profile and the file, as bytes, of each Finish and Abandon."""
    return {file_of(it.request) for it in records if it.request[1] in (FINISH, ABANDON)}


def smaller_request(request, reply, ended):
    version, kind, client, number, _ = HEADER.unpack_from(request)
    body = request[HEADER.size :]
    if kind not in (PIECE, FINISH) or file_of(request) not in ended:
        return request
    front = md5(bytes([kind]) + body) if kind == PIECE else body
    bare = front + reply[HEADER.size :]
    return HEADER.pack(version, kind + BARE, client, number, len(bare)) + bare


def first_records(records):
    """The first record of each client and number."""
    first = {}
    for it in records:
        _, _, client, number, _ = HEADER.unpack_from(it.request)
        first.setdefault((client, number), it)
    return list(first.values())


def shortened(records):
    kept = first_records(records)
    ended = ended_files(kept)
    return [Record(False, smaller_request(it.request, it.reply, ended), it.reply) for it in kept]


def smaller(header, records):
    return journal_bytes(header, shortened(records))


def sample():
    """Records of three files of which one is finished and one abandoned; a piece came again. The last record has the number
    of a piece of the third file, and abandons that file: it is no first record, so the file goes on."""

    def finished(number, puid):
        body = struct.pack(">BBB", 1, 0, frames.MD5) + md5(b"abcdef") + struct.pack(">H", 1) + bytes([len(puid)]) + puid
        return frames.frame(frames.FINISHED, 1, number, body, 2)

    def taken(number):
        return frames.reply(frames.TAKEN, number, 1, version=2)

    def pair(request, reply, first):
        return Record(first, request, reply)

    first_piece = pair(frames.piece(5, 1, 0, b"abcdef", version=2), taken(5), True)
    return [
        pair(frames.create(1, version=2), frames.reply(frames.MADE, 1, 1, version=2), True),
        pair(frames.file(2, b"a.txt", 6, 65_536, version=2), frames.reply(frames.NODE, 2, 1, version=2), True),
        pair(frames.file(3, b"b.txt", 6, 65_536, version=2), frames.reply(frames.NODE, 3, 2, version=2), False),
        pair(frames.file(4, b"c.txt", 6, 65_536, version=2), frames.reply(frames.NODE, 4, 3, version=2), False),
        first_piece,
        pair(frames.piece(6, 2, 0, b"ghijkl", version=2), taken(6), False),
        pair(frames.piece(7, 3, 0, b"mnopqr", version=2), taken(7), True),
        first_piece._replace(first=False),
        pair(frames.folder(5, b"sub", client=2, version=2), frames.reply(frames.NODE, 5, 4, client=2, version=2), True),
        pair(frames.finish(8, 1, version=2), finished(8, b"fmt/1"), True),
        pair(frames.abandon(9, 2, version=2), frames.reply(frames.ABANDONED, 9, version=2), True),
        pair(frames.abandon(7, 3, version=2), frames.reply(frames.ABANDONED, 7, version=2), True),
    ]


def session():
    """Records of a file that is finished, one that goes on, and one that is abandoned, by the sample registry."""

    def record(request, kind, *values):
        number = HEADER.unpack_from(request)[3]
        return Record(True, request, frames.reply(kind, number, *values))

    found = bytes([1, 0]) + md5(b"message digest") + struct.pack(">H", 2) + b"\5dev/1\5dev/3"
    return [
        record(frames.create(1), frames.MADE, 1),
        record(frames.file(2, b"m.msg", 14, 4), frames.NODE, 1),
        record(frames.piece(3, 1, 3, b"st"), frames.TAKEN, 1),
        record(frames.piece(4, 1, 1, b"age "), frames.TAKEN, 2),
        record(frames.file(5, b"t.txt", 8, 4), frames.NODE, 2),
        record(frames.piece(6, 2, 1, b"wxyz"), frames.TAKEN, 1),
        record(frames.piece(7, 1, 0, b"mess"), frames.TAKEN, 3),
        record(frames.piece(8, 1, 2, b"dige"), frames.TAKEN, 4),
        Record(True, frames.finish(9, 1), frames.frame(frames.FINISHED, 1, 9, found)),
        record(frames.file(10, b"a", 4, 4), frames.NODE, 3),
        record(frames.piece(11, 3, 0, b"aaaa"), frames.TAKEN, 1),
        record(frames.abandon(12, 3), frames.ABANDONED),
    ]


if __name__ == "__main__":
    records = sample()
    print(journal_bytes(b"0123456789", records).hex())
    print(smaller(b"0123456789", records).hex())
    for it in shortened(session()):
        print(it.request.hex())
