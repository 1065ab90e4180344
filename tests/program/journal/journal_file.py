"""The file of a journal of version 4 (docs/FORMATS.md), read and written without the program: a header with a check value, and
then records, each with a check value that binds its place and chains it to the one before. The first record of a turn begins
with a mark, and so does what is ahead of the next turn: only a mark behind the records shows damage."""

import hashlib
import struct
from typing import NamedTuple

from lib.frames import HEADER

LINE = b"droid_desk journal 4\n"
LIMITS = struct.pack(">III", 64, 100_000, 64)
ROOM = bytes(31)
RANDOM = CHECK = 16
MARK = 17
LONGEST = 8 << 20


def md5(data):
    return hashlib.md5(data, usedforsecurity=False).digest()


def header_size():
    return len(LINE) + len(LIMITS) + len(ROOM) + 16 + RANDOM + CHECK


def header_text(registry):
    """What each journal of this registry (its bytes) begins with. 16 random bytes and a check value follow."""
    return LINE + LIMITS + ROOM + md5(registry)


def header_of(registry, random):
    front = header_text(registry) + random
    return front + md5(front)


class Record(NamedTuple):
    # whether all before it was on the disk when it was written
    first: bool
    request: bytes
    reply: bytes


class Place(NamedTuple):
    """A place between two records."""

    at: int
    check: bytes
    records: int


def turn_mark(start, at):
    return b"\1" + md5(start + struct.pack(">Q", at))


def checksum(request):
    """That of its kind and its body."""
    return md5(request[1:2] + request[HEADER.size :])


def next_check(start, place, record):
    front = start + place.check + struct.pack(">QQ", place.at, place.records) + bytes([record.first]) + record.request[: HEADER.size]
    return md5(front + checksum(record.request) + record.reply)


def string(data):
    return struct.pack(">I", len(data)) + data


def record_bytes(start, place, record):
    front = turn_mark(start, place.at) if record.first else b"\0"
    return front + string(record.request) + string(record.reply) + next_check(start, place, record)


def first_place(header):
    return Place(len(header), md5(header), 0)


def behind(start, place, record):
    return Place(place.at + len(record_bytes(start, place, record)), next_check(start, place, record), place.records + 1)


def journal_bytes(header, records, ahead=True):
    """A journal of these records, with the beginning of the next turn or without it."""
    start, place, parts = md5(header), first_place(header), [header]
    for record in records:
        parts.append(record_bytes(start, place, record))
        place = behind(start, place, record)
    return b"".join(parts) + (turn_mark(start, place.at) if ahead else b"")


def request_and_reply(data, at):
    """Reads these two of a record: a request, a reply and the place behind them. None: they are not whole, or no request is that
    short."""
    parts = []
    for _ in range(2):
        if at + 4 > len(data):
            return None
        size = struct.unpack_from(">I", data, at)[0]
        at += 4
        if at + size > len(data):
            return None
        parts.append(data[at : at + size])
        at += size
    return (*parts, at) if len(parts[0]) >= HEADER.size else None


def record_at(start, place, data):
    """Reads the record at a place: the record and the place behind it. None: no right record is there."""
    at = place.at
    if data[at : at + 1] == b"\0":
        first, at = False, at + 1
    elif data[at : at + MARK] == turn_mark(start, at):
        first, at = True, at + MARK
    else:
        return None
    found = request_and_reply(data, at)
    if not found:
        return None
    request, reply, end = found
    if len(request) + len(reply) + 41 > LONGEST:
        return None
    record = Record(first, request, reply)
    after = behind(start, place, record)
    return (record, after) if data[end : end + CHECK] == after.check else None


class Read(NamedTuple):
    header: bytes
    records: list
    # the places before, between and behind them
    places: list
    # whether the beginning of the next turn stands behind them
    ahead: bool
    # whether a later turn begins behind them
    damaged: bool

    @property
    def end(self):
        """Where they end, with the beginning of the next turn, if it is there."""
        return self.places[-1].at + (MARK if self.ahead else 0)


def header_in(data):
    return data[: header_size()]


def read(data):
    """Reads a whole journal. None: it has no right header."""
    header = header_in(data)
    front, check = header[:-CHECK], header[-CHECK:]
    if not header.startswith(LINE) or len(header) < header_size() or md5(front) != check:
        return None
    start, places, records = md5(header), [first_place(header)], []
    while found := record_at(start, places[-1], data):
        record, place = found
        records.append(record)
        places.append(place)
    end = places[-1].at
    damaged = any(data[at : at + MARK] == turn_mark(start, at) for at in range(end + 1, len(data)) if data[at] == 1)
    ahead = data[end : end + MARK] == turn_mark(start, end)
    return Read(header, records, places, ahead, damaged)


def left_by_a_start(data):
    """What a start leaves of a journal without damage: its whole records, and the beginning of the next turn."""
    found = read(data)
    end = found.places[-1].at
    return data[:end] + turn_mark(md5(found.header), end)
