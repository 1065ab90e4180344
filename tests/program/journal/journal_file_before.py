"""The file of a journal of version 3 (docs/FORMATS.md), read without the program: a header, and then records, each with a check
value that chains it to the one before."""

from typing import NamedTuple

from journal_file import CHECK, LONGEST, RANDOM, Record, checksum, md5, request_and_reply
from lib.frames import HEADER

LINES = b"droid_desk journal 3\n64 profiles, 100000 nodes, 64 unfinished files\n"
SEALED = 12


def header_size():
    return len(LINES) + 16 + RANDOM


def sealed(start, front):
    return front + md5(start + front)[: CHECK - SEALED]


def next_check(start, check, record):
    front = start + check + bytes([record.first]) + record.request[: HEADER.size]
    digest = md5(front + checksum(record.request) + record.reply)
    return sealed(start, digest[:SEALED])


def record_at(start, check, data, place):
    """Reads the record at a place, behind one with this check value: the record, its check value and the place behind it.
    None: no whole record with a right check value is there."""
    if data[place : place + 1] not in (b"\0", b"\1"):
        return None
    found = request_and_reply(data, place + 1)
    if not found:
        return None
    request, reply, at = found
    if at + CHECK - place > LONGEST:
        return None
    record = Record(data[place] == 1, request, reply)
    after = next_check(start, check, record)
    return (record, after, at + CHECK) if data[at : at + CHECK] == after else None


class Read(NamedTuple):
    records: list
    # where they end
    end: int
    # whether a record stands behind it that was written when all before it was on the disk
    damaged: bool
    # the check value of the last of them
    check: bytes


def has_later(start, data, place):
    """Whether such a record stands anywhere from a place on, behind whatever check value."""
    for at in range(place, len(data) - CHECK):
        check = data[at : at + CHECK]
        if check == sealed(start, check[:SEALED]):
            found = record_at(start, check, data, at + CHECK)
            if found and found[0].first:
                return True
    return False


def read(data):
    """Reads a whole journal."""
    start = check = md5(data[: header_size()])
    records, place = [], header_size()
    while found := record_at(start, check, data, place):
        record, check, place = found
        records.append(record)
    return Read(records, place, has_later(start, data, place), check)
