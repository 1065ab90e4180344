"""Frames as bytes (docs/FORMATS.md): the header, the kinds, the bodies of requests, and whole requests and replies.

A function that ends in `_body` makes the body of a request; the function without that ending makes the whole frame."""

import struct
from typing import NamedTuple

# version, kind, client, number, length of the body
HEADER = struct.Struct(">BBIQI")

CREATE_PROFILE, ADD_FOLDER, ADD_FILE, PIECE, FINISH, ABANDON, STATUS, EXPORT = range(1, 9)
MADE, NODE, TAKEN, FINISHED, ABANDONED, PROGRESS, PART, REFUSED = range(129, 137)

# the numbers of hashes in frames
NO_HASH, MD5, SHA256 = range(3)

# the refusals (docs/SERVICE.md), numbered from 1; behind LimitReached stands the number of a limit
REFUSALS = (
    "Malformed NumberReused NoSuchProfile NoSuchNode NotAFolder NotAFile BadName PathTooLong NameTaken BadOption TooLarge "
    "AlreadyFinished BadPiece PieceHeld TooFarAhead Incomplete LimitReached Memory Store"
).split()
CAUSES = {name: number for number, name in enumerate(REFUSALS, 1)}
PROFILES, NODES, UNFINISHED = range(1, 4)

SCAN_LIMIT = 65_536
LARGEST_PART = MOST_PIECES = 1 << 20
LARGEST_FILE = 1 << 40
MOST_NODES = 100_000
MOST_UNFINISHED = 64
ALL_RECORDS = b"\1\0"


class Limits(NamedTuple):
    """The greatest length of a frame's body in a version, and of a piece of a file."""

    body: int
    piece: int


LIMITS = {1: Limits(1_048_640, 1_048_576), 2: Limits(4_194_368, 4_194_304)}


def frame(kind, client, number, body=b"", version=1):
    """Returns the bytes of a frame."""
    return HEADER.pack(version, kind, client, number, len(body)) + body


def numbers(*values):
    """Returns these numbers of four bytes."""
    return struct.pack(f">{len(values)}I", *values)


def profile_body(limit=SCAN_LIMIT, version=1, hash=MD5, match_all=0):
    """Version 1 has no field for the hash: its profiles have MD5."""
    named = bytes([hash]) if version == 2 else b""
    return struct.pack(">IB", limit, match_all) + named


def folder_body(name, parent=0, profile=1, modified=0):
    return struct.pack(">IIq", profile, parent, modified) + name


def file_body(name, size, piece_size, parent=0, profile=1, modified=0):
    return struct.pack(">IIqQI", profile, parent, modified, size, piece_size) + name


def piece_body(node, index, content, profile=1):
    return numbers(profile, node, index) + content


def node_body(node, profile=1):
    """The body of Finish, Abandon and Status."""
    return numbers(profile, node)


def export_body(start=0, most=LARGEST_PART, criteria=ALL_RECORDS, profile=1):
    return struct.pack(">IQI", profile, start, most) + criteria


def create(number, client=1, version=1, **profile):
    return frame(CREATE_PROFILE, client, number, profile_body(version=version, **profile), version)


def folder(number, name, client=1, version=1, **place):
    return frame(ADD_FOLDER, client, number, folder_body(name, **place), version)


def file(number, name, size, piece_size, client=1, version=1, **place):
    return frame(ADD_FILE, client, number, file_body(name, size, piece_size, **place), version)


def piece(number, node, index, content, profile=1, client=1, version=1):
    return frame(PIECE, client, number, piece_body(node, index, content, profile), version)


def finish(number, node, profile=1, client=1, version=1):
    return frame(FINISH, client, number, node_body(node, profile), version)


def abandon(number, node, profile=1, client=1, version=1):
    return frame(ABANDON, client, number, node_body(node, profile), version)


def status(number, node, profile=1, client=1, version=1):
    return frame(STATUS, client, number, node_body(node, profile), version)


def export(number, client=1, version=1, **part):
    return frame(EXPORT, client, number, export_body(**part), version)


def reply(kind, number, *values, client=1, version=1):
    """Returns a reply whose body is numbers of four bytes."""
    return frame(kind, client, number, numbers(*values), version)


def refusal(number, cause, *missing, client=1, version=1):
    return frame(REFUSED, client, number, bytes([cause]) + numbers(*missing), version)


def part(number, accepted, text, client=1, version=1):
    """Returns the reply that has a whole export."""
    return frame(PART, client, number, struct.pack(">QQ", accepted, len(text)) + text, version)


class Frame(NamedTuple):
    version: int
    kind: int
    client: int
    number: int
    body: bytes


def cut(stream):
    """Cuts whole frames out of bytes, one after the other."""
    start = 0
    while start < len(stream):
        version, kind, client, number, length = HEADER.unpack_from(stream, start)
        start += HEADER.size
        yield Frame(version, kind, client, number, stream[start : start + length])
        start += length


def in_version(version, stream):
    """Translates frames of version 1 to a version. In version 2 two bodies name the hash; version 1 implies MD5."""
    if version == 1:
        return stream
    frames = []
    for _, kind, client, number, body in cut(stream):
        length = len(body)
        place = {CREATE_PROFILE: length, FINISHED: 2}.get(kind)
        named = body if place is None else body[:place] + bytes([MD5]) + body[place:]
        frames.append(frame(kind, client, number, named, version))
    return b"".join(frames)


def lines_in_version(version, lines):
    """Translates lines of `send` in the same way."""
    if version == 1:
        return lines
    return b"".join(
        b"v2 " + (line[:-1] + b" md5\n" if line.startswith(b"create ") else line) for line in lines.splitlines(keepends=True)
    )
