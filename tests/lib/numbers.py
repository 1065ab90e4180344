"""The numbers of a submission's requests, by their definition (crates/droid_remote/specs/Numbers.antt). A name and
a body are bytes; `attempt` counts how often a file was added before and found abandoned."""
import struct
from hashlib import sha256

from lib.frames import ABANDON, ADD_FILE, ADD_FOLDER, CREATE_PROFILE, EXPORT, FINISH, LARGEST_PART, PIECE, STATUS, Frame

# a packed number has these fields, from the lowest bit up: index, file, profile (counted from 1), kind
INDEX_BITS, FILE_BITS, PROFILE_BITS = 20, 17, 6


def packed(kind, profile, file, index):
    """Returns the fields in one number, or None where one of them does not fit."""
    if not 1 <= profile <= 1 << PROFILE_BITS or file >> FILE_BITS or index >> INDEX_BITS:
        return None
    return ((kind << PROFILE_BITS | profile - 1) << FILE_BITS | file) << INDEX_BITS | index


def packed_of(kind, body):
    """Returns the packed number of a request, or None where it has none."""
    if kind == PIECE:
        return packed(kind, *struct.unpack_from(">III", body))
    if kind in (FINISH, ABANDON, STATUS):
        return packed(kind, *struct.unpack(">II", body), 0)
    if kind == EXPORT:
        profile, start = struct.unpack_from(">IQ", body)
        return None if start % LARGEST_PART else packed(0, profile, 0, start // LARGEST_PART)
    return None


def text_of(name, attempt, kind, body):
    """Returns what a request asks, as the bytes whose digest is its number."""
    if kind == CREATE_PROFILE:
        said = name
    elif kind in (ADD_FOLDER, ADD_FILE):
        said = struct.pack(">I", attempt) + body
    elif kind in (PIECE, EXPORT):
        said = body[:12]
    else:
        said = body
    return bytes([kind]) + said


def number_of(name, attempt, kind, body):
    """Returns the number of a request of the submission of this name."""
    found = packed_of(kind, body)
    if found is None:
        return 1 << 62 | int.from_bytes(sha256(text_of(name, attempt, kind, body)).digest()[:8], "big") >> 2
    return found


def numbered(client, name, requests):
    """Returns the frames of these requests, each an attempt, a kind and a body."""
    return [Frame(2, kind, client, number_of(name, attempt, kind, body), body) for attempt, kind, body in requests]
