"""A file whose pieces come out of order, from its profile to its export, as the first requests of a service."""

from typing import NamedTuple

from lib.frames import FINISHED, MADE, NODE, TAKEN
from lib.frames import create, export, file, finish, frame, in_version, part, piece, reply
from lib.rows import COLUMNS
from lib.session import rows_in_version


class Hash(NamedTuple):
    """A hash: its number, its column's name, and its digest of `message digest`."""

    number: int
    column: bytes
    digest: str


NOTHING = Hash(0, b"HASH", "")
# from the test suite of RFC 1321
MD5 = Hash(1, b"MD5_HASH", "f96b697d7cb7938d525a2f31aaf161d0")
# by sha256sum
SHA256 = Hash(2, b"SHA256_HASH", "f7846f55cf23e14eebeab5b4e1550cad5b509e3348fbc4efa3a1413d393cb650")

# each version with the hashes that a profile can have in it
HASHES = [(1, MD5), (2, NOTHING), (2, MD5), (2, SHA256)]

ADDED = (file(2, b"m.msg", 14, 4), reply(NODE, 2, 1))
PIECES = [
    (piece(3, 1, 3, b"st"), reply(TAKEN, 3, 1)),
    (piece(4, 1, 1, b"age "), reply(TAKEN, 4, 2)),
    (piece(5, 1, 0, b"mess"), reply(TAKEN, 5, 3)),
    (piece(6, 1, 2, b"dige"), reply(TAKEN, 6, 4)),
]


def text(of):
    """Returns the export with this hash."""
    row = (
        '"1","","file:/m.msg","/m.msg","m.msg","Signature","Done","14","File","msg","1970-01-01T00:00:00","false",'
        f'"{of.digest}","2",'
    ).encode("ascii")
    header = COLUMNS.replace(b"MD5_HASH", of.column)
    return header + row + b'"dev/1","","Message","1"\n' + row + b'"dev/3","","Letters",""\n'


def out_of_order(version, of):
    """Returns the requests in a version with their replies, in a profile with this hash."""
    kind = bytes([of.number]) if version == 2 else b""
    found = b"\1\0" + kind + bytes.fromhex(of.digest) + b"\0\2\5dev/1\5dev/3"
    made = create(1, version=version, hash=of.number), in_version(version, reply(MADE, 1, 1))
    ended = in_version(version, finish(7, 1)), frame(FINISHED, 1, 7, found, version)
    exported = export(8), part(8, 7, text(of))
    return [made, *rows_in_version(version, [ADDED, *PIECES]), ended, *rows_in_version(version, [exported])]
