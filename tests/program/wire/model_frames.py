"""The model (../model) over frames (docs/FORMATS.md): reads requests from bytes, and writes its replies as frames."""

from struct import pack

from lib.frames import ABANDONED, FINISHED, HEADER, MADE, NODE, PART, PROGRESS, REFUSED, TAKEN, frame
from lib.program import SAMPLE
from lines import HASH_NUMBERS, KINDS, LONGEST_BODIES, METHOD_NUMBERS, TYPE_NUMBERS
from registry import Registry
from service import Service

NAMES = {number: name for name, number in KINDS.items()}
METHODS = {number: method for method, number in METHOD_NUMBERS.items()}
TYPES = {number: kind for kind, number in TYPE_NUMBERS.items()}
TRUTHS = {0: False, 1: True}
HASHES = {number: name for name, number in HASH_NUMBERS.items()}
HASHES_BY_LENGTH = {0: 0, 16: 1, 32: 2}

REPLIES = {b"made": MADE, b"node": NODE, b"taken": TAKEN, b"abandoned": ABANDONED, b"progress": PROGRESS}
PRINTED_METHODS = {b"none": 0, b"Signature": 1, b"Extension": 2}
LIMITS = {b"profiles": 1, b"nodes": 2, b"unfinished": 3}


def service_of_the_sample():
    """Makes a service of the model with the sample registry, which the program has without a file."""
    with open(SAMPLE, "rb") as file:
        return Service(Registry(file.read()))


def answer(service, stream):
    """Returns what has to be written for these bytes, and the fault with which they end, or None."""
    frames, fault = frames_of(stream)
    return b"".join(reply_to(service, *found) for found in frames), fault


def frames_of(stream):
    """Returns the whole frames in the bytes, and the fault with which the bytes end: None where nothing is left."""
    frames = []
    while stream:
        if len(stream) < HEADER.size:
            return frames, "Truncated"
        version, kind, client, number, length = HEADER.unpack_from(stream)
        if version not in LONGEST_BODIES:
            return frames, "BadVersion"
        if length > LONGEST_BODIES[version]:
            return frames, "TooLong"
        body = stream[HEADER.size : HEADER.size + length]
        if len(body) < length:
            return frames, "Truncated"
        frames.append((version, kind, client, number, body))
        stream = stream[HEADER.size + length :]
    return frames, None


def reply_to(service, version, kind, client, number, body):
    try:
        request = request_of(version, kind, body) | {"client": client, "number": number, "body": body}
    except Malformed:
        return frame(REFUSED, client, number, b"\1", version)
    reply_kind, reply_body = reply_of(service.reply(request), version)
    return frame(reply_kind, client, number, reply_body, version)


class Malformed(Exception):
    """No request of this kind has such a body."""


class Body:
    """The unread rest of a body."""

    def __init__(self, left):
        self.left = left

    def take(self, count):
        if len(self.left) < count:
            raise Malformed
        taken, self.left = self.left[:count], self.left[count:]
        return taken

    def number(self, size, signed=False):
        return int.from_bytes(self.take(size), "big", signed=signed)

    def one_of(self, values):
        number = self.number(1)
        if number not in values:
            raise Malformed
        return values[number]

    def text(self, count):
        taken = self.take(count)
        try:
            taken.decode("utf-8")
        except UnicodeDecodeError:
            raise Malformed from None
        return taken

    def criterion(self):
        """Reads a criterion: its name and its value, as in a line of a script."""
        tag = self.number(1)
        if tag == 1:
            return "method", self.one_of(METHODS)
        if tag in (2, 3):
            return "puid" if tag == 2 else "ext", [self.text(self.number(1)) for _ in range(self.number(1))]
        if tag == 4:
            return "mismatch", self.one_of(TRUTHS)
        if tag in (5, 6):
            return "atleast" if tag == 5 else "atmost", self.number(8)
        if tag == 7:
            return "type", self.one_of(TYPES)
        raise Malformed


def request_of(version, kind, body):
    """Reads a body of this version and kind, which has to be used up."""
    if kind not in NAMES:
        raise Malformed
    left = Body(body)
    request = {"version": version, "kind": NAMES[kind]} | fields_of(version, NAMES[kind], left)
    if left.left:
        raise Malformed
    return request


def fields_of(version, kind, left):
    if kind == "create":
        fields = {"limit": left.number(4), "match_all": left.one_of(TRUTHS)}
        return fields | {"hash": left.one_of(HASHES) if version == 2 else "md5"}
    fields = {"profile": left.number(4)}
    if kind in ("folder", "file"):
        fields |= {"parent": left.number(4), "modified": left.number(8, signed=True)}
        if kind == "file":
            fields |= {"size": left.number(8), "piece_size": left.number(4)}
        return fields | {"name": left.text(len(left.left))}
    if kind == "export":
        fields |= {"from": left.number(8), "max": left.number(4), "all": left.one_of(TRUTHS)}
        return fields | {"criteria": [left.criterion() for _ in range(left.number(1))]}
    fields |= {"file": left.number(4)}
    if kind == "piece":
        fields |= {"index": left.number(4)}
        fields |= {"bytes": left.take(len(left.left))}
    return fields


def reply_of(printed, version=1):
    """Returns the kind and the body of a printed reply in a version."""
    line, _, rest = printed.partition(b"\n")
    word, *fields = line.split(b" ")
    if word in REPLIES:
        return REPLIES[word], b"".join(pack(">I", int(number)) for number in fields)
    if word == b"part":
        return PART, pack(">QQ", int(fields[0]), int(fields[1])) + rest
    if word == b"refused":
        return REFUSED, bytes([int(fields[0])]) + b"".join(map(field_of_refusal, fields[1:]))
    method, mismatch, digest, puids = fields
    found = [] if puids == b"-" else puids.split(b",")
    hash = b"" if digest == b"-" else bytes.fromhex(digest.decode("ascii"))
    kind = bytes([HASHES_BY_LENGTH[len(hash)]]) if version == 2 else b""
    head = bytes([PRINTED_METHODS[method], mismatch == b"true"]) + kind + hash
    return FINISHED, head + pack(">H", len(found)) + b"".join(bytes([len(puid)]) + puid for puid in found)


def field_of_refusal(word):
    return bytes([LIMITS[word]]) if word in LIMITS else pack(">I", int(word))
