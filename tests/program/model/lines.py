"""The lines of a script: the request of each, and its body.

A request is a dictionary with its version, its kind, its fields by name, and its client and number.
"""

import re
from struct import pack

KINDS = {"create": 1, "folder": 2, "file": 3, "piece": 4, "finish": 5, "abandon": 6, "status": 7, "export": 8}
METHODS = {b"none": "", b"Signature": "Signature", b"Extension": "Extension"}
TRUTHS = {b"false": False, b"true": True}
TYPES = {b"File": "File", b"Folder": "Folder"}
METHOD_NUMBERS = {"": 0, "Signature": 1, "Extension": 2}
TYPE_NUMBERS = {"File": 0, "Folder": 1}
HASHES = {b"none": "none", b"md5": "md5", b"sha256": "sha256"}
HASH_NUMBERS = {"none": 0, "md5": 1, "sha256": 2}
LONGEST_BODIES = {1: 1_048_640, 2: 4_194_368}


class BadLine(Exception):
    """The line is no request."""


def lines_of(text):
    """Cuts a text at line feeds. An empty last line doesn't count."""
    lines = text.split(b"\n")
    return lines if lines[-1] else lines[:-1]


def request_of(line):
    """Reads the request of a line, with its body."""
    try:
        line.decode("utf-8")
    except UnicodeDecodeError:
        raise BadLine from None
    version = 1
    if line.startswith(b"v2 "):
        version, line = 2, line[3:]
    client, number, kind, rest = words(line, 4)
    request = {"version": version, "client": whole(client, 32), "number": whole(number, 64)}
    if kind == b"create":
        request |= create(rest) if version == 1 else create_with_hash(rest)
    elif kind == b"folder":
        request |= folder(rest)
    elif kind == b"file":
        request |= file(rest)
    elif kind == b"piece":
        request |= piece(rest)
    elif kind in (b"finish", b"abandon", b"status"):
        request |= of_file(kind.decode("ascii"), rest)
    elif kind == b"export":
        request |= export(rest)
    else:
        raise BadLine
    request["body"] = body_of(request)
    if len(request["body"]) > LONGEST_BODIES[version]:
        raise BadLine
    return request


def words(text, count):
    """Cuts a text into this many words. The last one is the rest."""
    parts = text.split(b" ", count - 1)
    if len(parts) != count:
        raise BadLine
    return parts


def whole(word, bits):
    """Reads a number in decimal digits of at most this many bits."""
    if not re.fullmatch(rb"[0-9]+", word):
        raise BadLine
    digits = word.lstrip(b"0") or b"0"
    if len(digits) > 20 or int(digits) >= 1 << bits:
        raise BadLine
    return int(digits)


def moment(word):
    """Reads a number of 64 bits, with or without a minus sign."""
    if word.startswith(b"-"):
        value = -whole(word[1:], 64)
    else:
        value = whole(word, 64)
    if not -(1 << 63) <= value < 1 << 63:
        raise BadLine
    return value


def named(word, names):
    if word not in names:
        raise BadLine
    return names[word]


def create(rest):
    limit, match_all = words(rest, 2)
    match_all = named(match_all, {b"0": False, b"1": True})
    return {"kind": "create", "limit": whole(limit, 32), "match_all": match_all, "hash": "md5"}


def create_with_hash(rest):
    options, _, hash = rest.rpartition(b" ")
    return create(options) | {"hash": named(hash, HASHES)}


def folder(rest):
    profile, parent, modified, name = words(rest, 4)
    return {
        "kind": "folder",
        "profile": whole(profile, 32),
        "parent": whole(parent, 32),
        "modified": moment(modified),
        "name": name,
    }


def file(rest):
    profile, parent, modified, size, piece_size, name = words(rest, 6)
    return {
        "kind": "file",
        "profile": whole(profile, 32),
        "parent": whole(parent, 32),
        "modified": moment(modified),
        "size": whole(size, 64),
        "piece_size": whole(piece_size, 32),
        "name": name,
    }


def piece(rest):
    profile, number, index, digits = words(rest, 4)
    if digits != b"-" and not re.fullmatch(rb"(?:[0-9A-Fa-f]{2})+", digits):
        raise BadLine
    return {
        "kind": "piece",
        "profile": whole(profile, 32),
        "file": whole(number, 32),
        "index": whole(index, 32),
        "bytes": b"" if digits == b"-" else bytes.fromhex(digits.decode("ascii")),
    }


def of_file(kind, rest):
    profile, number = words(rest, 2)
    return {"kind": kind, "profile": whole(profile, 32), "file": whole(number, 32)}


def export(rest):
    parts = rest.split(b" ")
    if len(parts) < 3:
        raise BadLine
    join = named(parts[3], {b"all": True, b"any": False}) if len(parts) > 3 else True
    criteria = [criterion(word) for word in parts[4:]]
    if len(criteria) > 255:
        raise BadLine
    return {
        "kind": "export",
        "profile": whole(parts[0], 32),
        "from": whole(parts[1], 64),
        "max": whole(parts[2], 32),
        "all": join,
        "criteria": criteria,
    }


def criterion(word):
    """Reads a criterion: its name and its value."""
    name, equals, value = word.partition(b"=")
    if not equals:
        raise BadLine
    if name == b"method":
        return "method", named(value, METHODS)
    if name in (b"puid", b"ext"):
        return name.decode("ascii"), texts(value)
    if name == b"mismatch":
        return "mismatch", named(value, TRUTHS)
    if name in (b"atleast", b"atmost"):
        return name.decode("ascii"), whole(value, 64)
    if name == b"type":
        return "type", named(value, TYPES)
    raise BadLine


def texts(value):
    found = value.split(b",")
    if len(found) > 255 or any(len(text) > 255 for text in found):
        raise BadLine
    return found


def body_of(request):
    """Returns the bytes of the request's body in its version."""
    kind = request["kind"]
    if kind == "create":
        hash = bytes([HASH_NUMBERS[request["hash"]]]) if request["version"] == 2 else b""
        return pack(">IB", request["limit"], request["match_all"]) + hash
    if kind == "folder":
        return place_of(request) + request["name"]
    if kind == "file":
        return place_of(request) + pack(">QI", request["size"], request["piece_size"]) + request["name"]
    if kind == "piece":
        return pack(">III", request["profile"], request["file"], request["index"]) + request["bytes"]
    if kind == "export":
        head = pack(">IQI", request["profile"], request["from"], request["max"])
        count = pack(">BB", request["all"], len(request["criteria"]))
        return head + count + b"".join(criterion_bytes(*found) for found in request["criteria"])
    return pack(">II", request["profile"], request["file"])


def place_of(request):
    return pack(">IIq", request["profile"], request["parent"], request["modified"])


def criterion_bytes(name, value):
    if name == "method":
        return pack(">BB", 1, METHOD_NUMBERS[value])
    if name in ("puid", "ext"):
        head = pack(">BB", 2 if name == "puid" else 3, len(value))
        return head + b"".join(pack(">B", len(text)) + text for text in value)
    if name == "mismatch":
        return pack(">BB", 4, value)
    if name == "type":
        return pack(">BB", 7, TYPE_NUMBERS[value])
    return pack(">BQ", 5 if name == "atleast" else 6, value)
