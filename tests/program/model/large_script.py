#!/usr/bin/env -S python3 -S -B
"""Writes a script that goes past usual sizes, or the registry of one: `large_script.py NAME`."""

import sys
from random import Random

LARGEST_PART = 1_048_576
LONGEST_NAME = 255
MOST_FORMATS = 4_096
PIECES = 4_200
NODES = 1_500


def asked(number, *words, client=1):
    return " ".join(map(str, (client, number, *words)))


def parts(number, profile, count, *filter_words):
    """Yields an export in this many parts of the largest size."""
    for place in range(count):
        yield asked(number + place, "export", profile, place * LARGEST_PART, LARGEST_PART, *filter_words)


def pieces():
    """Yields a file of many pieces of a byte: first in order, then each sixteen backward."""
    yield asked(1, "create", 65536, 0)
    yield asked(2, "file", 1, 0, 0, PIECES, 1, "many")
    half = PIECES // 2
    backward = [start + 15 - place for start in range(half, PIECES, 16) for place in range(16)]
    for index in [*range(half), *(index for index in backward if index < PIECES)]:
        yield asked(10 + index, "piece", 1, 1, index, "%02x" % (index % 256))
        if index % 1_000 == 999:
            yield asked(3, "status", 1, 1)
    yield asked(4, "finish", 1, 1)
    yield asked(3, "status", 1, 1)
    yield asked(10 + PIECES - 1, "piece", 1, 1, PIECES - 1, "%02x" % ((PIECES - 1) % 256))
    yield from parts(5, 1, 1)


def orders():
    """Yields files of up to 60 small pieces in a random order: most are near the first missing one, some of a wrong length. In
    the end all come in order. The scan limit is near the file's size or its half."""
    chance = Random(20_260_722)
    number = 0
    for profile in range(1, 61):
        piece_size, count = chance.randint(1, 8), chance.randint(0, 60)
        size = max(count * piece_size - chance.choice([0, piece_size - 1, chance.randrange(piece_size)]), 0)
        limit = chance.choice([size + 1, size, size - 1, size // 2, size // 2 + 1, 1, chance.randint(0, size + 2)])
        content = bytearray(chance.choices(b"abcdxyz", k=size))
        content[:7] = chance.choice([b"message", b"abcdxyz", b"ab?dxyz"])[:size]
        content[size - min(size, 3) :] = b"xyz"[: min(size, 3)]
        number += 2
        yield "v2 " + asked(number, "create", max(limit, 1), 0, chance.choice(["none", "md5", "sha256"]))
        yield "v2 " + asked(number + 1, "file", profile, 0, 0, size, piece_size, "f")
        missing = 0
        held = set()
        for turn in range(3 * count + 4):
            index = chance.randrange(count + 2) if chance.randrange(4) == 0 else min(missing + chance.randrange(18), count)
            piece = bytes(content[index * piece_size : (index + 1) * piece_size])
            if chance.randrange(12) == 0:
                piece = bytes(chance.choices(b"abcdxyz", k=chance.randrange(10)))
            elif index < missing + 16 and piece:
                held.add(index)
            while missing in held:
                missing += 1
            number += 2
            yield "v2 " + asked(number, "piece", profile, 1, index, piece.hex() or "-")
            yield "v2 " + asked(number + 1, "status" if turn % 4 or missing == count else "finish", profile, 1)
        number += 1
        for index in range(count):
            number += 1
            piece = bytes(content[index * piece_size : (index + 1) * piece_size])
            yield "v2 " + asked(number, "piece", profile, 1, index, piece.hex())
        number += 2
        yield "v2 " + asked(number, "finish", profile, 1)
        yield "v2 " + asked(number + 1, "finish", profile, 1)


def nodes():
    """Yields many folders with the longest names, many finished files and some abandoned ones, each request twice, and
    their export."""
    yield asked(1, "create", 65536, 0)
    folders = [
        asked(number, "folder", 1, number - 2 if number % 3 == 0 else 0, number, ("%d" % number).ljust(LONGEST_NAME, "_"))
        for number in range(2, NODES + 2)
    ]
    yield from folders
    for number in range(2, NODES + 2):
        yield asked(number, "file", 1, number - 1, -number, 0, 1, f"{number}.txt", client=2)
        yield asked(number, "abandon" if number % 50 == 0 else "finish", 1, NODES + number - 1, client=3)
    yield from folders
    yield from parts(NODES + 10, 1, 3)
    yield from parts(NODES + 20, 1, 1, "all", "type=File", f"atmost={2 ** 64 - 1}")


def formats():
    """Yields files of the most formats, by signatures and by extension, and their exports."""
    yield asked(1, "create", 65536, 0)
    yield asked(2, "create", 65536, 1)
    for profile, name, content in ((1, "a.q", "61"), (2, "b.q", "7a"), (1, "c.q", "7a"), (1, "d.z", "61")):
        client = 2 + ord(name[0]) - ord("a")
        node = 1 if name in ("a.q", "b.q") else ord(name[0]) - ord("a")
        yield asked(1, "file", profile, 0, 0, 1, 1, name, client=client)
        yield asked(2, "piece", profile, node, 0, content, client=client)
        yield asked(3, "finish", profile, node, client=client)
    yield from parts(10, 1, 9)
    yield from parts(20, 2, 5)
    yield from parts(30, 2, 1, "any", "ext=Q")
    yield from parts(40, 1, 1, "all", f"puid={puid(MOST_FORMATS)}", "mismatch=true")


def puid(number):
    return "dev/%028d" % number


def registry():
    """Yields formats with the longest texts, each with a signature and an extension."""
    text = "t" * LONGEST_NAME
    for number in range(1, MOST_FORMATS + 1):
        yield f"F,{puid(number)},{text},{text},{text},"
        yield f"E,{puid(number)},q,,,"
        yield f"S,{puid(number)},BOF,0,0,61"


def clients():
    """Yields client and request numbers from all over their range; each line twice."""
    yield asked(1, "create", 65536, 0)
    spread = {*range(1_000), *range(0, 1 << 32, 4_294_967)}
    spread |= {power + more for power in (1 << bit for bit in range(33)) for more in (-1, 0, 1)}
    for client in sorted(found for found in spread if found < 1 << 32):
        yield from twice(asked(2, "folder", 1, 0, 0, f"client {client}", client=client))
    for number in sorted({power + more for power in (1 << bit for bit in range(64)) for more in (-1, 0, 1)}):
        yield from twice(asked(number, "folder", 1, 0, 0, f"number {number}", client=9_999))
    for client in (0, 1, (1 << 32) - 1):
        yield from all_kinds(client)


def twice(line):
    yield line
    yield line


def all_kinds(client):
    """Yields each kind of request of a client."""
    yield asked(10, "create", 9, 1, client=client)
    profile = {0: 2, 1: 3}.get(client, 4)
    yield asked(11, "folder", profile, 0, 0, "in", client=client)
    yield asked(12, "file", profile, 1, 0, 3, 2, "a.txt", client=client)
    yield asked(13, "piece", profile, 2, 1, "63", client=client)
    yield asked(14, "piece", profile, 2, 0, "6162", client=client)
    yield asked(15, "status", profile, 2, client=client)
    yield asked(16, "finish", profile, 2, client=client)
    yield asked(17, "file", profile, 1, 0, 3, 2, "b.txt", client=client)
    yield asked(18, "abandon", profile, 3, client=client)
    yield asked(19, "export", profile, 0, LARGEST_PART, client=client)


def filters():
    """Yields filters with the most criteria, texts and bytes that a line can have; the last text decides."""
    yield asked(1, "create", 65536, 0)
    yield asked(2, "file", 1, 0, 0, 0, 1, "e.txt")
    yield asked(3, "finish", 1, 1)
    yield asked(4, "file", 1, 0, 0, 0, 1, "e." + "x" * 253)
    yield asked(5, "finish", 1, 2)
    for name in ("puid", "ext"):
        many = f" {name}=" + ",".join(["0123456789abcde"] * 255)
        long = f" {name}=" + ",".join(["y" * 255] * 255)
        for last in (" puid=a,dev/4", " ext=a,TXT", " puid=dev/5", " ext=" + "X" * 253, " mismatch=true"):
            yield asked(6, "export", 1, 0, LARGEST_PART, "any" + many * 254 + last)
            yield asked(7, "export", 1, 0, LARGEST_PART, "any" + long * 16 + last)
    yield asked(8, "export", 1, 0, LARGEST_PART, "all" + " type=File" * 254 + " ext=txt")


def main(name):
    lines = {"pieces": pieces, "orders": orders, "nodes": nodes, "formats": formats, "registry": registry, "clients": clients, "filters": filters}
    for line in lines[name]():
        print(line)


main(*sys.argv[1:])
