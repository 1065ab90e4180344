#!/usr/bin/env -S python3 -S -B
"""Tests how the built program assembles files from pieces: pieces.py PROGRAM

- the messages of RFC 1321 (A.5) and of FIPS 180-4's examples, in pieces of some sizes and in some orders
- a million letters `a` (FIPS 180-4's example too), in pieces of 63 letters and more (droid_base_tests has pieces of one)
- the files of the most pieces and of the greatest sizes

Of each message the digest stands in the standard. A registry has a format for each: it has the message's first five bytes and
its last five, as many as the scan limit is. Formats with the first or the last six are never found.
"""

import os
import subprocess
import sys
import tempfile

sys.path.insert(0, os.path.join(os.path.dirname(os.path.abspath(__file__)), ".."))

from lib.digests import EXAMPLES, MILLION, SUITE  # noqa: E402

PROGRAM = sys.argv[1] if len(sys.argv) > 1 else ""
LIMIT = 5
MESSAGES = [message for message, _ in SUITE + EXAMPLES[2:] + [MILLION] if message]
# sizes of files and of their pieces, and the version that has such pieces
SIZES = [
    (1 << 20, 1, 1),
    (1 << 40, 1 << 20, 1),
    ((1 << 40) - 1, 1 << 20, 1),
    (1 << 40, 1 << 22, 2),
    (1 << 22, 4, 1),
]


def forward(turn, _last):
    return turn


def backward(turn, last):
    """Each group of sixteen from the last to the first."""
    return min(turn | 15, last) - turn % 16


def swapped(turn, last):
    """The second of each two first."""
    return min(turn ^ 1, last)


def registry():
    """Returns the rows of formats for the ends of each message, and for longer ends."""
    rows = []
    for number, message in enumerate(MESSAGES):
        first, last = message[:LIMIT].hex(), message[-LIMIT:].hex()
        rows += [f"F,dev/{number},a,,,", f"S,dev/{number},BOF,0,0,{first}", f"B,dev/{number},EOF,0,0,{last}"]
        if len(message) > LIMIT:
            for end, more in (("BOF", message[: LIMIT + 1]), ("EOF", message[-LIMIT - 1 :])):
                rows += [f"F,{end}/{number},a,,,", f"S,{end}/{number},{end},0,0,{more.hex()}"]
    return "".join(row + "\n" for row in rows)


def puids(message):
    """Returns the formats whose ends the message has."""
    return [f"dev/{number}" for number, it in enumerate(MESSAGES) if message.startswith(it[:LIMIT]) and message.endswith(it[-LIMIT:])]


class Script:
    """Lines of one client, and the replies that are due."""

    def __init__(self):
        self.lines, self.due = [], []
        self.nodes = {}

    def ask(self, mark, words, reply):
        self.lines.append(f"{mark}1 {len(self.lines) + 1} {words}")
        self.due.append(reply)

    def file(self, profile, mark, content, digest, piece_size, order):
        """Adds a file, puts its pieces in an order, and finishes it."""
        node = self.nodes[profile] = self.nodes.get(profile, 0) + 1
        self.ask(mark, f"file {profile} 0 0 {len(content)} {piece_size} {node}", f"node {node}")
        count = -(-len(content) // piece_size)
        for turn in range(count):
            index = order(turn, count - 1)
            piece = content[index * piece_size : (index + 1) * piece_size]
            self.ask(mark, f"piece {profile} {node} {index} {piece.hex()}", f"taken {turn + 1}")
        found = puids(content)
        method = "Signature" if found else "none"
        self.ask(mark, f"finish {profile} {node}", f"finished {method} false {digest} {','.join(found) or '-'}")

    def passes(self):
        with tempfile.NamedTemporaryFile("w", encoding="ascii") as file:
            file.write(registry())
            file.flush()
            given = "".join(line + "\n" for line in self.lines)
            done = subprocess.run([PROGRAM, "script", "--registry", file.name], input=given.encode(), capture_output=True, check=False)
        found = done.stdout.decode("ascii", "replace").splitlines()
        for line, reply, due in zip(self.lines, found, self.due):
            if reply != due:
                print(f"{line[:60]}: {reply[:200]}, and not {due[:200]}")
                return False
        return len(found) == len(self.due) and not done.stderr


def messages():
    script = Script()
    script.ask("", f"create {LIMIT} 0", "made 1")
    script.ask("v2 ", f"create {LIMIT} 0 sha256", "made 2")
    for message, digest in SUITE:
        for piece_size in (1, 2, 26):
            for order in (forward, backward, swapped):
                script.file(1, "", message, digest, piece_size, order)
    for message, digest in EXAMPLES:
        for piece_size in (1, 63, 64, 65, 112):
            script.file(2, "v2 ", message, digest, piece_size, backward)
    return script


def million():
    script = Script()
    script.ask("v2 ", f"create {LIMIT} 0 sha256", "made 1")
    for piece_size in (63, 64, 65, 1_000_000):
        script.file(1, "v2 ", *MILLION, piece_size, forward)
    return script


def largest():
    """None of these files has a piece."""
    script = Script()
    script.ask("", "create 65536 0", "made 1")
    for node, (size, piece_size, version) in enumerate(SIZES, 1):
        mark = "v2 " if version == 2 else ""
        script.ask(mark, f"file 1 0 0 {size} {piece_size} {node}", f"node {node}")
        script.ask(mark, f"status 1 {node}", "progress 0 0")
    return script


def main():
    failed = 0
    for test in (messages, million, largest):
        if not test().passes():
            failed += 1
            print(f"{test.__name__}: failed")
    print(f"pieces: {3 - failed} passed, {failed} failed")
    sys.exit(1 if failed else 0)


main()
