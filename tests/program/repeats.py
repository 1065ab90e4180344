#!/usr/bin/env -S python3 -S -B
"""Tests how requests that come again are answered: repeats.py PROGRAM

It takes each case of cases/ whose arguments are `script` alone and whose input is small. The program gets each line
twice, which is answered alike, and then all lines once more; and again behind so many others that it has none of their
replies cached. The replies are those of the model (model/).
"""

import os
import subprocess
import sys

TESTS = os.path.dirname(os.path.abspath(__file__))
sys.path.insert(0, os.path.join(TESTS, "model"))

from lines import BadLine, lines_of, request_of  # noqa: E402
from registry import Registry  # noqa: E402
from service import Service  # noqa: E402

CASES = os.path.join(TESTS, "cases")
# of an input that a script writes, one byte more is read
LARGEST = 10_000
# how many replies a service caches
CACHED = 256
# a client of its own
OTHER = 4_000_000_000


def read(*path):
    with open(os.path.join(*path), "rb") as file:
        return file.read()


def input_of(case):
    """Returns the input of a case, or the beginning of a large one."""
    if os.path.isfile(os.path.join(case, "in")):
        return read(case, "in")
    return subprocess.run(f"sh in.sh | head -c {LARGEST + 1}", shell=True, cwd=case, stdout=subprocess.PIPE, check=True).stdout


def inputs():
    """Yields the lines of each case, by its name."""
    for name in sorted(os.listdir(CASES)):
        files = os.listdir(os.path.join(CASES, name))
        if {"in", "in.sh"} & {*files} and read(CASES, name, "args") == b"script\n":
            text = input_of(os.path.join(CASES, name))
            if 0 < len(text) <= LARGEST:
                yield name, lines_of(text)


def reply(service, line):
    try:
        return service.reply(request_of(line))
    except BadLine:
        return b"bad line\n"


def script_of(lines):
    """Returns a script in which each line comes twice, all of them come once more, and then so again behind others; and the
    replies to it."""
    service = Service(Registry(read(TESTS, "sample_registry.csv")))
    first = [reply(service, line) for line in lines]
    replies = [it for it in first for _ in range(2)] + [reply(service, line) for line in lines]
    others = [b"%d 1 create 1 0" % OTHER]
    made = reply(service, others[0])
    if made.startswith(b"made "):
        others += [b"%d %d folder %d 0 0 %d" % (OTHER, number, int(made.split()[1]), number) for number in range(2, CACHED + 2)]
    replies += [made] + [reply(service, line) for line in others[1:] + lines]
    return [line for line in lines for _ in range(2)] + lines + others + lines, replies


def passes(program, lines):
    script, replies = script_of(lines)
    done = subprocess.run([program, "script"], input=b"".join(line + b"\n" for line in script), capture_output=True, check=False)
    return done.stdout == b"".join(replies) and not done.stderr


def main(program):
    found = [*inputs()]
    failed = [name for name, lines in found if not passes(program, lines)]
    print(*failed, sep="\n", end="\n" if failed else "")
    print(f"repeats: {len(found) - len(failed)} passed, {len(failed)} failed")
    sys.exit(1 if failed or not found else 0)


main(*sys.argv[1:])
