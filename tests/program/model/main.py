#!/usr/bin/env -S python3 -S -B
"""A plain model of the program's scripts: `main.py script [--everyday | --registry FILE]`.

It keeps whole files in dictionaries and looks at each request by itself, so it is slow, and short enough to be read
beside the documents. It writes the output that the program has to write, and ends with the same status.
"""

import os
import sys

from lines import BadLine, lines_of, request_of
from registry import Registry, RegistryFault
from service import Service

LONGEST_INPUT = 67_108_864
TESTS = os.path.join(os.path.dirname(os.path.abspath(__file__)), "..")
SAMPLE = os.path.join(TESTS, "sample_registry.csv")
EVERYDAY = os.path.join(TESTS, "..", "..", "registries", "common.csv")

# the sentence behind a fault, which says what it means and what to do
UNREAD = "standard input could not be read"
LONG = "standard input has more than 67,108,864 bytes: use serve and send"
UNWRITTEN = "standard output could not be written: is the disk full, or its reader gone?"
EXPECTED = {
    "TooLong": "more than 16,777,216 bytes: is it a registry file?",
    "NotUtf8": "a field is not UTF-8 text: save the file as UTF-8",
    "BadRecord": "expected six fields, the first of them F, E, S, B or P: is it a registry file?",
    "BadPattern": "the last field is not a pattern: expected one as 25504446",
    "UnknownPuid": "expected an identifier that an F record above gives",
    "DuplicatePuid": "an F record above has this identifier: each may stand once",
    "TooMany": "one more of its kind than a registry may have: shorten it",
}


def end(status, fault=None, sentence=None):
    if fault is not None:
        os.write(2, f"fault: {fault}\n{sentence}\n".encode())
    os._exit(status)


def read_registry(path):
    try:
        with open(path, "rb") as file:
            return Registry(file.read())
    except (FileNotFoundError, NotADirectoryError):
        end(3, "Read", f"{path}: no such file: check the path after --registry")
    except IsADirectoryError:
        end(3, "Read", f"{path}: a folder: name the registry file in it")
    except RegistryFault as fault:
        name, _, at = str(fault).partition(" at ")
        record = f"record {at}: " if at else ""
        end(3, fault, f"{path}: {record}{EXPECTED[name]}")


def write(text):
    try:
        while text:
            written = os.write(1, text)
            if written == 0:
                end(4, "Write", UNWRITTEN)
            text = text[written:]
    except OSError:
        end(4, "Write", UNWRITTEN)


def run_script(service):
    """Answers each line of standard input, and returns whether a line was bad."""
    try:
        text = sys.stdin.buffer.read()
    except OSError:
        end(4, "Read", UNREAD)
    if len(text) > LONGEST_INPUT:
        end(4, "TooLong", LONG)
    is_bad = False
    for line in lines_of(text):
        try:
            write(service.reply(request_of(line)))
        except BadLine:
            is_bad = True
            write(b"bad line\n")
    return is_bad


def main(words):
    match words:
        case ["script"]:
            path = SAMPLE
        case ["script", "--everyday"]:
            path = EVERYDAY
        case ["script", "--registry", path]:
            pass
        case _:
            sys.exit("the model takes: script [--everyday | --registry FILE]")
    registry = read_registry(path)
    is_bad = run_script(Service(registry))
    if not registry.formats:
        os.write(2, f"registry: {path} has no formats, so no file will be identified\n".encode())
    end(5 if is_bad else 0)


main(sys.argv[1:])
