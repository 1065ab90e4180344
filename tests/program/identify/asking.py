"""Runs `identify`, and reads what it prints."""

import json
import os
import subprocess
import sys

from lib.program import PROGRAM, TOP

sys.path.insert(0, os.path.join(TOP, "tests", "program", "model"))


def identify(*words, **options):
    """Runs the command. Returns its output, what it reported, and its status."""
    done = subprocess.run([PROGRAM, "identify", *words], capture_output=True, check=False, **options)
    return done.stdout, done.stderr, done.returncode


def json_lines(out):
    """The objects of --json. Each line has to be one object, and the last one ends."""
    assert not out or out.endswith(b"\n")
    return [json.loads(line) for line in out.decode("utf-8").split("\n")[:-1]]


def bytes_at(content, match):
    """The bytes of a file at which a match is said to be."""
    begin = match["offset"] if match["from"] == "start" else len(content) - match["offset"] - match["length"]
    assert 0 <= begin and begin + match["length"] <= len(content)
    return content[begin : begin + match["length"]]


def write(path, content):
    with open(path, "wb") as file:
        file.write(content)
    return path
