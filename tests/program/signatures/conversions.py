"""The program's `registry`, and what it says."""

import csv
import io
import os
import re
import subprocess
import tempfile

from lib.program import PROGRAM

SECONDS = 60
# what is left out, in front of the reason; without one of these it is the whole format
ITEM = re.compile("(signature|extension|priority over format) (.*?): ")
# statuses: no signature file; no output; something is left out
NO_SIGNATURE_FILE, NO_OUTPUT, PARTLY = 3, 4, 5


def stored(name):
    """The bytes of a file beside this one."""
    with open(os.path.join(os.path.dirname(os.path.abspath(__file__)), name), "rb") as file:
        return file.read()


def run(*words, **more):
    """Runs `registry`: the status, standard output and standard error."""
    done = subprocess.run([PROGRAM, "registry", *words], capture_output=True, timeout=SECONDS, check=False, **more)
    return done.returncode, done.stdout, done.stderr.decode()


def convert(text, *options):
    """Makes a registry of a signature file: the status, the registry and standard error."""
    with tempfile.NamedTemporaryFile() as file:
        file.write(text)
        file.flush()
        return run(file.name, *options)


def rows_of(registry, kinds="FEPSB"):
    """The rows of these kinds in a registry."""
    return [row for row in csv.reader(io.StringIO(registry.decode(), newline=""), strict=True) if row[0] in kinds]


def left_out(said):
    """What standard error lists as left out: the format's PUID, or `format` and its ID if it has none, or nothing; what it is and
    its name or number; and why."""
    found = []
    for line in said.splitlines():
        if line.startswith("left out: ") and not line[10:].isdigit():
            form, rest = line[10:].split(": ", 1)
            if form.startswith("signature "):
                form, rest = "", line[10:]
            item = ITEM.match(rest)
            kind, name = item.groups() if item else ("format", "")
            found.append((form, kind, name, rest[item.end() if item else 0 :]))
    return found


def unknown(said):
    """The names that standard error lists as unknown, and how often each stands there."""
    rows = re.findall("^unknown (element|attribute): (.*): ([0-9]+) times$", said, re.MULTILINE)
    return {(part, name): int(count) for part, name, count in rows}
