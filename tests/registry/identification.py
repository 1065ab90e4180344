"""Identifies samples by the program's `script`."""

import os
import subprocess
import tempfile

from lib.frames import LIMITS, SCAN_LIMIT
from lib.program import PROGRAM

SECONDS = 60
LONGEST_PIECE = LIMITS[1].piece


def lines_of(samples, limit, match_all):
    """Yields the lines of a script: a profile, and a folder for each file, so that their names may be equal."""
    number = 0
    yield f"1 {number} create {limit} {int(match_all)}"
    for place, (_, name, content) in enumerate(samples):
        assert len(content) <= LONGEST_PIECE, name
        folder, file = 2 * place + 1, 2 * place + 2
        yield f"1 {number + 1} folder 1 0 0 {place}"
        yield f"1 {number + 2} file 1 {folder} 0 {len(content)} {LONGEST_PIECE} {name}"
        if content:
            yield f"1 {number + 3} piece 1 {file} 0 {content.hex()}"
        yield f"1 {number + 4} finish 1 {file}"
        number += 4


def identify(registry, samples, limit=SCAN_LIMIT, match_all=False):
    """Identifies samples by the registry of these bytes: for each the method, whether it is a mismatch, and its
    formats."""
    script = "".join(line + "\n" for line in lines_of(samples, limit, match_all)).encode("ascii")
    with tempfile.TemporaryDirectory() as folder:
        path = os.path.join(folder, "registry.csv")
        with open(path, "wb") as file:
            file.write(registry)
        done = subprocess.run(
            [PROGRAM, "script", "--registry", path], input=script, capture_output=True, timeout=SECONDS
        )
    assert (done.returncode, done.stderr) == (0, b""), (done.returncode, done.stderr)
    found = [line.split(" ") for line in done.stdout.decode("ascii").splitlines() if line.startswith("finished ")]
    assert len(found) == len(samples), done.stdout[:1000]
    return [(method, mismatch == "true", [] if puids == "-" else puids.split(",")) for _, method, mismatch, _, puids in found]
