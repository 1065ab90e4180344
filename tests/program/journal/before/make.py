"""Makes the journals of this folder with a program that writes version 3: make.py PROGRAM"""

import os
import subprocess
import sys
import tempfile

TOP = os.path.join(os.path.dirname(os.path.abspath(__file__)), *[os.pardir] * 4)
sys.path += [os.path.join(TOP, "tests", *names) for names in ((), ("program", "journal"), ("program", "model"), ("program", "wire"))]
os.environ["DROID_DESK"] = os.path.abspath(sys.argv[1])

from journal_before import ASKED, BEFORE, LATER, MANY, TORN  # noqa: E402
from journal_file_before import header_size  # noqa: E402
from journal_session import REGISTRY, contents, run_journal, store  # noqa: E402
from lib.frames import folder  # noqa: E402

# how many random bytes of the header came to the disk
RANDOM = 5


def gone_on_with(data, *turns, small=False):
    """The bytes of this journal behind these turns, each of a process of its own; or made smaller."""
    with tempfile.TemporaryDirectory() as place:
        path = os.path.join(place, "desk.journal")
        store(path, data)
        for turn in turns:
            assert run_journal(path, turn)[0] == 0
        if small:
            subprocess.run([os.environ["DROID_DESK"], "compact", *REGISTRY, "--quiet", path], check=True)
        return contents(path)


whole = gone_on_with(b"", *ASKED)
# the end of this folder's record did not come to the disk
torn = gone_on_with(whole, folder(77, b"lost"))[: len(whole) + TORN]
damaged = bytearray(whole)
damaged[header_size() + 30] ^= 1
FILES = {
    "whole": whole,
    # the commands come again once their replies are no longer cached, so they have second records
    "repeated": gone_on_with(whole, b"".join(MANY), b"".join(ASKED)),
    "small": gone_on_with(gone_on_with(whole, small=True), *LATER),
    "torn": torn,
    "begun": whole[: header_size() - 16 + RANDOM],
    "damaged": bytes(damaged),
}
for name, data in FILES.items():
    store(os.path.join(BEFORE, f"{name}.journal"), data)
    print(name, len(data))
