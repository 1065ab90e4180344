"""The stored cases of `script` (../cases) as frames through `run`. Each reply has to be the frame of the stored
line, byte for byte, so that no request or reply of version 1 changes its bytes. The cases of version 1 are sent as
frames of version 2 too, and compared with the model."""

import os
import unittest

from lib.frames import frame, in_version
from lib.program import SAMPLE, run
from lines import KINDS, BadLine, lines_of, request_of
from model_frames import answer, reply_of
from registry import Registry
from service import Service

CASES = os.path.join(os.path.dirname(os.path.abspath(__file__)), "..", "cases")
EVERYDAY = os.path.join(os.path.dirname(os.path.abspath(__file__)), "..", "..", "..", "registries", "common.csv")


def stored(case, name):
    """Reads a file of a case, or returns None where the case has no such file."""
    path = os.path.join(CASES, case, name)
    if not os.path.isfile(path):
        return None
    with open(path, "rb") as file:
        return file.read()


def printed_replies(text):
    """Cuts stored output into replies. The bytes of a part follow its line."""
    while text:
        line, _, rest = text.partition(b"\n")
        count = int(line.split(b" ")[3]) if line.startswith(b"part ") else 0
        yield line + b"\n" + rest[:count]
        text = rest[count:]


def requests_of(lines):
    """Reads the request of each line, or None of a bad line."""
    for line in lines_of(lines):
        try:
            yield request_of(line)
        except BadLine:
            yield None


def frames_of(case):
    """Returns the frames of a case's requests, and those of its replies."""
    sent, due = b"", b""
    for request, printed in zip(requests_of(stored(case, "in")), printed_replies(stored(case, "out")), strict=True):
        if request is None:
            assert printed == b"bad line\n", printed
            continue
        ends, version = (request["client"], request["number"]), request["version"]
        sent += frame(KINDS[request["kind"]], *ends, request["body"], version)
        kind, body = reply_of(printed, version)
        due += frame(kind, *ends, body, version)
    return sent, due


def cases_of_scripts():
    """Lists the cases of `script` whose input and output are stored, each with its options."""
    for case in sorted(os.listdir(CASES)):
        command, *options = (stored(case, "args") or b"").decode("utf-8", "replace").split() or [None]
        if command == "script" and stored(case, "in") and stored(case, "out"):
            yield case, [os.path.join(CASES, case, word) if word.endswith(".csv") else word for word in options]


def is_in_version_1(case):
    return not any(line.startswith(b"v2 ") for line in lines_of(stored(case, "in")))


def service_of(options):
    """Makes a service of the model with the registry of a case."""
    path = {(): SAMPLE, ("--everyday",): EVERYDAY}.get(tuple(options)) or options[1]
    with open(path, "rb") as file:
        return Service(Registry(file.read()))


class CasesAsFrames(unittest.TestCase):
    def setUp(self):
        self.cases = list(cases_of_scripts())

    def test_each_reply_has_its_bytes(self):
        self.assertGreater(sum(is_in_version_1(case) for case, _ in self.cases), 35)
        for case, options in self.cases:
            with self.subTest(case):
                sent, due = frames_of(case)
                self.assertEqual(run(["run", *options], sent), (0, due, ""))

    def test_those_of_version_1_in_version_2(self):
        """Most replies are the same. Only the limit of the size of pieces differs."""
        same = 0
        for case, options in self.cases:
            if is_in_version_1(case):
                with self.subTest(case):
                    sent, due = (in_version(2, frames) for frames in frames_of(case))
                    written, _ = answer(service_of(options), sent)
                    same += written == due
                    self.assertEqual(run(["run", *options], sent), (0, written, ""))
        self.assertGreater(same, 35)


if __name__ == "__main__":
    unittest.main()
