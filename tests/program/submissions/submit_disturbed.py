"""The service accepts another client's commands between the parts of an export. `submit` then starts the export
again, up to a hundred times; it reads the export whether or not a file is named for it."""
import os
import unittest

from lib.connections import read_frame
from lib.frames import ADD_FOLDER, CREATE_PROFILE, EXPORT, MADE, NODE, folder_body, frame, profile_body
from lib.program import Serve
from lib.submissions import Relay, WithExport, fault, submit
from lib.trees import walk

OTHER = 9
BEGINNINGS = 100
SENTENCE = "port %d: other clients sent requests between the parts of the CSV, a hundred times: run the same command again later"


class Between:
    """Another client. Before a request for a further part of an export it sends the service a command, at most this many
    times."""

    def __init__(self, times):
        self.left = times
        self.number = 0
        self.begun = 0

    def __call__(self, _relay, request, service):
        if self.number == 0:
            self.command(service, CREATE_PROFILE, profile_body(1024), MADE)
        if request.kind == EXPORT:
            self.before_a_part(service, int.from_bytes(request.body[4:12], "big"))

    def before_a_part(self, service, start):
        if start == 0:
            self.begun += 1
        elif self.left > 0:
            self.left -= 1
            self.command(service, ADD_FOLDER, folder_body(b"%d" % self.number), NODE)

    def command(self, service, kind, body, due):
        self.number += 1
        service.sendall(frame(kind, OTHER, self.number, body))
        assert read_frame(service)[0] == due


class Disturbed(WithExport):
    """The exports have two parts, of 1 MiB and of the rest."""

    def setUp(self):
        super().setUp()
        for number in range(1700):
            self.folder(b"/" + b"%04d" % number * 50)

    def test_whole_after_some_attempts(self):
        rows, _ = walk(self.top)
        for times in (0, 1, BEGINNINGS - 1):
            between = Between(times)
            with Serve.lasting() as service, Relay(service.port, between) as relay:
                ended = submit(self.top, relay.port, 7, "--export", self.export)
            self.assertEqual(ended, (0, b""), times)
            self.assertEqual(between.begun, times + 1)
            text = self.exported()
            self.assertTrue(1 << 20 < len(text) < 2 << 20, len(text))
            self.same(text, rows)
            os.remove(self.export)

    def test_given_up(self):
        """So it is without --export, too: the profile could not be compared."""
        for words in (["--export", self.export], []):
            between = Between(BEGINNINGS)
            with Serve.lasting() as service, Relay(service.port, between) as relay:
                ended = submit(self.top, relay.port, 7, *words)
            self.assertEqual(ended, (4, fault("Disturbed", SENTENCE % relay.port)))
            self.assertEqual(between.begun, BEGINNINGS)
            self.assertEqual(self.beside(), [])


if __name__ == "__main__":
    unittest.main()
