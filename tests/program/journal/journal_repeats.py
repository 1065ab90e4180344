"""A command that comes again writes nothing, however many others came since: the same in later starts, and with a number that is
used for something else. Refusals and queries write nothing either."""

import unittest

from journal_session import InJournal, commands, contents, run_journal, serving
from lib.connections import connect, read_exactly
from lib.frames import EXPORT, cut, export_body, folder, frame, status
from model_frames import answer, service_of_the_sample

# many more than the replies that are cached
ASKED = commands(899)
EXPORT_ALL = frame(EXPORT, 1, 9_999, export_body())


class Repeats(InJournal):
    def setUp(self):
        super().setUp()
        self.model = service_of_the_sample()
        self.due = answer(self.model, b"".join(ASKED))[0]

    def test_one_after_another(self):
        with serving(self.path, connections=2) as service:
            with connect(service.port) as stream:
                stream.sendall(b"".join(ASKED))
                self.assertEqual(read_exactly(stream, len(self.due)), self.due)
                size = len(contents(self.path))
                for _ in range(3):
                    stream.sendall(b"".join(ASKED))
                    self.assertEqual(read_exactly(stream, len(self.due)), self.due)
                # (the beginning of the next turn may be written meanwhile)
                self.assertLessEqual(len(contents(self.path)) - size, 17)
            with connect(service.port):
                pass

    def test_later_starts(self):
        self.assertEqual(run_journal(self.path, b"".join(ASKED)), (0, self.due, b""))
        data = contents(self.path)
        for asked in (ASKED, ASKED[::-1], ASKED * 2):
            due = answer(self.model, b"".join(asked))[0]
            self.assertEqual(run_journal(self.path, b"".join(asked)), (0, due, b""))
            self.assertEqual(contents(self.path), data)

    def test_what_is_refused(self):
        self.assertEqual(run_journal(self.path, b"".join(ASKED)), (0, self.due, b""))
        data = contents(self.path)
        asked = [folder(number, b"other") for number in range(8, 400)] + [folder(2_000, b"9"), status(2_001, 1), EXPORT_ALL, frame(77, 1, 2_002, b"")]
        found = run_journal(self.path, b"".join(asked))
        self.assertEqual(found, (0, answer(self.model, b"".join(asked))[0], b""))
        self.assertEqual(len(list(cut(found[1]))), len(asked))
        self.assertEqual(contents(self.path), data)


if __name__ == "__main__":
    unittest.main()
