"""A record counts only where it was written: a journal in whose last, torn record a piece has a copy of it is opened, and no copy
counts. And who may read a journal."""

import os
import stat
import unittest

from journal_session import InJournal, contents, run_journal, store
from lib.frames import EXPORT, create, export_body, file, folder, frame, piece
from model_frames import answer, service_of_the_sample

EXPORT_ALL = frame(EXPORT, 1, 99, export_body())
# so that the copies stand at many distances
SIZES = (0, 1, 100, 1_000)


class Places(InJournal):
    def test_a_copy_in_a_torn_piece(self):
        asked = [create(1), *[folder(number, b"%d" % number) for number in range(2, 9)]]
        # each by a turn of its own
        for request in asked:
            self.assertEqual(run_journal(self.path, request)[0], 0)
        copy = contents(self.path)
        for size in SIZES:
            store(self.path, copy)
            content = (bytes(size) + copy) * 2
            sent = [file(20, b"copy", len(content), len(content)), piece(21, 8, 0, content)]
            self.assertEqual(run_journal(self.path, sent[0])[0], 0)
            before = len(contents(self.path))
            self.assertEqual(run_journal(self.path, sent[1])[0], 0)
            whole = contents(self.path)
            # the last bytes of the piece's record did not come to the disk
            store(self.path, whole[: before + len(content) + 40])
            model = service_of_the_sample()
            answer(model, b"".join([*asked, sent[0]]))
            due = answer(model, sent[1] + EXPORT_ALL)[0]
            status, written, said = run_journal(self.path, sent[1] + EXPORT_ALL)
            self.assertEqual((status, written), (0, due), said)
            self.assertIn(b" bytes behind the last whole record are now in ", said)

    def test_modes(self):
        before = os.umask(0)
        self.addCleanup(os.umask, before)
        self.assertEqual(run_journal(self.path, create(1) + folder(2, b"in"))[0], 0)
        data = contents(self.path)
        os.chmod(self.path, 0o640)
        store(self.path, data + b"\0\0\0\0\1torn")
        self.assertEqual(run_journal(self.path)[0], 0)
        self.assertEqual(stat.S_IMODE(os.stat(self.path + ".torn").st_mode), 0o600)
        # one that is there keeps its mode
        self.assertEqual(stat.S_IMODE(os.stat(self.path).st_mode), 0o640)
        os.remove(self.path)
        self.assertEqual(run_journal(self.path)[0], 0)
        self.assertEqual(stat.S_IMODE(os.stat(self.path).st_mode), 0o600)


if __name__ == "__main__":
    unittest.main()
