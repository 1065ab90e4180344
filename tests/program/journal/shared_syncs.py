"""Where the disk is slow, a turn waits a millisecond for each connection that was answered in the turn before, so that their
requests share a sync (paced.c notes each wait and each sync). One that is alone never waits, and waits in vain become rare."""

import os
import unittest

from journal_session import InJournal, contents, serving
from lib.connections import connect, read_frame
from lib.frames import MADE, NODE, create, folder
from lib.program import preloaded

ASKED = 40
# half of this is longer than one client takes after another's reply
SYNC = 10_000


class SharedSyncs(InJournal):
    def setUp(self):
        super().setUp()
        self.waits = os.path.join(self.folder, "waits")
        self.env = preloaded("PACED", WAITS=self.waits, SYNC_MICROSECONDS=SYNC)

    def asked_in_turn(self, clients):
        """Connects `clients` clients, and has them ask for folders one after the other. Returns what the service waited for."""
        with serving(self.path, "--forever", env=self.env, killed=True) as service:
            streams = [connect(service.port) for _ in range(clients)]
            self.assertEqual(self.ask(streams[0], create(1)), MADE)
            for number in range(2, ASKED + 2):
                self.assertEqual(self.ask(streams[number % clients], folder(number, b"%d" % number)), NODE)
            for stream in streams:
                stream.close()
        return contents(self.waits).split()

    @staticmethod
    def ask(stream, request):
        stream.sendall(request)
        return read_frame(stream)[0]

    def test_one_that_is_alone(self):
        found = self.asked_in_turn(1)
        self.assertGreaterEqual(found.count(b"sync"), ASKED)
        self.assertNotIn(b"1", found)

    def syncs_of(self, busy, idle):
        """Some connections send 64 requests at once, others nothing: how many syncs the replies take."""
        with serving(self.path, "--forever", env=self.env, killed=True) as service:
            streams = [connect(service.port) for _ in range(busy + idle)]
            self.assertEqual(self.ask(streams[0], create(1)), MADE)
            before = contents(self.waits).split().count(b"sync")
            for place, stream in enumerate(streams[:busy]):
                stream.sendall(b"".join(folder(number, b"%d" % number) for number in range(2 + 64 * place, 66 + 64 * place)))
            for stream in streams[:busy]:
                for _ in range(64):
                    self.assertEqual(read_frame(stream)[0], NODE)
            syncs = contents(self.waits).split().count(b"sync") - before
            for stream in streams:
                stream.close()
        return syncs

    def test_many_of_one(self):
        """64 requests of one connection share a sync, whichever others are open."""
        self.assertEqual(self.syncs_of(busy=1, idle=9), 1)

    def test_many_of_each(self):
        """Of eight connections 32 are handled in a turn, of 256 in all: two syncs, and one more where the first requests came alone."""
        self.assertIn(self.syncs_of(busy=8, idle=2), (2, 3, 4))

    def test_two_in_turn(self):
        """Each is awaited where the other one asks: never with success, so ever more turns don't wait."""
        found = self.asked_in_turn(2)
        self.assertGreaterEqual(found.count(b"sync"), ASKED)
        self.assertIn(found.count(b"1"), range(1, ASKED // 2))


if __name__ == "__main__":
    unittest.main()
