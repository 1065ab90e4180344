"""A file that an earlier run finished is not read again: its bytes may have changed while its size and second of modification
stayed. `submit` counts such files, and with --check reads them and compares their hashes."""
import collections
import itertools
import subprocess
import unittest

from lib.frames import CREATE_PROFILE, EXPORT, PIECE, cut
from lib.lying import Lying
from lib.program import Serve, preloaded
from lib.submissions import Proxy, WithExport, submit_and_print, words_of
from lib.trees import UNREAD, lines, walk

OLD = 1_500_000_000
NOT_READ = b"files not read again: "
SKIPPED = b"skipped: "
OTHER_HASH = b": its hash in the profile is another"
ADVICE = b"a file differs: give another --name to submit the folder as it is now, as a new profile\n"


class Counting(Proxy):
    """Passes connections on, each as long as it lasts, and counts them."""

    def __init__(self, to):
        super().__init__(to, itertools.repeat(None))
        self.connections = 0

    def take(self, stream):
        self.connections += 1
        super().take(stream)


def frames_by_kind(sent):
    """Counts the frames of each kind."""
    return collections.Counter(found.kind for found in cut(sent))


class Check(WithExport):
    def setUp(self):
        super().setUp()
        self.file(b"/a.txt", b"a letter " * 300, OLD)
        self.file(b"/empty", b"", OLD)
        self.file(b"/z.bin", b"z" * 600, OLD)

    def run_twice(self, between, *words, env=None):
        """Submits the tree, changes it, and submits it again with these words: the second status and standard error."""
        with Serve.lasting() as service:
            self.assertEqual(submit_and_print(self.top, service.port, 7, quiet=False)[0], 0)
            between()
            status, _, err = submit_and_print(self.top, service.port, 7, *words, quiet=False, env=env)
        return status, err

    def change_in_place(self):
        self.file(b"/a.txt", b"A LETTER " * 300, OLD)

    def test_the_first_run_reads_all(self):
        with Serve.lasting() as service:
            status, _, err = submit_and_print(self.top, service.port, 7, quiet=False)
        self.assertEqual((status, lines(err, NOT_READ)), (0, [b"0"]))

    def test_changed_in_place(self):
        """Without --check the status is 0, and the summary counts what was not read; the empty file is not among them."""
        status, err = self.run_twice(self.change_in_place)
        self.assertEqual((status, lines(err, NOT_READ), lines(err, SKIPPED)), (0, [b"2"], []))
        self.assertNotIn(ADVICE, err)

    def test_changed_in_place_and_checked(self):
        status, err = self.run_twice(self.change_in_place, "--check")
        self.assertEqual((status, lines(err, NOT_READ), lines(err, SKIPPED)), (5, [b"0"], [b"/a.txt" + OTHER_HASH]))
        self.assertIn(ADVICE, err)

    def test_each_byte(self):
        """One byte of each piece changes, and the last one."""
        for place in (0, 511, 512, 2048, 2699):
            def change(place=place):
                content = bytearray(b"a letter " * 300)
                content[place] ^= 1
                self.file(b"/a.txt", bytes(content), OLD)

            status, err = self.run_twice(change, "--check")
            self.assertEqual((status, lines(err, SKIPPED)), (5, [b"/a.txt" + OTHER_HASH]), place)
            self.file(b"/a.txt", b"a letter " * 300, OLD)

    def test_unchanged_and_checked(self):
        for hash in ("md5", "sha256"):
            with Serve.lasting() as service:
                for words in ([], ["--check"], ["--check"]):
                    status, _, err = submit_and_print(self.top, service.port, 7, "--hash", hash, *words, quiet=False)
                    self.assertEqual((status, lines(err, SKIPPED), lines(err, NOT_READ)), (0, [], [b"0"]), (hash, words))

    def test_nothing_is_sent_again(self):
        with Lying() as service:
            self.assertEqual(submit_and_print(self.top, service.port, 7)[0], 0)
            sent = len(service.frames)
            self.assertEqual(submit_and_print(self.top, service.port, 7, "--check")[0], 0)
            self.assertEqual([frame for frame in service.frames[sent:] if frame.kind == PIECE], [])

    def test_unreadable_when_checked(self):
        """The first read of a file fails: it is skipped, and nothing is abandoned, as it is finished there. Without --check
        no byte of it is read; only that the empty file is empty is read anew."""
        for words, due in (
            (["--check"], (5, [b"0"], [b"/a.txt: " + UNREAD])),
            ([], (0, [b"2"], [])),
        ):
            status, err = self.run_twice(lambda: None, *words, env=preloaded("READS", PREAD_OF="a.txt", PREAD_FAILS=1))
            self.assertEqual((status, lines(err, NOT_READ), lines(err, SKIPPED)), due, err)
        status, err = self.run_twice(lambda: None, env=preloaded("READS", PREAD_FAILS=1))
        self.assertEqual((status, lines(err, NOT_READ), lines(err, SKIPPED)), (5, [b"2"], [b"/empty: " + UNREAD]), err)

    def test_slow_reads(self):
        """Reading takes longer than the service waits for a request. It closes the connection, and the command goes on
        over another one, on which it asks first what vouches for the service: the profile, and the last change."""
        with Serve(None, ["--at-once", "2", "--idle", "1", "--forever"], killed=True) as service, Counting(service.port) as proxy:
            self.assertEqual(submit_and_print(self.top, proxy.port, 7)[0], 0)
            before, proxy.sent, proxy.connections = frames_by_kind(proxy.sent), b"", 0
            slow = preloaded("READS", PREAD_OF="a.txt", PREAD_SLEEPS=400)
            status, _, err = submit_and_print(self.top, proxy.port, 7, "--check", "--export", self.export, quiet=False, env=slow)
            after = frames_by_kind(proxy.sent)
        self.assertEqual((status, lines(err, NOT_READ), lines(err, SKIPPED)), (0, [b"0"], []), err)
        self.same(self.exported(), walk(self.top)[0])
        self.assertGreater(proxy.connections, 1)
        self.assertEqual((before[PIECE] > 0, after[PIECE], after[EXPORT]), (True, 0, 1))
        self.assertEqual(after[CREATE_PROFILE], proxy.connections)

    def test_grown_while_it_was_there(self):
        """A file of another size is another request, as without --check."""
        status, err = self.run_twice(lambda: self.file(b"/a.txt", b"a letter " * 301, OLD), "--check")
        self.assertEqual((status, lines(err, SKIPPED)), (5, [b"/a.txt: changed since it was submitted"]))
        self.assertIn(ADVICE, err)

    def test_no_hash_to_compare(self):
        words = words_of(self.top, 1, 7, "--check", "--hash", "none")
        done = subprocess.run(words, capture_output=True, timeout=60)
        self.assertEqual((done.returncode, done.stdout), (2, b""), done.stderr)
        self.assertIn(b"cannot be used together", done.stderr)

    def test_quietly(self):
        """--quiet prints no summary, as everywhere."""
        with Serve.lasting() as service:
            for _ in range(2):
                self.assertEqual(submit_and_print(self.top, service.port, 7)[::2], (0, b""))


if __name__ == "__main__":
    unittest.main()
