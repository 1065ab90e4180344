"""A disk that is full, by a limit of the size of files (RLIMIT_FSIZE): the journal of a service can't grow any more. Nothing
more is answered, each connection is closed, and the next start has all that was answered."""

import resource
import signal
import subprocess
import unittest

from journal_file import MARK, header_size, read
from journal_session import REGISTRY, UNWRITTEN, InJournal, contents, printed, run_journal
from lib.connections import SECONDS, connect, free_port, read_frame
from lib.frames import MADE, NODE, create, folder
from lib.program import PROGRAM
from model_frames import answer, service_of_the_sample


def limited(size):
    """What a process does before it begins: no file of it may have more bytes, and writing more is an error."""

    def limit():
        signal.signal(signal.SIGXFSZ, signal.SIG_IGN)
        resource.setrlimit(resource.RLIMIT_FSIZE, (size, size))

    return limit


class Full(InJournal):
    def test_run(self):
        """For each size: what was answered is in the journal, and its next start has it."""
        asked = [create(1)] + [folder(number, b"%d" % number) for number in range(2, 60)]
        replies = answer(service_of_the_sample(), b"".join(asked))[0]
        for size in range(0, 3_000, 131):
            path = f"{self.path}{size}"
            status, written, said = run_journal(path, b"".join(asked), before=limited(size))
            self.assertEqual((status, said), (4, printed("Journal", UNWRITTEN, path)), size)
            self.assertTrue(replies.startswith(written))
            data = contents(path)
            self.assertEqual(len(data), size)
            records = read(data).records if size >= header_size() else []
            kept = b"".join(record.reply for record in records)
            self.assertTrue(replies.startswith(kept) and kept.startswith(written), size)
            self.assertEqual(run_journal(path, b"".join(asked))[:2], (0, replies))

    def test_the_last_mark(self):
        """It does not fit behind the last turn: all of that was answered, and the next start has it."""
        asked = [create(1)] + [folder(number, b"%d" % number) for number in range(2, 9)]
        replies = answer(service_of_the_sample(), b"".join(asked))[0]
        self.assertEqual(run_journal(self.path, b"".join(asked)), (0, replies, b""))
        size = len(contents(self.path))
        for lacking in range(MARK + 1):
            path = f"{self.path}{lacking}"
            found = run_journal(path, b"".join(asked), before=limited(size - lacking))
            self.assertEqual(found, (4, replies, printed("Journal", UNWRITTEN, path)) if lacking else (0, replies, b""))
            self.assertEqual(b"".join(it.reply for it in read(contents(path)).records), replies)
            self.assertEqual(run_journal(path, b"".join(asked))[:2], (0, replies))

    def test_serve(self):
        """Two connections, one of which only waits: both are closed, and the service ends."""
        port = free_port()
        process = subprocess.Popen(
            [PROGRAM, "serve", "--port", str(port), "--at-once", "4", "--forever", *REGISTRY, "--journal", self.path],
            stdout=subprocess.PIPE,
            stderr=subprocess.PIPE,
            preexec_fn=limited(4_000),
        )
        self.assertEqual(process.stdout.readline(), f"listening {port}\n".encode("ascii"))
        answered = 0
        with connect(port) as waits, connect(port) as asks:
            asks.sendall(create(1))
            self.assertEqual(read_frame(asks)[0], MADE)
            while True:
                try:
                    asks.sendall(folder(answered + 2, b"%d" % answered))
                    found = read_frame(asks)
                except ConnectionError:
                    break
                if found is None:
                    break
                self.assertEqual(found[0], NODE)
                answered += 1
            try:
                self.assertEqual(waits.recv(1), b"")
            except ConnectionError:
                pass
        out, said = process.communicate(timeout=SECONDS)
        self.ends((process.returncode, out, said), 4, "Journal", UNWRITTEN)
        self.assertGreater(answered, 10)
        # (the profile and the folders; one more may be whole, of which no reply came)
        self.assertIn(len(read(contents(self.path)).records), (answered + 1, answered + 2))

    def test_no_room_for_what_is_cut_off(self):
        """FILE.torn can't be written: nothing is cut."""
        self.assertEqual(run_journal(self.path, create(1))[0], 0)
        with open(self.path, "ab") as file:
            file.write(bytes(500))
        before = contents(self.path)
        self.ends(run_journal(self.path, folder(2, b"a"), before=limited(100)), 4, "Journal", UNWRITTEN)
        self.assertEqual(contents(self.path), before)


if __name__ == "__main__":
    unittest.main()
