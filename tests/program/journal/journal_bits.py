"""Each single changed bit of a journal, whatever its form: a start reports damage or another header, with status 3, and leaves the
file as it is; or it has each command that was answered. Of journals whose last turn was followed by an end of input, by a
connection's end, or by silence and a kill; made smaller, or gone on with. BITS is of how many bits one is changed (1 for all)."""

import os
import signal
import subprocess
import time
import unittest
from concurrent.futures import ThreadPoolExecutor

from journal_session import REGISTRY, InJournal, commands, contents, run_journal, serving, store
from lib.connections import connect, read_exactly
from lib.frames import EXPORT, export_body, folder, frame
from lib.program import PROGRAM
from model_frames import answer, service_of_the_sample

BITS = int(os.environ.get("BITS", "61"))
ASKED = commands(12)
LATER = [folder(20, b"later"), folder(21, b"last")]
EXPORT_ALL = frame(EXPORT, 1, 99, export_body())
# how long a service is silent before it is killed
SILENCE = 0.2


def replies_to(asked):
    model = service_of_the_sample()
    return [answer(model, request)[0] for request in asked]


class Bits(InJournal):
    def served(self, asked, before=()):
        """Each request by a turn of its own, on one connection."""
        due = replies_to([*before, *asked])[len(before) :]
        with serving(self.path, connections=1) as service, connect(service.port) as stream:
            for request, reply in zip(asked, due):
                stream.sendall(request)
                self.assertEqual(read_exactly(stream, len(reply)), reply)

    def is_wrong(self, numbered):
        place, data, due = numbered
        path = f"{self.path}{place}"
        store(path, data)
        status, written, said = run_journal(path, EXPORT_ALL)
        left = contents(path)
        if os.path.exists(path + ".torn"):
            os.remove(path + ".torn")
        os.remove(path)
        if status == 3 and not written and said.startswith(b"fault: Journal at ") and left == data:
            return None
        # (a part says how many commands were accepted)
        return None if (status, written) == (0, due) and b" bytes behind the last whole record " in said else (place, status, said[:60])

    def each_bit(self, asked):
        """All of these were answered before."""
        data, due = contents(self.path), replies_to([*asked, EXPORT_ALL])[-1]
        rows = []
        for bit in range(0, 8 * len(data), BITS):
            at = bit // 8
            rows.append((bit, data[:at] + bytes([data[at] ^ 1 << bit % 8]) + data[at + 1 :], due))
        with ThreadPoolExecutor(len(os.sched_getaffinity(0))) as pool:
            wrong = [it for it in pool.map(self.is_wrong, rows) if it]
        self.assertEqual(wrong, [], f"{len(wrong)} of {len(rows)}")

    def test_run(self):
        self.assertEqual(run_journal(self.path, b"".join(ASKED))[0], 0)
        self.each_bit(ASKED)

    def test_serve(self):
        self.served(ASKED)
        self.each_bit(ASKED)

    def test_killed_in_silence(self):
        with serving(self.path, connections=2, killed=True) as service, connect(service.port) as stream:
            for request, reply in zip(ASKED, replies_to(ASKED)):
                stream.sendall(request)
                self.assertEqual(read_exactly(stream, len(reply)), reply)
            time.sleep(SILENCE)
            service.process.send_signal(signal.SIGKILL)
        self.each_bit(ASKED)

    def test_smaller(self):
        self.served(ASKED)
        subprocess.run([PROGRAM, "compact", *REGISTRY, "--quiet", self.path], check=True)
        self.each_bit(ASKED)

    def test_smaller_and_gone_on_with(self):
        self.served(ASKED)
        subprocess.run([PROGRAM, "compact", *REGISTRY, "--quiet", self.path], check=True)
        self.served(LATER, ASKED)
        self.each_bit([*ASKED, *LATER])

    def test_only_a_header(self):
        self.assertEqual(run_journal(self.path)[0], 0)
        self.each_bit([])


if __name__ == "__main__":
    unittest.main()
