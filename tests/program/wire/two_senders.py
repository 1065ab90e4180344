"""Two `send`s to one `serve`. The same script sent again is a repeat, also after a broken connection."""

import socket
import threading
import unittest

from lib.connections import SECONDS, connect, listen
from lib.frames import LIMITS, in_version, lines_in_version
from lib.program import Serve, send
from lib.rows import COLUMNS, IN_ROW, LETTERS_ROW
from lib.session import deposit_frames

# the requests of lib.session.deposit_frames as lines, and their replies
DEPOSIT = b"""create 65536 0
folder 1 0 0 in
file 1 1 0 26 16 a.abc
piece 1 2 1 7172737475767778797a
piece 1 2 0 6162636465666768696a6b6c6d6e6f70
finish 1 2
"""
DEPOSITED = b"""made 1
node 1
node 2
taken 1
taken 2
finished Signature false c3fcd3d76192e4007dfb496cca67e13b dev/2
"""


def part(as_of, text):
    return b"part %d %d %d\n" % (as_of, len(text), len(text)) + text


class Relay(threading.Thread):
    """Passes one connection on to a port: all that comes back, and this many bytes of what is sent. Then it cuts
    both."""

    def __init__(self, port, room):
        super().__init__(daemon=True)
        self.listener = listen()
        self.port = self.listener.getsockname()[1]
        self.to = port
        self.room = room
        self.start()

    def run(self):
        near, _ = self.listener.accept()
        near.settimeout(SECONDS)
        far = connect(self.to)
        back = threading.Thread(target=self.pass_back, args=(far, near), daemon=True)
        back.start()
        while self.room > 0:
            passed = near.recv(min(self.room, 4096))
            if not passed:
                break
            far.sendall(passed)
            self.room -= len(passed)
        for stream in (far, near):
            try:
                stream.shutdown(socket.SHUT_RDWR)
            except OSError:
                pass
        back.join(SECONDS)
        for stream in (far, near, self.listener):
            stream.close()

    @staticmethod
    def pass_back(far, near):
        try:
            while passed := far.recv(4096):
                near.sendall(passed)
        except OSError:
            pass


class TwoSenders(unittest.TestCase):
    def test_the_same_script_again_is_a_repeat(self):
        lines = b"create 65536 0\nfolder 1 0 0 in\n"
        with Serve(3) as service:
            self.assertEqual(send(service.port, 7, lines), (0, b"made 1\nnode 1\n", ""))
            self.assertEqual(send(service.port, 7, lines), (0, b"made 1\nnode 1\n", ""))
            shown = send(service.port, 7, b"export 1 0 1048576\n", first=3)
            self.assertEqual(shown, (0, part(2, COLUMNS + IN_ROW), ""))

    def test_another_client_has_numbers_of_its_own(self):
        lines = b"create 65536 0\n"
        with Serve(2) as service:
            self.assertEqual(send(service.port, 7, lines), (0, b"made 1\n", ""))
            self.assertEqual(send(service.port, 8, lines), (0, b"made 2\n", ""))

    def test_numbers_go_on_where_the_first_is_named(self):
        with Serve(2) as service:
            self.assertEqual(send(service.port, 7, b"create 65536 0\n"), (0, b"made 1\n", ""))
            self.assertEqual(send(service.port, 7, b"create 9 0\n", first=1), (0, b"refused 2\n", ""))

    def test_a_connection_cut_after_each_byte(self):
        for version in LIMITS:
            lines = lines_in_version(version, DEPOSIT)
            sent = sum(len(in_version(version, request)) for request in deposit_frames(7))
            for room in range(sent):
                with self.subTest(version=version, room=room), Serve(2) as service:
                    status, out, _ = send(Relay(service.port, room).port, 7, lines)
                    self.assertEqual(status, 4)
                    self.assertTrue(DEPOSITED.startswith(out), out)
                    again = send(service.port, 7, lines + b"export 1 0 1048576\n")
                    whole = DEPOSITED + part(6, COLUMNS + IN_ROW + LETTERS_ROW)
                    self.assertEqual(again, (0, whole, ""))


if __name__ == "__main__":
    unittest.main()
