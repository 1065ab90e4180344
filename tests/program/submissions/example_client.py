"""examples/client.py against a service: directly, through a proxy that cuts its connections, and without a service. The
expected hash is hashlib's; the formats are those of the sample registry."""
import hashlib
import os
import random
import subprocess
import sys
import time

from lib.connections import free_port
from lib.program import TOP, Serve
from lib.submissions import Proxy, cuts_by
from lib.trees import InFolder

CLIENT = os.path.join(TOP, "examples", "client.py")
# a file of some pieces, and the numbers of bytes after which the proxy cuts, up to this one
SIZE = 3 * (1 << 20) + 5
MOST = 2_000_000
LINES = 100


def client(port, number, path, *seconds):
    """Runs the client: its status, its standard output and its standard error."""
    words = [sys.executable, "-S", "-B", CLIENT, str(port), str(number), path, *seconds]
    run = subprocess.run(words, capture_output=True, timeout=120)
    return run.returncode, run.stdout.decode(), run.stderr.decode()


class ExampleClient(InFolder):
    def sample(self, name, content):
        """Writes a file, and returns its path and its hash."""
        self.file(b"/" + name, content)
        return self.top + b"/" + name, hashlib.sha256(content).hexdigest()

    def test_it_is_short(self):
        with open(CLIENT, encoding="utf-8") as file:
            self.assertLess(len(file.read().splitlines()), LINES)

    def test_directly(self):
        """Files by a signature of the sample registry, by an extension, and by neither; one is empty."""
        rows = [
            (b"one.msg", b"message digest", "Signature dev/1,dev/3"),
            (b"empty.txt", b"", "Extension dev/4"),
            (b"large.bin", random.Random(1).randbytes(SIZE), "none -"),
        ]
        with Serve.lasting() as service:
            for number, (name, content, found) in enumerate(rows, 1):
                path, digest = self.sample(name, content)
                self.assertEqual(client(service.port, number, path), (0, f"{found} {digest}\n", ""))
                # sent again under the same numbers, it has the same replies
                self.assertEqual(client(service.port, number, path), (0, f"{found} {digest}\n", ""))

    def test_cut_connections(self):
        path, digest = self.sample(b"large.txt", random.Random(2).randbytes(SIZE))
        cut = 0
        with Serve.lasting() as service:
            for number in range(1, 6):
                with Proxy(service.port, cuts_by(number, MOST)) as proxy:
                    self.assertEqual(client(proxy.port, number, path), (0, f"Extension dev/4 {digest}\n", ""))
                cut += proxy.count
        self.assertGreater(cut, 5)

    def test_it_gives_up(self):
        path, _ = self.sample(b"one.msg", b"message")
        begun = time.monotonic()
        status, out, err = client(free_port(), 1, path, "1")
        self.assertEqual((status, out), (1, ""))
        self.assertTrue(err.startswith("gave up after 1.0 seconds: "), err)
        self.assertLess(time.monotonic() - begun, 20)
