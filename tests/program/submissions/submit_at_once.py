"""Three clients submit a folder each to one service at once (`serve --at-once`), and again. Each export has the rows of
Python's own walk of its folder."""
import shutil
import subprocess
import unittest

from lib.program import Serve
from lib.submissions import WithTree, words_of
from lib.trees import walk

CLIENTS = 3
SECONDS = 60


class AtOnce(WithTree):
    def setUp(self):
        super().setUp()
        self.tops = [self.work + b"/tree%d" % client for client in range(CLIENTS)]
        for client, top in enumerate(self.tops):
            shutil.copytree(self.top, top)
            with open(top + b"/own.bin", "wb") as file:
                file.write(bytes([client]) * (10_000 + client))

    def begin(self, port, client, top):
        """Starts the `submit` of a client, and returns the process and the file of its export."""
        export = self.work + b"/export%d.csv" % client
        words = words_of(top, port, client, "--export", export)
        return subprocess.Popen(words, stdout=subprocess.PIPE, stderr=subprocess.PIPE), export

    def test_three_clients(self):
        with Serve(None, ["--at-once", "2", "--forever"], killed=True) as service:
            for _ in range(2):
                begun = [self.begin(service.port, client, top) for client, top in enumerate(self.tops)]
                for top, (process, export) in zip(self.tops, begun):
                    _, err = process.communicate(timeout=SECONDS)
                    self.assertEqual((process.returncode, err), (0, b""))
                    with open(export, "rb") as file:
                        self.same(file.read(), walk(top)[0])


if __name__ == "__main__":
    unittest.main()
