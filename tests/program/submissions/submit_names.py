"""Which runs are one submission: those of one client under one name, which is the folder's absolute path by default."""
import os
import unittest

from lib.frames import PIECE, cut
from lib.program import Serve
from lib.submissions import Proxy, WithSmallTree, submit, submit_and_print
from lib.trees import walk


class Names(WithSmallTree):
    def number(self, folder, port, *words, client=7, **more):
        """Submits a folder whole: the number of its profile."""
        status, out, err = submit_and_print(folder, port, client, *words, **more)
        self.assertEqual((status, err), (0, b""), words)
        return int(out.removeprefix(b"profile "))

    def sends_pieces(self, folder, port, *words):
        """Submits a folder, and says whether pieces went out."""
        with Proxy(port, iter([None])) as proxy:
            self.assertEqual(submit(folder, proxy.port, 7, *words), (0, b""))
        return any(frame.kind == PIECE for frame in cut(proxy.sent))

    def test_absolute_path(self):
        """However the folder is named, and even if the same path is given as the name."""
        os.symlink(b"tree", self.work + b"/link")
        path = os.path.realpath(self.top)
        with Serve.lasting() as service:
            for folder in (self.top, self.top + b"/", self.work + b"/link", self.work + b"/tree/../tree"):
                self.assertEqual(self.number(folder, service.port), 1, folder)
            for folder in (b".", b"./", b"sub/.."):
                self.assertEqual(self.number(folder, service.port, cwd=self.top), 1, folder)
            self.assertEqual(self.number(self.top, service.port, "--name", path), 1)
            self.assertFalse(self.sends_pieces(self.work + b"/link", service.port))

    def test_names_and_clients(self):
        """Each name and each client has a profile of its own."""
        with Serve.lasting() as service:
            for turn in range(2):
                self.assertEqual(self.number(self.top, service.port), 1)
                self.assertEqual(self.number(self.top, service.port, "--name", "a"), 2)
                self.assertEqual(self.number(self.top, service.port, "--name", "ä b"), 3)
                self.assertEqual(self.number(self.top, service.port, client=8), 4)
                self.assertEqual(self.number(self.top, service.port, "--name", "a", client=8), 5)
                self.assertFalse(turn and self.sends_pieces(self.top, service.port, "--name", "a"))

    def test_two_folders_of_one_client(self):
        """Also where the first one is empty, or has the same entries."""
        empty, copy = self.work + b"/empty", self.work + b"/copy"
        os.mkdir(empty)
        os.mkdir(copy)
        with open(copy + b"/z.bin", "wb") as file:
            file.write(b"other")
        with Serve.lasting() as service:
            for _ in range(2):
                for number, folder in enumerate((empty, self.top, copy), 1):
                    self.assertEqual(self.number(folder, service.port, "--export", self.export), number)
                    self.same(self.exported(), walk(folder)[0])

    def test_moved_folder(self):
        """Under a name of its own a folder may move; without one it is another submission then."""
        moved = self.work + b"/moved"
        with Serve.lasting() as service:
            self.assertEqual(self.number(self.top, service.port), 1)
            self.assertEqual(self.number(self.top, service.port, "--name", "deposit"), 2)
            os.rename(self.top, moved)
            self.assertFalse(self.sends_pieces(moved, service.port, "--name", "deposit"))
            self.assertEqual(self.number(moved, service.port), 3)
            os.rename(moved, self.top)
            self.assertEqual(self.number(self.top, service.port), 1)


if __name__ == "__main__":
    unittest.main()
