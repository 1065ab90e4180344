"""A submission that was begun with other options than are given now is refused by the option's name, and nothing changes."""
import itertools
import unittest

from lib.program import Serve, send
from lib.submissions import WithSmallTree, fault, submit
from lib.trees import walk

HASHES, ALL, LIMITS = ("none", "md5", "sha256"), (False, True), ("65536", "100")
OPTIONS = list(itertools.product(HASHES, ALL, LIMITS))


def words_of(hash, match_all, limit):
    return ["--hash", hash, "--limit", limit, *(["--match-all"] if match_all else [])]


def begun(one, other):
    """Says with which options it was begun, if `other` is given now. Of the limit only that it is another is known."""
    if one[2] != other[2]:
        return "with another --limit"
    hash = f"with --hash {one[0]}" if one[0] != other[0] else ""
    matching = f"{'with' if one[1] else 'without'} --match-all" if one[1] != other[1] else ""
    return " and ".join(filter(None, (hash, matching)))


class Begun(WithSmallTree):
    def test_each_pair(self):
        with Serve.lasting() as service:
            for number, one in enumerate(OPTIONS):
                name = ["--name", f"submission {number}"]
                self.assertEqual(submit(self.top, service.port, 7, *name, *words_of(*one)), (0, b""))
                for other in OPTIONS:
                    ended = submit(self.top, service.port, 7, *name, *words_of(*other))
                    sentence = f"port {service.port}: this submission was begun {begun(one, other)}: give the same, or another --name"
                    self.assertEqual(ended, (0, b"") if one == other else (4, fault("Options", sentence)), (one, other))
            # no other profile was made on the way
            self.assertEqual(send(service.port, 9, b"create 65536 0\n")[1], b"made %d\n" % (len(OPTIONS) + 1))

    def test_other_piece_size(self):
        """The profile does not depend on it, but all files do: they count as changed."""
        with Serve.lasting() as service:
            self.assertEqual(submit(self.top, service.port, 7), (0, b""))
            status, err = submit(self.top, service.port, 7, piece=100)
            changed = b"".join(b"skipped: %s: changed since it was submitted\n" % path for path in (b"/a.bin", b"/z.bin", b"/sub/b.txt"))
            self.assertEqual((status, err), (5, changed + b"skipped in all: 3\n"))
            self.assertEqual(submit(self.top, service.port, 7, "--export", self.export), (0, b""))
        self.same(self.exported(), walk(self.top)[0])


if __name__ == "__main__":
    unittest.main()
