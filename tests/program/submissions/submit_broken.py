"""The connection is cut, at random bytes and at each request. Every submission is completed, with the same text."""
import itertools
import unittest
from concurrent.futures import ThreadPoolExecutor

from lib.lying import Lying, at, closing, cutting
from lib.program import Serve
from lib.submissions import Proxy, WithSmallTree, WithTree, cuts_by, submit
from lib.trees import walk

# how many services run at a time, and how often each one's connections are cut at least
SERVICES, CUTS = 5, 40
# the first cuts of a submission come while pieces are sent: a piece and its reply have some 600 bytes, and all together
# 25,000; the export has some 6,000 bytes, in one reply
FIRST, MOST_FOR_PIECES, MOST_FOR_AN_EXPORT = 12, 3_000, 30_000


class AtBytes(WithTree):
    def test_cut_at_random_bytes(self):
        """A proxy cuts by a fixed seed, 200 times in all."""
        with ThreadPoolExecutor(SERVICES) as pool:
            self.assertGreaterEqual(sum(pool.map(self.cut_often, range(SERVICES))), SERVICES * CUTS)

    def cut_often(self, number):
        """Submits to one service until its connections were cut often enough, and returns how often."""
        rows, _ = walk(self.top)
        export = self.work + b"/%d.csv" % number
        cut = client = 0
        with Serve.lasting() as service:
            while cut < CUTS:
                client += 1
                seed = 100 * number + client
                cuts = itertools.chain(itertools.islice(cuts_by(seed, MOST_FOR_PIECES), FIRST), cuts_by(seed, MOST_FOR_AN_EXPORT))
                with Proxy(service.port, cuts) as proxy:
                    self.assertEqual(submit(self.top, proxy.port, client, "--export", export), (0, b""), seed)
                self.assertGreaterEqual(proxy.count, FIRST)
                cut += proxy.count
                with open(export, "rb") as text:
                    self.same(text.read(), rows)
        return cut


class AtRequests(WithSmallTree):
    def test_cut_at_each_request(self):
        """Before the service does what is asked, and in the middle of its reply."""
        places = [(lie, place) for lie in (closing, cutting) for place in range(1, self.REQUESTS + 1)]
        with Lying() as service:
            self.assertEqual(submit(self.top, service.port, 7, "--export", self.export), (0, b""))
        with ThreadPoolExecutor(SERVICES) as pool:
            self.assertEqual(set(pool.map(lambda place: self.text_after(*place), places)), {self.exported()})

    def text_after(self, lie, place):
        """Returns the export of a submission whose connection is cut once."""
        export = self.work + b"/%s%d.csv" % (lie.__name__.encode(), place)
        with Lying(at(place, lie)) as service:
            self.assertEqual(submit(self.top, service.port, 7, "--export", export), (0, b""), (lie, place))
            self.assertEqual(service.connections, 2, (lie, place))
        with open(export, "rb") as text:
            return text.read()


if __name__ == "__main__":
    unittest.main()
