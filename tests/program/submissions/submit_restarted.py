"""The service is started again while `submit` runs, and has lost everything. `submit` says so, or sends it all; in any
case the next run ends with the whole profile."""
import contextlib
import os
import unittest
from concurrent.futures import ThreadPoolExecutor

from lib.connections import connect, read_frame
from lib.frames import ADD_FILE, ADD_FOLDER, MADE, NODE, PART, create, cut, export
from lib.lying import Lying, at, restart, restart_for_another, truth
from lib.program import Serve
from lib.rows import COLUMNS
from lib.submissions import Relay, WithSmallTree, fault, submit
from lib.trees import walk

RESTARTED = "port %d: the service has lost what was sent, so it was restarted: run the same command again, it starts anew"
INCOMPLETE = "port %d: the service no longer has pieces that it took, so it was restarted: run the same command again"
OTHER = 9


class Restarted(WithSmallTree):
    def export_of(self, place):
        return self.work + b"/%d.csv" % place

    def text_of(self, place):
        with open(self.export_of(place), "rb") as text:
            return text.read()

    def ends_whole(self, port, place):
        """Submits, and checks that the profile is the tree then."""
        self.assertEqual(submit(self.top, port, 7, "--export", self.export_of(place)), (0, b""), place)
        self.has(self.text_of(place), walk(self.top)[0])

    def each(self, check):
        """Checks a restart at each request of a first submission."""
        with ThreadPoolExecutor(len(os.sched_getaffinity(0)) + 2) as pool:
            list(pool.map(check, range(1, self.REQUESTS + 1)))

    def test_at_each_request(self):
        """While the first file is under way, the new service gives the profile and the file the same numbers, so nothing
        is noticed on the new connection; then its Finish is Incomplete."""
        self.each(self.one_restart)

    def one_restart(self, place):
        numbers = []

        def noting(service, request):
            """Notes the numbers of nodes, and restarts once."""
            if len(service.frames) == place:
                return restart(service, request)
            reply = truth(service, request)
            if len(service.frames) < place:
                numbers.extend(found.body for found in cut(reply) if found.kind == NODE)
            return reply

        with Lying(noting) as service:
            ended = submit(self.top, service.port, 7, "--export", self.export_of(place))
            if len(numbers) > 1:
                self.assertEqual(ended, (4, fault("Restarted", RESTARTED % service.port)), place)
                # after the new connection nothing was sent but the two requests that are known
                self.assertLessEqual(len(service.frames), place + 2)
            elif ended != (0, b""):
                due = [fault("Restarted", RESTARTED % service.port), fault("Incomplete", INCOMPLETE % service.port)]
                self.assertIn(ended, [(4, err) for err in due], place)
            else:
                self.has(self.text_of(place), walk(self.top)[0])
            self.assertEqual(os.path.exists(self.export_of(place)), ended[0] != 4, place)
            service.lie = truth
            self.ends_whole(service.port, place)

    def test_a_lower_number(self):
        """A file of an earlier run has a lower number than what came before it in this one. The new service would give it
        that number again, so another request has to show that it is new."""
        with Lying() as service:
            self.ends_whole(service.port, 0)
            frames = list(service.frames)
        folder = next(one for one in frames if one.kind == ADD_FOLDER)
        last = next(one for one in frames if one.kind == ADD_FILE and one.body.endswith(b"z.bin"))

        def behind_the_last(service, request):
            """Restarts at the request behind that for the file of the earlier run."""
            if service.frames[-2:-1] != [last]:
                return truth(service, request)
            service.lie = truth
            return restart(service, request)

        with Lying(behind_the_last) as service:
            for one in (frames[0], last):
                truth(service, one)
            ended = submit(self.top, service.port, 7)
            self.assertEqual(ended, (4, fault("Restarted", RESTARTED % service.port)))
            self.assertEqual(service.frames[-2:], [frames[0], folder])
            self.ends_whole(service.port, 1)

    def test_for_another_client(self):
        """Meanwhile another client made a profile, which has the number that this client's profile had."""
        self.each(self.one_restart_for_another)

    def one_restart_for_another(self, place):
        with Lying(at(place, restart_for_another)) as service:
            ended = submit(self.top, service.port, 7)
            # without a profile there was nothing to lose
            due = (0, b"") if place == 1 else (4, fault("Restarted", RESTARTED % service.port))
            self.assertEqual(ended, due, place)
            if place > 1:
                # after the new connection nothing was sent but the request for the profile
                self.assertEqual(service.frames[place:], service.frames[:1], place)
            self.assertEqual(service.model.profiles[1].nodes, {}, place)
            self.ends_whole(service.port, place)
            self.assertEqual(sorted(service.model.profiles), [1, 2])
            self.assertEqual(service.model.profiles[1].nodes, {}, place)

    def test_killed_and_started_again(self):
        """The same with `serve`, which is killed."""
        for place in (1, 10, self.REQUESTS):
            for is_used in (False, True):
                with self.subTest(place=place, is_used=is_used):
                    self.killed_at(place, is_used)

    def killed_at(self, place, is_used):
        with contextlib.ExitStack() as services:
            first = services.enter_context(Serve.lasting())

            def before(relay, _frame, _stream):
                if len(relay.frames) != place:
                    return True
                first.process.kill()
                second = services.enter_context(Serve.lasting())
                if is_used:
                    self.exchange(second.port, create(1, OTHER), MADE)
                relay.to = second.port
                return False

            with Relay(first.port, before) as relay:
                status, err = submit(self.top, relay.port, 7)
                self.assertEqual((status, err), (0, b"") if place == 1 else (4, fault("Restarted", RESTARTED % relay.port)))
                self.ends_whole(relay.port, place)
            if is_used:
                # the other client's profile has no entries
                self.assertTrue(self.exchange(relay.to, export(2, OTHER), PART).endswith(COLUMNS))

    def exchange(self, port, request, kind):
        """Sends a request on a connection of its own, and returns the body of its reply, which has to be of this kind."""
        with connect(port) as stream:
            stream.sendall(request)
            found = read_frame(stream)
        self.assertEqual(found[0], kind)
        return found[3]


if __name__ == "__main__":
    unittest.main()
