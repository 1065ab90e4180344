"""How long `submit` waits: for a service that is not there yet, for a connection, for a reply, and for a place for an
unfinished file."""
import subprocess
import time
import unittest
from concurrent.futures import ThreadPoolExecutor

from lib.connections import SECONDS, connect, free_port, listen, read_frame
from lib.frames import ADD_FILE, CAUSES, CREATE_PROFILE, FINISHED, NODE, TAKEN, UNFINISHED, create, file, finish, piece
from lib.lying import Lying, at, closing, first_of, refusing, silence
from lib.program import Serve
from lib.submissions import Relay, WithSmallTree, fault, submit, words_of
from lib.trees import walk

SOCKET = "nobody listens on port %d: start droid_desk serve --port %d first, or wait longer by --wait"
BROKEN = "port %d: the connection broke and could not be made again within %d seconds: run the same command again to resume"
BUSY = "port %d: 64 files are unfinished there, and no place came free within %d seconds: finish or abandon some, or wait longer by --wait"
WAITING = b"waiting: nobody listens on port %d yet\n"
OTHER = 9
# far less than the 60 seconds that are waited by default
LONG = 20


class Waits(WithSmallTree):
    def timed(self, port, *words, **more):
        """Runs `submit`: its status, its standard error, and the seconds that it took."""
        begun = time.monotonic()
        status, err = submit(self.top, port, 7, *words, **more)
        return (status, err), time.monotonic() - begun

    def ends_whole(self, port, *words):
        self.assertEqual(submit(self.top, port, 7, "--export", self.export, *words), (0, b""))
        self.same(self.exported(), walk(self.top)[0])


class Connections(Waits):
    def test_nobody_listens(self):
        port = free_port()
        ended, seconds = self.timed(port, "--wait", "0")
        self.assertEqual(ended, (4, fault("Socket", SOCKET % (port, port))))
        self.assertLess(seconds, LONG)
        ended, seconds = self.timed(port, "--wait", "1", quiet=False)
        # that is said once, and there is nothing to sum up
        self.assertEqual(ended, (4, WAITING % port + fault("Socket", SOCKET % (port, port))))
        self.assertTrue(0.9 < seconds < LONG, seconds)

    def test_started_late(self):
        """One run says that it waits, one that is quiet does not."""
        port = free_port()
        with subprocess.Popen(words_of(self.top, port, 8, quiet=False), stdout=subprocess.PIPE, stderr=subprocess.PIPE) as loud:
            self.assertEqual(loud.stderr.readline(), WAITING % port)
            with ThreadPoolExecutor(1) as pool:
                quiet = pool.submit(submit, self.top, port, 7)
                time.sleep(0.3)
                with Serve(port=port, connections=1_000, killed=True):
                    self.assertEqual(quiet.result(), (0, b""))
                    out, err = loud.communicate(timeout=SECONDS)
        self.assertEqual(loud.returncode, 0)
        self.assertTrue(out.startswith(b"profile "), out)
        self.assertNotIn(b"waiting", err)

    def test_closed_at_once(self):
        """Between two tries it pauses, longer each time: 0.05, 0.1, 0.2, 0.4 and 0.8 seconds make six tries."""
        with Lying(closing) as service:
            ended, seconds = self.timed(service.port, "--wait", "1")
        self.assertEqual(ended, (4, fault("Broken", BROKEN % (service.port, 1))))
        self.assertEqual(service.connections, 6)
        # each gets one request, that for the profile
        self.assertEqual((len(service.frames), len(set(service.frames)), service.frames[0].kind), (6, 1, CREATE_PROFILE))
        self.assertTrue(1.5 < seconds < LONG, seconds)

    def test_goes_away(self):
        """The service ends in the middle of a submission, and a new one is not started in time."""

        def leave(service, request):
            service.stop()
            return closing(service, request)

        with Lying(at(10, leave)) as service:
            ended, seconds = self.timed(service.port, "--wait", "1", "--skipped", self.export)
        self.assertEqual(ended, (4, fault("Broken", BROKEN % (service.port, 1))))
        self.assertTrue(0.9 < seconds < LONG, seconds)
        self.assertEqual(self.beside(), [])


class Replies(Waits):
    def test_no_reply(self):
        """A port that takes connections and never replies."""
        with listen() as silent:
            port = silent.getsockname()[1]
            ended, seconds = self.timed(port, "--timeout", "1", "--wait", "0")
        self.assertEqual(ended, (4, fault("Broken", BROKEN % (port, 0))))
        self.assertTrue(0.9 < seconds < LONG, seconds)

    def test_one_reply_missing(self):
        """At some requests, one of each kind, the first reply does not come: the request is sent again."""
        with ThreadPoolExecutor(8) as pool:
            list(pool.map(self.one_missing, (1, 2, 3, 5, 7, 8, self.REQUESTS)))

    def one_missing(self, place):
        with Lying(at(place, silence)) as service:
            ended, seconds = self.timed(service.port, "--timeout", "1")
            self.assertEqual(ended, (0, b""), place)
            self.assertEqual(service.connections, 2, place)
        self.assertTrue(0.9 < seconds < LONG, seconds)


class Places(Waits):
    def test_refused_some_times(self):
        """The same request is sent again, until there is a place."""
        for times in (1, 3):
            with Lying(first_of(ADD_FILE, refusing(CAUSES["LimitReached"], UNFINISHED), times)) as service:
                self.ends_whole(service.port)
                added = [frame for frame in service.frames if frame.kind == ADD_FILE and frame.body.endswith(b"a.bin")]
                self.assertEqual((len(added), len(set(added))), (times + 1, 1))

    def test_no_place(self):
        """64 files of another client are unfinished."""
        with Serve.lasting() as service:
            with connect(service.port) as other:
                self.fill(other)
            begun = submit(self.top, service.port, 7, "--wait", "0")
            ended, seconds = self.timed(service.port, "--wait", "1")
            self.assertEqual(begun, (4, fault("Busy", BUSY % (service.port, 0))))
            self.assertEqual(ended, (4, fault("Busy", BUSY % (service.port, 1))))
            self.assertTrue(0.9 < seconds < LONG, seconds)
            with connect(service.port) as other:
                self.finish_one(other)
            self.ends_whole(service.port)

    def test_a_place_comes_free(self):
        """The other client finishes a file when it is asked for a place for the third time."""

        def before(relay, frame, stream):
            if sum(earlier.kind == ADD_FILE for earlier in relay.frames) == 3 and frame.kind == ADD_FILE:
                self.finish_one(stream)

        with Serve.lasting() as service, Relay(service.port, before) as relay:
            with connect(service.port) as other:
                self.fill(other)
            self.ends_whole(relay.port, "--wait", "20")

    def test_freed_over_another_connection(self):
        """`serve` serves one connection at a time. While it waits for a place, `submit` gives its own up."""
        with Serve.lasting() as service:
            with connect(service.port) as other:
                self.fill(other)
            with ThreadPoolExecutor(1) as pool:
                waiting = pool.submit(submit, self.top, service.port, 7, "--wait", "20")
                time.sleep(0.5)
                with connect(service.port) as other:
                    self.finish_one(other)
                self.assertEqual(waiting.result(), (0, b""))

    @staticmethod
    def fill(stream):
        """Begins 64 files of another client, of one byte each."""
        stream.sendall(create(1, OTHER) + b"".join(file(2 + place, b"%d" % place, 1, 1, OTHER) for place in range(64)))
        read_frame(stream)
        assert {read_frame(stream)[0] for _ in range(64)} == {NODE}

    @staticmethod
    def finish_one(stream):
        """Sends the one piece of the other client's first file, and finishes it."""
        stream.sendall(piece(100, 1, 0, b"x", client=OTHER) + finish(101, 1, client=OTHER))
        assert [read_frame(stream)[0] for _ in range(2)] == [TAKEN, FINISHED]


if __name__ == "__main__":
    unittest.main()
