"""A service that refuses a request, of each kind and for each reason. Some refusals skip a folder or file, one asks for
patience, and all others end the submission with a fault of their name."""
import os
import unittest
from concurrent.futures import ThreadPoolExecutor

from lib.frames import ABANDON, ADD_FILE, ADD_FOLDER, CAUSES, CREATE_PROFILE, EXPORT, NODES, PIECE, PROFILES, REFUSALS, UNFINISHED, numbers
from lib.lying import Lying, at, first_of, refusing, truth
from lib.program import Serve, send
from lib.submissions import WithSmallTree, fault, submit

# these skip a new folder or file, with what is printed
SKIPS = {
    "NumberReused": b"changed since it was submitted",
    "BadName": b"its name is too long or can't be in a profile",
    "PathTooLong": b"with DIR, its path has more than 4,095 bytes",
    "NameTaken": b"changed since it was submitted",
    "BadOption": b"its modification time is out of range",
    "TooLarge": b"it is too large",
    "Nodes": b"the profile has no place for more",
}
# the fields of refusals that have one
FIELDS = {"TooFarAhead": numbers(0), "Incomplete": numbers(0)}
LIMITS = {"Profiles": PROFILES, "Nodes": NODES, "Busy": UNFINISHED}
NAMES = [name for name in REFUSALS if name != "LimitReached"] + list(LIMITS)
# the second request is that for a.bin, whose two Finish are the third and the seventh
FIRST_FINISH, SECOND_FINISH = 3, 7


def refusal(name):
    """Refuses by the name that the fault has."""
    if name in LIMITS:
        return refusing(CAUSES["LimitReached"], LIMITS[name])
    return refusing(CAUSES[name], *FIELDS.get(name, b""))


class Refused(WithSmallTree):
    def ended(self, lie, *words, **more):
        """Submits to a service that tells this lie: the status and standard error."""
        with Lying(lie) as service:
            return submit(self.top, service.port, 7, "--wait", "0", *words, **more)

    def each(self, lies, due, **more):
        """Checks for each refusal how a submission ends that meets it."""
        with ThreadPoolExecutor(len(os.sched_getaffinity(0)) + 2) as pool:
            ended = list(pool.map(lambda name: self.ended(lies(name), **more), NAMES))
        for name, (status, err) in zip(NAMES, ended):
            with self.subTest(name=name):
                self.assertEqual((status, *err.split(b"\n")), due(name, err))

    @staticmethod
    def fault_of(name, err):
        """The fault of this name, and any sentence."""
        sentence = err.split(b"\n")[1]
        assert len(sentence) > 20, err
        return 4, b"fault: " + name.encode(), sentence, b""

    def skipped(self, path, reason):
        return 5, b"skipped: " + path + b": " + reason, b"skipped in all: 1", b""

    def test_profile(self):
        """(submit_begun has more on NumberReused)"""
        self.each(
            lambda name: first_of(CREATE_PROFILE, refusal(name), 100),
            lambda name, err: self.fault_of("Options" if name == "NumberReused" else name, err),
        )

    def test_folder(self):
        self.each(
            lambda name: first_of(ADD_FOLDER, refusal(name)),
            lambda name, err: self.skipped(b"/sub", SKIPS[name]) if name in SKIPS else self.fault_of(name, err),
        )

    def test_file(self):
        self.each(
            lambda name: first_of(ADD_FILE, refusal(name)),
            lambda name, err: self.skipped(b"/a.bin", SKIPS[name]) if name in SKIPS else self.fault_of(name, err),
        )

    def test_piece(self):
        """NumberReused means that the service has other bytes there. The file is abandoned, and the rest is sent."""
        for count in (1, 2, 3):
            self.each(
                lambda name, count=count: first_of(PIECE, refusal(name), count),
                lambda name, err: self.skipped(b"/a.bin", SKIPS[name]) if name == "NumberReused" else self.fault_of(name, err),
            )

    def test_abandoned_after_a_piece(self):
        with Lying(first_of(PIECE, refusal("NumberReused"))) as service:
            submit(self.top, service.port, 7)
            kinds = [frame.kind for frame in service.frames]
            # the other replies are read, so that each further request gets its own on this connection
            self.assertEqual(service.connections, 1)
            self.assertEqual(sorted(node.name for node in service.model.profiles[1].nodes.values()), [b"b.txt", b"sub", b"z.bin"])
        self.assertEqual(kinds.count(ABANDON), 1)

    def test_first_finish(self):
        """Incomplete is the usual reply. Of a file that is gone, another is added; that the first is there is a lie."""

        def due(name, err):
            if name == "Incomplete":
                return 0, b""
            return self.skipped(b"/a.bin", SKIPS["NameTaken"]) if name == "NoSuchNode" else self.fault_of(name, err)

        self.each(lambda name: at(FIRST_FINISH, refusal(name)), due)

    def test_second_finish(self):
        self.each(lambda name: at(SECOND_FINISH, refusal(name)), lambda name, err: self.fault_of(name, err))

    def test_abandon(self):
        """Of a file that can't be read. What is abandoned or finished may stay so."""
        failing = os.environ | {"LD_PRELOAD": os.environ["PRELOAD_READS"], "PREAD_FAILS": "1"}
        unread = self.skipped(b"/a.bin", b"it could not be opened or read")
        self.each(
            lambda name: first_of(ABANDON, refusal(name)),
            lambda name, err: unread if name in ("NoSuchNode", "AlreadyFinished") else self.fault_of(name, err),
            env=failing,
        )

    def test_export(self):
        self.each(lambda name: first_of(EXPORT, refusal(name)), lambda name, err: self.fault_of(name, err))

    def test_nothing_is_sent_after_a_fault(self):
        """After a fault at a request that is waited for, the service gets no other one."""
        for place, name in ((1, "Store"), (2, "NoSuchProfile"), (3, "NotAFile"), (7, "Incomplete"), (8, "NotAFolder")):
            with Lying(at(place, refusal(name))) as service:
                self.assertEqual(submit(self.top, service.port, 7, "--export", self.export)[0], 4)
                self.assertEqual(len(service.frames), place)
                self.assertFalse(os.path.exists(self.export))
                # the same command ends whole, once the service tells the truth
                service.lie = truth
                self.assertEqual(submit(self.top, service.port, 7), (0, b""))

    def test_no_more_profiles(self):
        """By `serve`."""
        with Serve.lasting() as service:
            for client in range(100, 164):
                self.assertEqual(send(service.port, client, b"create 65536 0\n")[0], 0)
            ended = submit(self.top, service.port, 7)
            sentence = "port %d: the service has 64 profiles and takes no more: start another service on another port" % service.port
        self.assertEqual(ended, (4, fault("Profiles", sentence)))


if __name__ == "__main__":
    unittest.main()
