"""A service in this process, which answers by the model (tests/program/model) and lies where a test says so. It needs
the folders tests/program/model and tests/program/wire on Python's path."""
import struct

from lib.connections import Listening, read_frame
from lib.frames import CAUSES, EXPORT, FINISH, FINISHED, MD5, NO_HASH, PART, REFUSED, Frame, cut, frame
from model_frames import reply_to, service_of_the_sample
from service import Service

REGISTRY = service_of_the_sample().registry
# the MD5 of no bytes
EMPTY_MD5 = bytes.fromhex("d41d8cd98f00b204e9800998ecf8427e")


class Close(Exception):
    """Ends the connection. The bytes are sent before."""


class Mute(Exception):
    """Sends nothing more on this connection."""


class Lying(Listening):
    """Serves one connection after the other. `lie` is called with this service and each request, and returns the bytes to
    send, or raises Close or Mute. `frames` has all requests that came."""

    def __init__(self, lie=None):
        super().__init__()
        self.lie = lie or truth
        self.frames = []
        self.connections = 0
        self.forget()

    def forget(self):
        """Loses all that the service has, as when it is started again."""
        self.model = Service(REGISTRY)

    def take(self, stream):
        self.connections += 1
        self.serve(stream)

    def serve(self, stream):
        try:
            while found := read_frame(stream, 2):
                self.frames.append(Frame(2, *found))
                stream.sendall(self.lie(self, self.frames[-1]))
        except Close as close:
            stream.sendall(b"".join(close.args))
        except Mute:
            stream.makefile("rb").read()
        except OSError:
            # the client is gone
            return


# ---- lies: what is sent for a request

def truth(service, request):
    """Sends the right reply."""
    return reply_to(service.model, *request)


def silence(_service, _request):
    """Sends nothing, on this connection."""
    raise Mute


def closing(_service, _request):
    """Closes the connection in the place of a reply."""
    raise Close


def cutting(service, request):
    """Does what is asked, and closes the connection in the middle of the reply."""
    raise Close(truth(service, request)[:-1])


def restart(service, _request):
    """Loses everything, and closes the connection."""
    service.forget()
    raise Close


def restart_for_another(service, request):
    """As `restart`; then another client makes the first profile."""
    service.forget()
    service.model.profiles[1] = make_profile()
    return closing(service, request)


def make_profile():
    """Makes a profile of the model without folders and files."""
    model = Service(REGISTRY)
    model.create({"limit": 65_536, "match_all": False, "hash": "md5"})
    return model.profiles[1]


def refusing(cause, *fields):
    """Refuses, with the bytes of the refusal's field behind its number."""
    return lambda _, request: frame(REFUSED, request.client, request.number, bytes([cause, *fields]), 2)


def replying(kind, body=b""):
    """Sends this reply."""
    return lambda _, request: frame(kind, request.client, request.number, body, 2)


def other_hash(service, request):
    """Sends the right reply; if that is Finished with a hash, with one whose first bit is another."""
    reply = truth(service, request)
    [found] = cut(reply)
    if found.kind != FINISHED or found.body[2] == NO_HASH:
        return reply
    changed = found.body[:3] + bytes([found.body[3] ^ 128]) + found.body[4:]
    return frame(FINISHED, request.client, request.number, changed, 2)


def finished_at_once(service, request):
    """Says of a file that it is finished, though no piece of it came."""
    reply = truth(service, request)
    [found] = cut(reply)
    if (request.kind, found.kind, found.body[:1]) != (FINISH, REFUSED, bytes([CAUSES["Incomplete"]])):
        return reply
    body = bytes([0, 0, MD5]) + EMPTY_MD5 + b"\0\0"
    return frame(FINISHED, request.client, request.number, body, 2)


def exporting(change):
    """Sends the export's text as `change` makes it."""

    def lie(service, request):
        if request.kind != EXPORT:
            return truth(service, request)
        start, most = struct.unpack_from(">QI", request.body, 4)
        text = change(whole_export(service, request))
        body = struct.pack(">QQ", len(service.model.kept), len(text)) + text[start : start + most]
        return frame(PART, request.client, request.number, body, 2)

    return lie


def whole_export(service, request):
    """Returns the right text of the profile of an export."""
    asked = request.body[:4] + struct.pack(">Q", 0) + request.body[12:]
    [found] = cut(truth(service, request._replace(body=asked)))
    return found.body[16:]


# ---- when a lie is told

def at(place, lie):
    """Tells a lie at the request of this place in `frames`, counted from 1, and the truth otherwise."""
    return lambda service, request: (lie if len(service.frames) == place else truth)(service, request)


def first_of(kind, lie, count=1):
    """Tells a lie at the first `count` requests of a kind, and the truth otherwise."""

    def told(service, request):
        number = sum(frame.kind == kind for frame in service.frames)
        return (lie if request.kind == kind and number <= count else truth)(service, request)

    return told
