"""The service: it keeps accepted requests, and answers each request."""

from hashlib import md5, sha256

from export import export_text
from found import find
from lines import KINDS

MOST_PROFILES, MOST_NODES, MOST_UNFINISHED = 64, 100_000, 64
LARGEST_PIECES = {1: 1 << 20, 2: 1 << 22}
MOST_PIECES = 1 << 20
LARGEST_SIZE = 1 << 40
AHEAD = 16
DIGESTS = {
    "none": lambda content: "",
    "md5": lambda content: md5(content).hexdigest(),
    "sha256": lambda content: sha256(content).hexdigest(),
}
EARLIEST, LATEST = -62135596800, 253402300799


class Refused(Exception):
    """A refusal: its number and its fields."""


class Node:
    def __init__(self, number, request, path):
        self.number = number
        self.parent = request["parent"]
        self.modified = request["modified"]
        self.name = request["name"]
        self.path = path
        self.is_file = request["kind"] == "file"
        self.size = request.get("size", 0)
        self.piece_size = request.get("piece_size", 0)
        self.pieces = {}
        self.is_done = not self.is_file
        self.method, self.mismatch, self.formats, self.digest = "", False, [], ""

    def count(self):
        """Returns the number of the file's pieces."""
        return -(-self.size // self.piece_size)

    def due(self, index):
        """Returns the length that the piece has to have."""
        return min(self.piece_size, self.size - index * self.piece_size)

    def missing(self):
        """Returns the first missing piece."""
        index = 0
        while index in self.pieces:
            index += 1
        return index

    def content(self):
        return b"".join(self.pieces[index] for index in range(self.count()))


class Profile:
    def __init__(self, limit, match_all, hash):
        self.limit = limit
        self.match_all = match_all
        self.hash = hash
        self.accepted = 0
        self.nodes = {}
        self.names = {}

    def node(self, number):
        if number not in self.nodes:
            raise Refused(4)
        return self.nodes[number]

    def add(self, node):
        self.accepted += 1
        self.nodes[node.number] = node
        self.names[node.parent, node.name] = node

    def remove(self, node):
        del self.nodes[node.number]
        del self.names[node.parent, node.name]


class Service:
    def __init__(self, registry):
        self.registry = registry
        self.profiles = {}
        self.kept = {}

    def reply(self, request):
        """Returns the printed reply to a request."""
        if request["number"] >= 1 << 63:
            return refusal(1)
        key = request["client"], request["number"]
        mark = request["version"], md5(bytes([KINDS[request["kind"]]]) + request["body"]).digest()
        if key in self.kept:
            return self.kept[key][1] if self.kept[key][0] == mark else refusal(2)
        try:
            reply = getattr(self, request["kind"])(request)
        except Refused as refused:
            return refusal(*refused.args)
        if request["kind"] not in ("status", "export"):
            self.kept[key] = mark, reply
        return reply

    def create(self, request):
        check(1 <= request["limit"] <= 65536, 10)
        check(len(self.profiles) < MOST_PROFILES, 17, "profiles")
        number = len(self.profiles) + 1
        self.profiles[number] = Profile(request["limit"], request["match_all"], request["hash"])
        return line("made", number)

    def folder(self, request):
        profile, path = self.place(request)
        check(EARLIEST <= request["modified"] <= LATEST, 10)
        return self.add(profile, request, path)

    def file(self, request):
        profile, path = self.place(request)
        size, piece_size = request["size"], request["piece_size"]
        check(EARLIEST <= request["modified"] <= LATEST, 10)
        check(1 <= piece_size <= LARGEST_PIECES[request["version"]], 10)
        check(size <= LARGEST_SIZE and -(-size // piece_size) <= MOST_PIECES, 11)
        return self.add(profile, request, path)

    def place(self, request):
        """Returns the profile, and the path of the new node."""
        profile = self.profile(request)
        parent = request["parent"]
        above = b""
        if parent:
            node = profile.node(parent)
            check(not node.is_file, 5)
            above = node.path
        name = request["name"]
        check(0 < len(name) <= 255 and name not in (b".", b".."), 7)
        check(b"/" not in name and b"\0" not in name, 7)
        path = above + b"/" + name
        check(len(path) <= 4096, 8)
        check((parent, name) not in profile.names, 9)
        return profile, path

    def add(self, profile, request, path):
        check(profile.accepted < MOST_NODES, 17, "nodes")
        if request["kind"] == "file":
            check(self.unfinished() < MOST_UNFINISHED, 17, "unfinished")
        node = Node(profile.accepted + 1, request, path)
        profile.add(node)
        return line("node", node.number)

    def unfinished(self):
        return sum(not node.is_done for profile in self.profiles.values() for node in profile.nodes.values())

    def profile(self, request):
        if request["profile"] not in self.profiles:
            raise Refused(3)
        return self.profiles[request["profile"]]

    def file_of(self, request):
        node = self.profile(request).node(request["file"])
        check(node.is_file, 6)
        return node

    def unfinished_of(self, request):
        node = self.file_of(request)
        check(not node.is_done, 12)
        return node

    def piece(self, request):
        node = self.unfinished_of(request)
        index, content = request["index"], request["bytes"]
        check(index < node.count() and len(content) == node.due(index), 13)
        check(index not in node.pieces, 14)
        check(index < node.missing() + AHEAD, 15, node.missing())
        node.pieces[index] = content
        return line("taken", len(node.pieces))

    def finish(self, request):
        node = self.unfinished_of(request)
        profile = self.profile(request)
        check(request["version"] == 2 or profile.hash == "md5", 10)
        check(len(node.pieces) == node.count(), 16, node.missing())
        content = node.content()
        found = find(self.registry, node.name, content, profile.limit, profile.match_all)
        node.method, node.formats, node.mismatch = found
        node.digest = DIGESTS[profile.hash](content)
        node.is_done = True
        puids = b",".join(form.puid for form in node.formats).decode("ascii")
        mismatch = "true" if node.mismatch else "false"
        return line("finished", node.method or "none", mismatch, node.digest or "-", puids or "-")

    def abandon(self, request):
        node = self.unfinished_of(request)
        self.profile(request).remove(node)
        return line("abandoned")

    def status(self, request):
        node = self.file_of(request)
        return line("progress", len(node.pieces), node.missing())

    def export(self, request):
        profile = self.profile(request)
        check(1 <= request["max"] <= 1 << 20, 10)
        nodes = [node for node in profile.nodes.values() if node.is_done]
        text = export_text(nodes, request["all"], request["criteria"], profile.hash)
        part = text[request["from"]:request["from"] + request["max"]]
        return line("part", len(self.kept), len(text), len(part)) + part


def check(holds, *refused):
    if not holds:
        raise Refused(*refused)


def refusal(number, *fields):
    return line("refused", number, *fields)


def line(*words):
    return " ".join(str(word) for word in words).encode("ascii") + b"\n"
