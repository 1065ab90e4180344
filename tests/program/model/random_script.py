#!/usr/bin/env -S python3 -S -B
"""Writes a script of requests of all kinds: `random_script.py SEED COUNT REGISTRY VERSIONS ORDER`, where VERSIONS is
`first` or `both`, and ORDER is `steady` or `jumbled`.

Each line is random; the model's service is asked first, so that most requests are accepted and
each refusal comes somewhere. Lines are repeated, also in the other version, and numbers come with other requests. In
a jumbled script requests overtake one another on their way, and arrive more than once.
"""

import sys
from random import Random

from lines import BadLine, request_of
from random_words import Words
from registry import Registry
from service import Service

WEIGHTS = {
    "create": 2, "folder": 6, "deeper": 1, "file": 14, "piece": 42, "finish": 10, "abandon": 2,
    "status": 4, "export": 2, "repeat": 13, "reused": 4, "malformed": 0.5, "bad": 0.7,
}
# of scripts in both versions
ONE_MORE = {"in_the_other_version": 3}
SECOND = b"v2 "
HASHES = ["none", "md5", "md5", "sha256"]


class Story:
    def __init__(self, seed, registry, is_first_alone, most_waiting):
        self.is_first_alone = is_first_alone
        self.weights = WEIGHTS if is_first_alone else WEIGHTS | ONE_MORE
        self.most_waiting = most_waiting
        self.waiting = []
        self.random = Random(seed)
        self.words = Words(self.random)
        self.service = Service(registry)
        self.lines = []
        self.numbers = {client: 0 for client in (0, 1, 2, 7, 4294967295)}
        self.contents = {}

    def add(self):
        """Sends some request, and lets requests arrive while too many are under way."""
        action = self.random.choices(list(self.weights), list(self.weights.values()))[0]
        self.waiting.append(getattr(self, action)())
        while len(self.waiting) > self.most_waiting:
            line = self.waiting.pop(self.random.randrange(len(self.waiting)))
            self.arrive(line)
            if self.most_waiting and self.random.random() < 0.15:
                self.waiting.append(line)

    def arrive(self, line):
        self.lines.append(line)
        try:
            request = request_of(line)
        except BadLine:
            return
        reply = self.service.reply(request)
        if request["kind"] == "file" and reply.startswith(b"node"):
            place = request["profile"], int(reply.split()[1])
            self.contents.setdefault(place, self.words.content(request["size"]))

    def asked(self, *words, version=None):
        """Returns the line of a request under the next number of some client, in this version or in any."""
        client = self.random.choice(list(self.numbers))
        self.numbers[client] += 1
        mark = SECOND if (version or self.version()) == 2 else b""
        head = mark + f"{client} {self.numbers[client]} ".encode("ascii")
        return head + b" ".join(word if isinstance(word, bytes) else str(word).encode("ascii") for word in words)

    def version(self):
        return 1 if self.is_first_alone else self.random.choice([1, 1, 2])

    def profile(self):
        made = len(self.service.profiles)
        if self.random.random() < 0.03:
            return self.random.choice([0, made + 1, 4294967295])
        return 1 + int(made * self.random.random() ** 3)

    def nodes(self, is_chosen):
        """Returns the chosen nodes, each with the number of its profile."""
        return [
            (number, node)
            for number, profile in self.service.profiles.items()
            for node in profile.nodes.values()
            if is_chosen(node)
        ]

    def parent(self, profile):
        found = self.service.profiles.get(profile)
        nodes = list(found.nodes.values()) if found else []
        chance = self.random.random()
        if chance < 0.5 or not nodes:
            return 0
        if chance < 0.53:
            return self.random.choice([found.accepted + 1, 4294967295])
        folders = [node for node in nodes if not node.is_file] or nodes
        return self.random.choice(folders if chance < 0.96 else nodes).number

    def create(self):
        options = "create", self.words.limit(), self.random.randint(0, 1)
        if self.is_first_alone or self.random.random() < 0.4:
            return self.asked(*options, version=1)
        return self.asked(*options, self.random.choice(HASHES), version=2)

    def folder(self):
        profile = self.profile()
        return self.asked("folder", profile, self.parent(profile), self.words.moment(), self.words.name())

    def deeper(self):
        """Adds a folder with a long name to the folder with the longest path, until that is too long."""
        folders = [node for number, node in self.nodes(lambda node: not node.is_file) if number == 1]
        parent = max(folders, key=lambda node: len(node.path)).number if folders else 0
        return self.asked("folder", 1, parent, 0, b"n" * self.random.randint(200, 255))

    def file(self):
        profile = self.profile()
        size, piece_size = self.words.sizes()
        parent = self.parent(profile)
        return self.asked("file", profile, parent, self.words.moment(), size, piece_size, self.words.name())

    def piece(self):
        files = self.nodes(lambda node: not node.is_done)
        filled = [found for found in files if self.contents[found[0], found[1].number] is not None]
        if self.random.random() < 0.03 or not files:
            return self.asked("piece", *self.some_file(), self.random.randint(0, 3), self.words.digits(b"ab"))
        if self.random.random() < 0.05 or not filled:
            profile, node = self.random.choice(files)
            return self.asked("piece", profile, node.number, self.random.choice([0, 16, 4294967295]), "-")
        profile, node = self.random.choice(filled[:12])
        index = self.index(node)
        start = index * node.piece_size
        content = self.contents[profile, node.number][start:start + node.piece_size]
        if self.random.random() < 0.04:
            content = self.random.choice([content[1:], content + b"a", b""])
        return self.asked("piece", profile, node.number, index, self.words.digits(content))

    def index(self, node):
        chance = self.random.random()
        near = [n for n in range(node.missing(), node.missing() + 16) if n < node.count() and n not in node.pieces]
        if chance < 0.88 and near:
            return self.random.choice(near[:self.random.choice([1, 4, 16])])
        if chance < 0.92 and node.pieces:
            return self.random.choice(list(node.pieces))
        if chance < 0.98:
            return min(node.missing() + 16 + self.random.randint(0, 5), max(node.count() - 1, 0))
        return node.count() + self.random.randint(0, 2)

    def some_file(self):
        """Chooses a profile and a node of any kind, or one that isn't there."""
        nodes = self.nodes(lambda node: True)
        if self.random.random() < 0.2 or not nodes:
            profile = self.profile()
            return profile, self.random.choice([0, 1, 2, 3, 99999])
        profile, node = self.random.choice(nodes)
        return profile, node.number

    def finish(self):
        whole = self.nodes(lambda node: not node.is_done and len(node.pieces) == node.count())
        if whole and self.random.random() < 0.8:
            profile, node = self.random.choice(whole)
            return self.asked("finish", profile, node.number)
        return self.asked("finish", *self.unfinished_or_other())

    def unfinished_or_other(self):
        files = self.nodes(lambda node: not node.is_done)
        if not files or self.random.random() < 0.4:
            return self.some_file()
        profile, node = self.random.choice(files)
        return profile, node.number

    def abandon(self):
        return self.asked("abandon", *self.unfinished_or_other())

    def status(self):
        return self.asked("status", *self.unfinished_or_other())

    def export(self):
        profile = self.random.choice([1, 2, self.profile(), self.profile()])
        return self.asked("export", profile, *self.words.export())

    def repeat(self):
        if not self.lines or self.random.random() < 0.3:
            return self.random.choice(self.lines or [b"1 1 create 65536 0"])
        return self.random.choice(self.lines[-30:])

    def reused(self):
        """Makes another request under the number of an earlier one."""
        line = self.repeat()
        other = self.random.choice([self.create, self.folder, self.piece, self.finish, self.status, self.export])()
        return with_ends(other, *ends_of(line))

    def in_the_other_version(self):
        """Repeats an earlier request under its number in the other version."""
        mark, words = cut(self.repeat())
        if words[2:3] == [b"create"]:
            words = words[:5] + ([] if mark else [self.random.choice(HASHES).encode("ascii")])
        return (b"" if mark else SECOND) + b" ".join(words)

    def malformed(self):
        line = self.create()
        number = self.random.choice([1 << 63, (1 << 64) - 1])
        return with_ends(line, ends_of(line)[0], str(number).encode("ascii"))

    def bad(self):
        return self.words.bad_line()


def cut(line):
    """Returns the mark of the version before a line, and its words."""
    mark = SECOND if line.startswith(SECOND) else b""
    return mark, line[len(mark):].split(b" ")


def ends_of(line):
    """Returns the client and the number of a line."""
    return cut(line)[1][:2]


def with_ends(line, *ends):
    """Returns the line with another client and number."""
    mark, words = cut(line)
    return mark + b" ".join([*ends, *words[2:]])


def main(seed, count, registry, versions, order):
    with open(registry, "rb") as file:
        story = Story(int(seed), Registry(file.read()), versions == "first", 8 if order == "jumbled" else 0)
    while len(story.lines) < int(count):
        story.add()
    sys.stdout.buffer.write(b"".join(line + b"\n" for line in story.lines))


main(*sys.argv[1:])
