"""Random parts of lines: names, sizes, contents, filters."""

SMALL_NAMES = "in out a b c message letters deposit maps note".split()
ENDINGS = ["", "", ".txt", ".TXT", ".msg", ".Msg", ".abc", ".alp", ".let", ".q", ".", ".tar.txt", ".none"]
ODD_NAMES = ['a "b" c%', "é", "-._~", "a,b", "..x", " ", "x ", "\t", "日本", "a\rb", "#?&=+", "\x7f", "C:\\d"]
BAD_NAMES = ["", ".", "..", "a/b", "/", "a\0b", "n" * 256]
CHUNKS = [b"message", b"abc", b"xyz", b"age d", b"a", b"b", b"d", b"cd", b"q", b"\0", b"\xff", b"dd"]
BAD_LINES = [
    b"", b" ", b"hello", b"1 1", b"1 1 create", b"1 1 create 1", b"1 1 create 1 2", b"1 1 create 1 0 ",
    b"1 -1 create 1 0", b"4294967296 1 create 1 0", b"1 18446744073709551616 create 1 0",
    b"1 1 folder 1 0 0", b"1 1 folder 1 0 +1 a", b"1 1 folder 1 0 0 \xff", b"1 1 file 1 0 0 0 1",
    b"1 1 piece 1 1 0 6", b"1 1 piece 1 1 0 zz", b"1 1 piece 1 1 0 ", b"1 1 finish 1", b"1 1 finish 1 1 1",
    b"1 1 status 1 1\r", b"1 1 export 1 0", b"1 1 export 1 0 1 some", b"1 1 export 1 0 1 all type=file",
    b"1 1 export 1 0 1 all  type=File", b"1 1 export 1 0 1 any atleast=",
    b"v2", b"v2 ", b"v2 1 1", b"v2  1 1 finish 1 1", b"v2 v2 1 1 finish 1 1", b"V2 1 1 finish 1 1", b"v1 1 1 finish 1 1",
    b"1 v2 1 finish 1 1", b"v2 1 1 create 1 0", b"v2 1 1 create 1 0 sha1", b"v2 1 1 create 1 0 ", b"1 1 create 1 0 md5",
]


class Words:
    def __init__(self, random):
        self.random = random

    def limit(self):
        ends = [0, 65537, 1, 65536, 65536, 65536]
        return self.random.choice(ends + [2, 3, 8, 9, 20, 40, self.random.randint(1, 65536)])

    def moment(self):
        ends = [-62135596800, 253402300799, -62135596801, 253402300800, -1, -86400, 951782400]
        chance = self.random.random()
        if chance < 0.5:
            return 0
        if chance < 0.55:
            return self.random.choice(ends)
        return self.random.randint(-62135596800, 253402300799)

    def name(self):
        chance = self.random.random()
        if chance < 0.04:
            return self.random.choice(BAD_NAMES).encode("utf-8")
        name = self.random.choice(SMALL_NAMES if chance < 0.8 else ODD_NAMES)
        if self.random.random() < 0.5:
            name += str(self.random.randint(1, 99))
        return (name + self.random.choice(ENDINGS)).encode("utf-8")

    def sizes(self):
        """Chooses the size of a file and of its pieces."""
        chance = self.random.random()
        if chance < 0.04:
            return self.random.choice(
                [
                    (5, 0), (5, (1 << 20) + 1), (5, 1 << 22), (5, (1 << 22) + 1), (5, (1 << 32) - 1),
                    ((1 << 40) + 1, 1 << 20), ((1 << 20) + 1, 1), ((1 << 64) - 1, 1 << 20),
                ]
            )
        if chance < 0.08:
            return self.random.choice([(1 << 40, 1 << 20), (1 << 20, 1), (100_000_000, 999)])
        if chance < 0.10:
            return self.random.randint(60_000, 150_000), self.random.randint(30_000, 70_000)
        if chance < 0.25:
            return self.random.randint(17, 40), self.random.randint(1, 2)
        return self.random.randint(0, 40), self.random.randint(4, 30)

    def content(self, size):
        """Returns the bytes of a file, or nothing if it is too large to be sent."""
        if size > 1 << 18:
            return None
        if self.random.random() < 0.4:
            return bytes(self.random.choices(b"abcd", k=size))
        content = b""
        while len(content) < size:
            content += self.random.choice(CHUNKS) * self.random.choice([1, 1, 1, max(size // 50, 1)])
        front = content[:size]
        if self.random.random() < 0.3:
            front = (b"abc" + front)[:max(size - 3, 0)] + b"xyz"
        return front[:size]

    def digits(self, content):
        digits = content.hex() or "-"
        return digits if self.random.random() < 0.8 else digits.upper()

    def export(self):
        """Chooses FROM, MAX and the filter."""
        start = self.random.choice([0, 0, 0, 1, 193, 500, 5000, (1 << 64) - 1])
        most = self.random.choice([1 << 20, 1 << 20, 100, 1000, 1, 0, (1 << 20) + 1])
        if self.random.random() < 0.3:
            return [start, most]
        criteria = [self.criterion() for _ in range(self.random.choice([0, 1, 1, 2, 3]))]
        return [start, most, self.random.choice(["all", "any"])] + criteria

    def criterion(self):
        formats = ",".join(self.random.choices(["dev/1", "dev/2", "dev/3", "dev/4", "r/1", "r/5", "", "x"], k=2))
        return self.random.choice(
            [
                "method=" + self.random.choice(["Signature", "Extension", "none"]),
                "puid=" + formats,
                "ext=" + ",".join(self.random.choices(["txt", "MSG", "abc", "", "q", "="], k=2)),
                "mismatch=" + self.random.choice(["true", "false"]),
                "atleast=" + str(self.random.randint(0, 40)),
                "atmost=" + str(self.random.randint(0, 40)),
                "type=" + self.random.choice(["File", "Folder"]),
            ]
        )

    def bad_line(self):
        return self.random.choice(BAD_LINES)
