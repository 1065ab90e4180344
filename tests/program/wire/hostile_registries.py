"""The sample registry with each of its bytes replaced, and each front of it. The program has to agree with the model
(../model): the same fault, or the same formats of some files."""

import os
import tempfile
import unittest
from concurrent.futures import ThreadPoolExecutor

from lib.program import SAMPLE, run
from lines import request_of
from registry import Registry, RegistryFault
from service import Service

with open(SAMPLE, "rb") as file:
    TEXT = file.read()

# files by each signature, by each extension, and by none
CONTENTS = [(b"message.txt", b"message"), (b"a.abc", b"abc..xyz"), (b"b.alp", b"abcd"), (b"c.let", b"b.d")]
CONTENTS += [(b"d.msg", b"plain"), (b"e.TXT", b""), (b"f.let", b"c...e"), (b"g", b"Message")]


def requests():
    """Yields the lines that make a profile with each of the files whole."""
    yield b"1 1 create 65536 1"
    for node, (name, content) in enumerate(CONTENTS, 1):
        yield b"1 %d file 1 0 0 %d 65536 %s" % (10 * node, len(content), name)
        if content:
            yield b"1 %d piece 1 %d 0 %s" % (10 * node + 1, node, content.hex().encode("ascii"))
        yield b"1 %d finish 1 %d" % (10 * node + 2, node)


LINES = list(requests())
SCRIPT = b"\n".join(LINES)


def due(text):
    """Returns how the model ends over this registry: its status, its output and its standard error."""
    try:
        service = Service(Registry(text))
    except RegistryFault as fault:
        return 3, b"", f"fault: {fault}\n"
    return 0, b"".join(service.reply(request_of(line)) for line in LINES), ""


def hostile_texts():
    for end in range(len(TEXT) + 1):
        yield TEXT[:end]
    for place in range(len(TEXT)):
        for byte in b"\x00\x22\x2c\xff":
            yield TEXT[:place] + bytes([byte]) + TEXT[place + 1 :]


class HostileRegistries(unittest.TestCase):
    def test_the_script_meets_each_format(self):
        """So its output depends on the registry."""
        printed = due(TEXT)[1]
        for puid in (b"dev/1", b"dev/2", b"dev/3", b"dev/4"):
            self.assertIn(b" " + puid + b"\n", printed)

    def test_each_byte_replaced_and_each_front(self):
        texts = list(hostile_texts())
        with tempfile.TemporaryDirectory() as folder, ThreadPoolExecutor(os.cpu_count()) as pool:
            wrong = [text for text, is_right in zip(texts, pool.map(self.is_right, self.paths(folder, texts), texts)) if not is_right]
        self.assertEqual(wrong, [])

    @staticmethod
    def paths(folder, texts):
        """Writes each text to a file, and yields its path."""
        for number, text in enumerate(texts):
            path = os.path.join(folder, f"{number}.csv")
            with open(path, "wb") as file:
                file.write(text)
            yield path

    @staticmethod
    def is_right(path, text):
        return run(["script", "--registry", path], SCRIPT) == due(text)


if __name__ == "__main__":
    unittest.main()
