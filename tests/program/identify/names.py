"""Which files are identified: lists, standard input, folders, links, and what can't be read."""

import os
import socket
import subprocess
import tempfile
import unittest

from asking import identify, json_lines, write
from lib.program import PROGRAM

GIF = b"GIF87a"


def paths_of(out):
    return [line["path"] for line in json_lines(out)]


class Names(unittest.TestCase):
    def setUp(self):
        made = tempfile.TemporaryDirectory()
        self.addCleanup(made.cleanup)
        self.folder = made.name
        self.gif = self.made("a.gif", GIF)

    def made(self, name, content=b""):
        return write(os.path.join(self.folder, name), content)

    def test_lists(self):
        other = self.made("b", b"")
        for separator, options in ((b"\n", []), (b"\0", ["-0"]), (b"\0", ["--null"])):
            for last in (b"", separator):
                text = separator.join([self.gif.encode(), other.encode()]) + last
                for source, words in ((text, ["-"]), (None, [self.made("list", text)])):
                    out, err, status = identify("--json", *options, "--files-from", *words, input=source)
                    self.assertEqual((paths_of(out), err, status), ([self.gif, other], b"", 0))

    def test_a_list_behind_files(self):
        out, _, _ = identify("--json", "--files-from", "-", self.gif, input=self.made("b").encode())
        self.assertEqual(paths_of(out), [self.gif, os.path.join(self.folder, "b")])

    def test_a_long_list(self):
        count = 20_000
        out, err, status = identify("--puid", "--files-from", "-", input=(self.gif + "\n").encode() * count)
        self.assertEqual((out, err, status), (b"fmt/3\n" * count, b"", 0))

    def test_bad_names_of_a_list(self):
        names = [b"", b"x" * 4_096, b"y" * 5_000_000, b"\xff\xfe", b"lost", self.gif.encode()]
        out, err, status = identify("--json", "--files-from", "-", input=b"\n".join(names))
        self.assertEqual((paths_of(out), status), ([self.gif], 5))
        self.assertEqual(len(err.splitlines()), 5)
        self.assertIn(b"droid_desk: \\xff\\xfe: its name is no UTF-8\n", err)

    def test_names_of_4095_bytes(self):
        deep = self.folder
        while len(deep) < 3_839:
            deep = os.path.join(deep, "d" * 200)
            os.mkdir(deep)
        name = write(os.path.join(deep, "x" * (4_095 - len(deep) - 1)), GIF)
        self.assertEqual(len(name), 4_095)
        self.assertEqual(identify("--puid", name), (b"fmt/3\n", b"", 0))
        self.assertEqual(identify("--puid", name + "x")[2], 5)

    def test_a_list_that_is_not_there(self):
        for source in (os.path.join(self.folder, "lost"), self.folder):
            out, err, status = identify("--files-from", source)
            self.assertEqual((out, status), (b"", 5))
            self.assertIn(b"the list could not be opened or read", err)

    def test_standard_input(self):
        self.assertEqual(identify("-", input=GIF)[0], b"-: fmt/3 Graphics Interchange Format 87a (image/gif), bytes 0 to 5\n")
        out, _, _ = identify("-", "--name", "x/y.txt", "--json", "--hash", "md5", input=b"Dear")
        line = json_lines(out)[0]
        self.assertEqual((line["path"], line["size"], line["formats"][0]["puid"]), ("x/y.txt", 4, "x-fmt/111"))

    def test_long_standard_input(self):
        registry = self.made("r.csv", b"F,t/1,Ends,,,\nS,t/1,BOF,0,0,6161\nB,t/1,EOF,1,1,62\n")
        for size in (1, 2, 3, 4, 7, 8, 9, 15, 16, 17, 8_191, 8_192, 8_193, 65_536, 65_537, 131_072, 131_073, 400_001):
            content = b"aa" + b"." * size + b"b."
            for limit in ("4", "8", "65536"):
                words = ["--registry", registry, "--limit", limit, "--json"]
                line = json_lines(identify(*words, "-", input=content)[0])[0]
                wanted = json_lines(identify(*words, self.made("x", content))[0])[0]
                line["path"] = wanted["path"]
                self.assertEqual(line, wanted)
                self.assertEqual((line["size"], line["formats"][0]["puid"]), (len(content), "t/1"))

    def test_closed_standard_input(self):
        done = subprocess.run(f"exec '{PROGRAM}' identify - <&-", shell=True, capture_output=True, check=False)
        self.assertIn(done.returncode, (0, 5))

    def test_folders(self):
        tree = os.path.join(self.folder, "tree")
        os.makedirs(os.path.join(tree, "b", "c"))
        wanted = [write(os.path.join(tree, name), b"") for name in ("a", "d", "b/x", "b/y", "b/c/z")]
        os.symlink("a", os.path.join(tree, "link"))
        for top in (tree, tree + "/"):
            out, err, status = identify("-r", "--json", top)
            self.assertEqual((paths_of(out), status), (wanted, 0))
            self.assertEqual(err, f"droid_desk: {tree}/link: it is a symbolic link, which is not followed\n".encode())
        out, err, status = identify(tree, self.gif)
        self.assertEqual((out.count(b"\n"), status), (1, 5))
        self.assertEqual(err, f"droid_desk: {tree}: it is a folder: --recursive identifies the files in it\n".encode())
        walked = subprocess.run(["find", tree, "-type", "f"], capture_output=True, check=True).stdout.decode().split()
        self.assertEqual(sorted(walked), sorted(wanted))

    def test_names_that_are_no_text(self):
        tree = os.path.join(self.folder, "tree")
        os.mkdir(tree)
        write(os.path.join(os.fsencode(tree), b"\xff"), b"")
        out, err, status = identify("-r", tree)
        self.assertEqual((out, status), (b"", 5))
        self.assertIn(b"/\\xff: its name is no UTF-8\n", err)

    def test_links(self):
        link = os.path.join(self.folder, "link.gif")
        os.symlink("a.gif", link)
        self.assertEqual(identify("--json", link)[0].replace(b"link.gif", b"a.gif"), identify("--json", self.gif)[0])
        self.assertEqual(identify("--files-from", "-", input=link.encode())[2], 5)
        tree, named = os.path.join(self.folder, "tree"), os.path.join(self.folder, "named")
        os.mkdir(tree)
        write(os.path.join(tree, "x"), b"")
        os.symlink("tree", named)
        self.assertEqual(paths_of(identify("-r", "--json", named)[0]), [os.path.join(named, "x")])
        os.symlink("lost", os.path.join(self.folder, "broken"))
        self.assertEqual(identify(os.path.join(self.folder, "broken"))[2], 5)

    def test_what_is_no_file(self):
        pipe = os.path.join(self.folder, "pipe")
        os.mkfifo(pipe)
        listener = socket.socket(socket.AF_UNIX)
        self.addCleanup(listener.close)
        listener.bind(os.path.join(self.folder, "socket"))
        for name in (pipe, os.path.join(self.folder, "socket"), "/dev/null", "/dev/zero", os.path.join(self.folder, "lost")):
            out, err, status = identify(name, self.gif, timeout=20)
            self.assertEqual((out.count(b"\n"), err.count(b"\n"), status), (1, 1, 5), name)

    @unittest.skipIf(os.geteuid() == 0, "root may read all")
    def test_unreadable(self):
        os.chmod(self.gif, 0)
        self.assertEqual(identify(self.gif)[2], 5)

    def test_statuses(self):
        unknown = self.made("x", b"\x00")
        self.assertEqual(identify(unknown)[2], 0)
        self.assertEqual(identify("--puid", unknown, self.gif)[::2], (b"fmt/3\n", 1))
        self.assertEqual(identify("--puid", unknown, "lost")[2], 5)
        with open("/dev/full", "wb") as full:
            done = subprocess.run([PROGRAM, "identify", self.gif], stdout=full, stderr=subprocess.PIPE, check=False)
        self.assertEqual(done.returncode, 4)
        self.assertTrue(done.stderr.startswith(b"fault: Write\n"))
        self.assertEqual(identify("--registry", unknown, self.gif)[2], 3)

    def test_words_that_do_not_fit(self):
        for words in (
            [],
            ["-0", self.gif],
            ["--name", "x", self.gif],
            ["-", "-"],
            ["-", "--files-from", "-"],
            ["--csv", "--json", self.gif],
            ["--puid", "--json-sf", self.gif],
            ["--why", "fmt/3", "--json", self.gif],
            ["--hash", "sha1", self.gif],
            ["--everyday", "--registry", "x", self.gif],
            ["--limit", "0", self.gif],
            ["--limit", "65537", self.gif],
        ):
            out, err, status = identify(*words, input=b"")
            self.assertEqual((out, status), (b"", 2), words)
            self.assertTrue(err.startswith(b"error: "), err)


if __name__ == "__main__":
    unittest.main()
