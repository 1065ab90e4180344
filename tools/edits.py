"""Wrong bodies: reads them from their files, and applies them to the texts of a crate."""
import os

from crates import TOP, read


class Texts(dict):
    """The texts of a crate's files, by path. A text that nobody set is read from the crate's folder."""

    def __init__(self, at, texts=()):
        super().__init__(texts)
        self.at = at

    def __missing__(self, file):
        path = os.path.join(self.at, file)
        return self.setdefault(file, read(path) if os.path.isfile(path) else "")


class Edit:
    """A wrong body: changes, each with a file, an old text and a new text."""

    def __init__(self, path):
        self.name = os.path.relpath(path, TOP)
        self.crate = self.name.split(os.sep)[1]
        self.changes = []
        file = old = ""
        for line in read(path).split("\n"):
            key, text = line[:4], line[5:]
            if line.startswith("file: "):
                file = line[len("file: ") :].strip()
            elif key == "old:":
                old = text
            elif key == "new:":
                self.changes.append((file, old, text))

    def files(self):
        return {file for file, _, _ in self.changes}

    def applied(self, texts):
        """Returns the texts with the edit applied, or None if an old text doesn't occur in its file exactly once."""
        made = Texts(texts.at, texts)
        for file, old, new in self.changes:
            if made[file].count(old) != 1:
                return None
            made[file] = made[file].replace(old, new)
        return made if self.changes else None


def all_applied(edits, texts):
    """Returns the texts with all these applied, one after the other."""
    for edit in edits:
        texts = edit.applied(texts)
    return texts
