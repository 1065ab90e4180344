#!/usr/bin/env python3
"""Installs a program below a folder: install.py PROGRAM FOLDER. The program goes to FOLDER/bin, its manual page to
FOLDER/share/man/man1, its completions for bash to FOLDER/share/bash-completion/completions, the licences of what it is
made of to FOLDER/share/doc/droid_desk, and each registry of everyday formats, the former ones too, to
FOLDER/share/droid_desk/registries, named by its MD5. `install.py --remove FOLDER` removes these files."""
import contextlib
import hashlib
import os
import sys

import manual
from crates import TOP

BINARY = os.path.join("bin", manual.NAME)
PAGE = os.path.join("share", "man", "man1", manual.NAME + ".1")
COMPLETIONS = os.path.join("share", "bash-completion", "completions", manual.NAME)
LICENCES = os.path.join("share", "doc", manual.NAME, "LICENSES.txt")
REGISTRIES = os.path.join("share", manual.NAME, "registries")


def content(path):
    with open(path, "rb") as file:
        return file.read()


def registries():
    """Returns the registries of everyday formats, by the paths at which they are installed."""
    folder = os.path.join(TOP, "registries")
    texts = [content(os.path.join(folder, name)) for name in sorted(os.listdir(folder))]
    return {os.path.join(REGISTRIES, hashlib.md5(text).hexdigest() + ".csv"): text for text in texts}


def files():
    """Returns the paths of the installed files, the program's first."""
    return [BINARY, PAGE, COMPLETIONS, LICENCES, *registries()]


def contents(program):
    """Returns what the installed files have, in their order. It runs the program, so that none is installed that doesn't run."""
    if not manual.said(program, "--version"):
        sys.exit(f"{program} does not run here, so nothing was installed")
    page, completions = manual.page(program), manual.completions(program)
    licences = content(os.path.join(TOP, "release", "LICENSES.txt"))
    return content(program), page.encode(), completions.encode(), licences, *registries().values()


def put(path, content, mode):
    """Writes a file beside its place, and returns where."""
    os.makedirs(os.path.dirname(path), exist_ok=True)
    room = f"{path}.{os.getpid()}.new"
    with open(room, "wb") as file:
        file.write(content)
    os.chmod(room, mode)
    return room


def install(program, folder):
    """Installs all files or none, and returns their paths. A program that runs can't be overwritten, but its file can be
    replaced: so each file is written beside its place, and takes it at the end."""
    paths, rooms = [os.path.join(folder, file) for file in files()], []
    try:
        for path, text in zip(paths, contents(program)):
            rooms.append(put(path, text, 0o755 if path == paths[0] else 0o644))
        for room, path in zip(rooms, paths):
            os.replace(room, path)
    finally:
        for path in paths:
            with contextlib.suppress(OSError):
                os.remove(f"{path}.{os.getpid()}.new")
    return paths


def remove(folder):
    """Removes the installed files that are there, and returns their paths."""
    there = [path for path in (os.path.join(folder, file) for file in files()) if os.path.lexists(path)]
    for path in there:
        os.remove(path)
    return there


def report(paths, done="installed"):
    for path in paths:
        print(f"{done}: {path}")


def main():
    if len(sys.argv) != 3:
        sys.exit("usage: install.py PROGRAM FOLDER, or install.py --remove FOLDER")
    first, folder = sys.argv[1:]
    try:
        report(*(remove(folder), "removed") if first == "--remove" else (install(first, folder), "installed"))
    except OSError as fault:
        sys.exit(f"{fault.filename or folder}: {fault.strerror}, so nothing {'more was removed' if first == '--remove' else 'was installed'}")


if __name__ == "__main__":
    main()
