"""The Rattle kit that `rt` belongs to: which one it is, and the licences of its crates."""
import os
import shutil

import crates
from crates import read

# the lines that tell one kit from another: of its compiler and prover, and of its crates
KIT_LINES = ["WHAT archive", "WHAT commit", "WHAT compiler", "WHAT-crates archive", "WHAT-crates toolchain", "WHAT-crates crates"]


def folder():
    """Returns the kit's folder, or None where `rt` is missing."""
    rt = shutil.which(os.environ.get("RT", "rt"))
    return rt and os.path.dirname(os.path.dirname(os.path.realpath(rt)))


def kit_lines():
    """Returns the lines that tell this kit from others by their names, or nothing where there is none."""
    found = {}
    for file in ("WHAT", "WHAT-crates"):
        path = os.path.join(folder() or "", file)
        for line in read(path).split("\n") if folder() and os.path.isfile(path) else []:
            name, _, value = line.partition(" ")
            found[f"{file} {name}"] = value
    return {name: found.get(name, "none") for name in KIT_LINES} if found else {}


def kit_crates(own):
    """Returns the crates of the kit on which these crates of the repository stand, by name."""
    waiting, found = [it for crate in own for it in crates.listed()[crate] if it not in crates.listed()], set()
    while waiting:
        crate = waiting.pop()
        form = os.path.join(folder(), "rlibs", crate + ".rlib", "format")
        if crate not in found and os.path.isfile(form):
            found.add(crate)
            with open(form, encoding="utf-8", errors="replace") as file:
                waiting += [line.split()[1] for line in file if line.startswith("dep ")]
    return sorted(found)


def licence_files(crate):
    """Returns a kit crate's files of licences. Of MIT and Apache 2.0, which one may choose, it is MIT alone."""
    at = os.path.join(folder(), "rattle", crate)
    names = sorted(name for name in os.listdir(at) if name.startswith("LICENSE")) if os.path.isdir(at) else []
    return [os.path.join(at, name) for name in names if name != "LICENSE-APACHE" or "LICENSE-MIT" not in names]


def licences(own):
    """Returns a text with the licences of the kit's crates on which these crates stand, each text once."""
    names = {}
    for crate in kit_crates(own):
        for path in licence_files(crate):
            names.setdefault(read(path).strip("\n"), []).append(crate)
    head = "droid_desk has code of these crates of the Rattle kit, which are ports of Rust crates of the same names.\n"
    parts = [f"{'=' * 80}\n{', '.join(of)}\n{'=' * 80}\n\n{text}\n" for text, of in names.items()]
    return "\n".join([head, *parts])
