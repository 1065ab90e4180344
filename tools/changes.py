"""Which functions of a crate a change touches: those whose text differs, and those whose proof or statement reads a file
of proofs/ or specs/ that differs."""
import os
import re
import subprocess

import crates
from crates import TOP, files_of, folder, read
from functions import functions_in, module_of, name_of


def changed_lines(base, path):
    """Returns the lines of a file that differ from a commit, counted from 0; of lines that went, those around them."""
    words = ["git", "diff", "--no-ext-diff", "--no-color", "-U0", base, "--", path]
    said = subprocess.run(words, cwd=TOP, stdout=subprocess.PIPE, text=True, check=True).stdout
    found = set()
    for at, number in re.findall(r"(?m)^@@ -\S+ \+(\d+)(?:,(\d+))? @@", said):
        first, many = int(at) - 1, int(number or 1)
        found.update(range(first, first + many) if many else (first, first + 1))
    return found


def changed_files(crate, base):
    """Returns the files of a crate's sources that differ from a commit, those that git doesn't track too, below its folder."""
    at = os.path.relpath(folder(crate), TOP)
    found = crates.git("diff", "--name-only", "--no-renames", "-z", base, "--", at).split("\0")
    found += crates.git("ls-files", "--others", "--exclude-standard", "-z", "--", at).split("\0")
    parts = tuple(part + "/" for part in crates.SOURCES)
    return sorted({it[len(at) + 1 :] for it in found if it[len(at) + 1 :].startswith(parts)})


def path_of(crate, file):
    return "::".join(filter(None, [crate, module_of(file)]))


def functions_of(crate, file, text, lines=None):
    """Returns the functions of a source file, or those that have one of these lines: by name the path of the module."""
    its = [(of, its) for of, its in functions_in(text) if lines is None or lines.intersection(its)]
    return {name_of(crate, file, *of): path_of(crate, file) for of, _ in its}


def functions_changed(crate, base, file):
    """Returns the functions of a source file that differ from a commit."""
    path = os.path.join(folder(crate), file)
    if not os.path.isfile(path):
        return {}
    is_new = not crates.git("ls-files", "--", path)
    return functions_of(crate, file, read(path), None if is_new else changed_lines(base, path))


def function_of_proof(crate, file):
    """Returns the function whose own proof this file of proofs/ is, or none."""
    parts = file.split("/")[1:-1]
    is_own = os.path.basename(file) in ("Proof.antt", "Answers.antt", "Invariants.antt") and parts
    return {"::".join([crate, *parts]): "::".join([crate, *parts[:-1]])} if is_own else {}


def readers_of(crate, file):
    """Returns the functions that read a file of specs/ or proofs/, directly or through other such files: by their own
    proof, or by a line `ghost use` of their source file."""
    waiting, seen, found = [file], {file}, {}
    texts = {os.path.relpath(it, folder(crate)): read(it) for it in files_of(crate)}
    while waiting:
        it = waiting.pop()
        found.update(function_of_proof(crate, it))
        module = ".".join(["Rattle", crate, *it[: -len(".antt")].split("/")])
        named = re.compile(re.escape(module) + r"\b")
        for other in [other for other, text in texts.items() if other not in seen and named.search(text)]:
            seen.add(other)
            if other.endswith(".antt"):
                waiting.append(other)
            else:
                found.update(functions_of(crate, other, texts[other]))
    return found


def functions_touched(crate, base):
    """Returns the functions of a crate that a change since a commit touches: by name the path of the module."""
    found = {}
    for file in changed_files(crate, base):
        found.update(functions_changed(crate, base, file) if file.endswith(".rt") else readers_of(crate, file))
    return found
