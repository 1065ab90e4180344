#!/usr/bin/env python3
"""The released program, release/droid_desk: the very program that the proved sources build into, for machines that have
no kit.

release.py run              checks it, puts it below out/, and runs two scripts on it: `make run`
release.py install FOLDER   checks it, and installs it below a folder: `make install`
release.py path             checks it, puts it below out/, and prints its path
release.py which PROGRAM    says for which commit a program was proved
release.py note             notes which program the gate has just proved and built: the last step of `make prove`
release.py compare          compares it with that program, byte by byte: `make compare`
release.py make             writes release/ from that program: `make release`

Beside the program stand droid_desk.txt, which says what it is made of and what it needs, and LICENSES.txt. The first
three calls need Python alone. A sentence on standard error says what is wrong, and the status is then 1.
"""
import hashlib
import os
import platform
import re
import subprocess
import sys
import tempfile

import crates
import install
from crates import TOP, read
from kit import KIT_LINES, kit_lines, licences

NAME = "droid_desk"
FOLDER = os.path.join(TOP, "release")
RELEASED, TEXT, LICENCES = (os.path.join(FOLDER, name) for name in (NAME, NAME + ".txt", "LICENSES.txt"))
# where the released program is run
PLACED = os.path.join(TOP, "out", "release", NAME)
# where the gate leaves its program, and where it is noted
PROVED = os.path.join(TOP, "crates", NAME, "out", NAME)
NOTE = os.path.join(TOP, "out", "proved.txt")
# the scripts of `make run`: four requests, and a file in pieces with its export
SCRIPTS = [os.path.join(TOP, "crates", NAME, "stdin"), os.path.join(TOP, "examples", "deposit.script")]
PROCESSOR = "/proc/cpuinfo"
ILLEGAL_INSTRUCTION = -4


class Wrong(Exception):
    """A sentence that says what is wrong."""


def lines_of(path, missing):
    """Reads a file of lines `NAME: VALUE`."""
    try:
        pairs = (line.partition(": ")[::2] for line in read(path).split("\n") if ": " in line)
        return dict(pairs)
    except (OSError, UnicodeDecodeError):
        raise Wrong(missing) from None


def bytes_of(path, missing):
    try:
        with open(path, "rb") as file:
            return file.read()
    except OSError:
        raise Wrong(missing) from None


def sum_of(program):
    return hashlib.sha256(program).hexdigest()


def sum_of_sources():
    """Returns the checksum of the sources that the program's code is made of: of each crate from the program down its
    line in crates.txt and its files of src/."""
    found = hashlib.sha256()
    for crate in crates.with_below([NAME]):
        found.update(repr((crate, crates.listed()[crate])).encode())
        for path in crates.files_of(crate):
            if path.endswith(".rt"):
                found.update(repr((os.path.relpath(path, TOP), bytes_of(path, f"{path} cannot be read"))).encode())
    return found.hexdigest()


def write(path, content, mode=0o644):
    """Writes a file that takes its place by a rename, or not at all."""
    room = None
    try:
        os.makedirs(os.path.dirname(path), exist_ok=True)
        number, room = tempfile.mkstemp(prefix=os.path.basename(path) + ".", dir=os.path.dirname(path))
        with open(number, "wb") as file:
            file.write(content)
        os.chmod(room, mode)
        os.replace(room, path)
    except OSError as fault:
        raise Wrong(f"{os.path.relpath(path, TOP)} cannot be written: {fault.strerror}") from None
    finally:
        if room and os.path.exists(room):
            os.remove(room)


def check_machine():
    """Checks what can be known of this machine before the program runs."""
    if platform.system() != "Linux" or platform.machine() not in ("x86_64", "AMD64"):
        raise Wrong(f"the released program runs on Linux on x86-64 alone, and this is {platform.system()} on {platform.machine()}")
    try:
        flags = re.search(r"^flags\s*:(.*)$", read(PROCESSOR), re.M)
    except OSError:
        flags = None
    if flags and "sse4_2" not in flags[1].split():
        raise Wrong("the released program needs a processor with SSE4.2, which this one lacks")


def check_runs(program, needs):
    """Runs a program once, and says why where it does not run."""
    library = needs.rpartition("glibc ")[2].split()[0]
    try:
        run = subprocess.run([program, "--version"], stdin=subprocess.DEVNULL, capture_output=True, text=True)
    except FileNotFoundError:
        raise Wrong(f"the released program needs the C library glibc {library} or later, which this machine lacks (has it musl?)") from None
    except PermissionError:
        raise Wrong(f"nothing can be run in {os.path.dirname(program)}: is it mounted with noexec?") from None
    if "GLIBC_" in run.stderr:
        raise Wrong(f"the released program needs the C library glibc {library} or later, and this machine has {' '.join(platform.libc_ver())}")
    if run.returncode == ILLEGAL_INSTRUCTION:
        raise Wrong("the released program needs a processor with SSE4.2, which this one lacks")
    if run.returncode:
        raise Wrong(f"the released program does not run here: {run.stderr.strip() or f'status {run.returncode}'}")
    return run.stdout.strip()


def released():
    """Returns what droid_desk.txt says, and the program's bytes, which fit it."""
    said = lines_of(TEXT, f"release/{NAME}.txt is missing or cannot be read: restore it with `git checkout release`")
    program = bytes_of(RELEASED, f"release/{NAME} is missing or cannot be read: restore it with `git checkout release`")
    if not {"sha256", "bytes", "sources", "commit", "needs", *KIT_LINES} <= {*said}:
        raise Wrong(f"release/{NAME}.txt is damaged: restore it with `git checkout release`")
    if sum_of(program) != said["sha256"]:
        raise Wrong(f"release/{NAME} is damaged: it has {len(program)} of {said['bytes']} bytes and another SHA-256 than release/{NAME}.txt says; restore it with `git checkout release`")
    return said, program


def placed():
    """Checks the released program, puts it below out/, and returns what droid_desk.txt says. Several calls may do this at once."""
    check_machine()
    said, program = released()
    try:
        is_there = sum_of(bytes_of(PLACED, "")) == said["sha256"] and os.access(PLACED, os.X_OK)
    except Wrong:
        is_there = False
    if not is_there:
        write(PLACED, program, 0o755)
    try:
        check_runs(PLACED, said["needs"])
    except Wrong:
        os.remove(PLACED)
        raise
    return said


def report(said):
    """Says which program this is, in a line, and in another where the sources are not those that it was made of."""
    print(f"{NAME} {said.get('version', '')}, proved and built at commit {said['commit'][:12]}", file=sys.stderr)
    if sum_of_sources() != said["sources"]:
        print("The sources here differ from those that this program was made of: `make build` makes it of them", file=sys.stderr)


def run():
    """Runs the released program on two scripts."""
    report(placed())
    for number, script in enumerate(SCRIPTS):
        print("\n" * (number > 0), end="", flush=True)
        with open(script, "rb") as file:
            status = subprocess.run([PLACED, "script"], stdin=file).returncode
        if status:
            raise Wrong(f"the program ended with status {status} over {os.path.relpath(script, TOP)}")


def install_released(folder):
    """Installs the released program with its licences below a folder."""
    said = placed()
    install.report(install.install(PLACED, folder))
    report(said)


def which(program):
    """Says for which commit a program was proved: the released one, that of the gate, or none that is known."""
    sum = sum_of(bytes_of(program, f"{program} is missing or cannot be read"))
    for path in (NOTE, TEXT):
        said = lines_of(path, "") if os.path.isfile(path) else {}
        if said.get("sha256") == sum:
            print(f"testing {program}, which was proved and built at commit {said['commit'][:12]}")
            return
    print(f"testing {program}, of which it is not known that it was proved")


def kit_here():
    found = kit_lines()
    if not found:
        raise Wrong("rt is missing: install the Rattle kit and put its bin folder on the PATH")
    return found


def note():
    """Notes the gate's program, with the sources, the commit and the kit."""
    program = bytes_of(PROVED, f"crates/{NAME}/out/{NAME} is missing: run make prove first")
    is_clean = not crates.git("status", "--porcelain", "--", "crates", "crates.txt", "HANDLES").strip()
    said = {"sha256": sum_of(program), "sources": sum_of_sources(), "commit": crates.git("rev-parse", "HEAD").strip() if is_clean else "none", **kit_here()}
    write(NOTE, text_of(said))


def text_of(said):
    return "".join(f"{name}: {value}\n" for name, value in said.items()).encode()


def proved():
    """Returns the note of the gate's program, and its bytes, which fit the note."""
    noted = lines_of(NOTE, "no program was proved in this checkout: run make prove first")
    program = bytes_of(PROVED, f"crates/{NAME}/out/{NAME} is missing: run make prove first")
    if sum_of(program) != noted["sha256"]:
        raise Wrong(f"crates/{NAME}/out/{NAME} is not the program that make prove proved: run make prove first")
    return noted, program


def compare():
    """Compares release/ with the gate's program; by its behaviour alone if another kit built it."""
    noted, program = proved()
    said, theirs = released()
    other = [name for name in KIT_LINES if said[name] != noted[name]]
    if other:
        print(f"release/{NAME} was built by another kit ({', '.join(other)} differ), so its bytes are not compared: it is run through the cases and README's commands", flush=True)
        compare_behaviour()
    elif theirs != program:
        raise Wrong(f"release/{NAME} is not the program that was just proved: run make release, and commit release/ alone")
    else:
        print(f"release/{NAME} is the program that was just proved, byte by byte: {len(program)} bytes, SHA-256 {said['sha256']}")


def compare_behaviour():
    placed()
    tests = os.path.join(TOP, "tests", "program")
    for script in ("cases.sh", "readme.sh"):
        if subprocess.run(["sh", os.path.join(tests, script), PLACED]).returncode:
            raise Wrong(f"release/{NAME} fails tests/program/{script}")


def needs_of(program):
    """Says what a machine needs to run a program: the newest version of glibc that it names."""
    versions = [int(it) for it in re.findall(rb"GLIBC_2\.(\d+)", program)]
    return f"Linux on x86-64 with SSE4.2, glibc 2.{max(versions)} or later"


def make():
    """Writes release/ from the gate's program."""
    noted, program = proved()
    if noted["sources"] != sum_of_sources() or noted["commit"] == "none":
        raise Wrong("the sources differ from those that make prove proved, or were not committed then: commit them, and run make prove first")
    version = check_runs(PROVED, needs_of(program)).partition(" ")[2]
    said = {"version": version, "sha256": noted["sha256"], "bytes": len(program), "needs": needs_of(program)}
    said.update((name, noted[name]) for name in ("commit", "sources", *KIT_LINES))
    write(RELEASED, program, 0o755)
    write(TEXT, text_of(said))
    write(LICENCES, licences(crates.with_below([NAME])).encode())
    print(f"release/ has the program of commit {said['commit'][:12]}: commit release/ alone, and run make compare")


CALLS = {"run": run, "which": which, "install": install_released, "note": note, "compare": compare, "make": make}


def main():
    call, *words = sys.argv[1:]
    try:
        if call == "path":
            placed()
            print(PLACED)
        else:
            CALLS[call](*words)
    except Wrong as wrong:
        sys.exit(str(wrong))
    except OSError as fault:
        sys.exit(f"{fault.filename or TOP}: {fault.strerror}")


if __name__ == "__main__":
    main()
