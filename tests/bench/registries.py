"""Identifies files by registries of the hardest kinds of patterns, and measures the memory of such registries.

Usage: registries.py, with the program's path in DROID_DESK and tests/ on Python's path. Prints the milliseconds of
a Finish of 131,072 bytes `abab..`, and those of a processor; and the resident bytes of a registry beside the
length of its text.
"""
import subprocess
import tempfile
import time
from random import Random

from attacks import ALTERNATIVES, LONG_PATTERNS, ROUNDS
from lib.frames import FINISH, FINISHED
from lib.processes import resident
from lib.program import EVERYDAY, PROGRAM
from measured_run import MeasuredRun, registry_in

# a registry's limits: signatures, bytes, and the length of a pattern
SIGNATURES = 16_384
REGISTRY = 16_777_216
PATTERN = 4_096

KINDS = [
    ("every other byte", b"61??61??61??61??63", SIGNATURES),
    ("four bytes and one more", b"6162616263", SIGNATURES),
    ("wide gaps", b"61{0-65535}62{0-65535}61{0-65535}62{0-65535}63", SIGNATURES),
    ("narrow gaps", b"61{0-100}62{0-100}61{0-100}62{0-100}63", SIGNATURES),
    ("ranges", b"[61:62][61:63][61:64][61:65]63", SIGNATURES),
    ("alternatives", b"(6161|6162|6262)(6161|6162|6262)63", SIGNATURES),
    ("one of 4,096 bytes", ALTERNATIVES, 1),
    ("as many of these as a registry holds", ALTERNATIVES, LONG_PATTERNS),
]
# patterns of the greatest length: the beginning, the part that is repeated, and the end
LONGEST = [(b"*61(62", b"|62", b")00"), (b"", b"61", b""), (b"", b"(61)", b""), (b"61", b"{3}", b""), (b"61", b"*", b"")]


def registry_text(pattern, most):
    """Returns a registry of a format with as many signatures of this pattern, at every offset, as it holds."""
    head, signature = b"F,bench/1,A,,,\n", b"S,bench/1,BOF,0,65535," + pattern + b"\n"
    return head + signature * min(most, (REGISTRY - len(head)) // len(signature))


def measure_finding(place, what, pattern, count):
    with MeasuredRun(*registry_in(place, registry_text(pattern, count))) as service:
        bodies = [service.unfinished_file(b"%d" % turn, b"ab" * 65_536) for turn in range(ROUNDS)]
        service.measure(f"Finish under {count} patterns, {what}", FINISH, bodies, FINISHED)


def memory_with(place, text):
    """Returns the program's memory in bytes with this registry."""
    with MeasuredRun(*registry_in(place, text)) as service:
        return resident(service.process)


def measure_memory(place, first, unit, last):
    text = registry_text(first + unit * ((PATTERN - len(first) - len(last)) // len(unit)) + last, SIGNATURES)
    kept = memory_with(place, text) - memory_with(place, registry_text(b"61", 0))
    kind = b"%s%s..%s" % (first, unit, last)
    print(f"memory: {len(text)} bytes of text with patterns {kind.decode()} in {kept} bytes, {kept / len(text):.2f} times the text", flush=True)


def generated():
    """Returns a registry of 4,096 formats, each with an extension and four signatures of random bytes: eight bytes
    at the beginning; with a gap between; at any of 1,025 offsets; and at both ends of the file."""
    random = Random(1)
    rows = []
    for at in range(4_096):
        one, two, three, four = (random.randbytes(12).hex().upper() for _ in range(4))
        rows.append(
            f"F,bench/{at},Format {at},1.0,application/x-{at},\nE,bench/{at},e{at},,,\n"
            f"S,bench/{at},BOF,0,0,{one[:16]}\nS,bench/{at},BOF,0,0,{two[:8]}{{2-6}}{two[8:16]}\n"
            f"S,bench/{at},BOF,0,1024,{three[:12]}\n"
            f"S,bench/{at},BOF,0,0,{four[:8]}*{four[8:16]}\nB,bench/{at},EOF,0,0,{four[16:]}\n"
        )
    return "".join(rows).encode("ascii"), bytes.fromhex(one[:16])


def seconds_to_start(place, text):
    """Returns the least seconds of a `run` with this registry and no request."""
    options = registry_in(place, text)
    least = float("inf")
    for _ in range(2 * ROUNDS):
        start = time.perf_counter()
        subprocess.run([PROGRAM, "run", *options], stdin=subprocess.DEVNULL, check=True)
        least = min(least, time.perf_counter() - start)
    return least


def measure_reading(place, what, text):
    took = seconds_to_start(place, text) - seconds_to_start(place, b"")
    print(f"registry: {what}, {len(text)} bytes, read in {took * 1000:.1f} milliseconds", flush=True)


def measure_contents(place, what, text, contents):
    """Identifies files of each content, by the two windows of 65,536 bytes."""
    with MeasuredRun(*registry_in(place, text)) as service:
        for kind, content in contents.items():
            bodies = [service.unfinished_file(b"%s %d" % (kind.encode(), turn), content) for turn in range(ROUNDS)]
            service.measure(f"Finish under {what}, {kind}", FINISH, bodies, FINISHED)


def main():
    text, front = generated()
    with open(EVERYDAY, "rb") as file:
        everyday = file.read()
    chance = Random(2).randbytes(131_072)
    with tempfile.TemporaryDirectory() as place:
        for what, registry in (("4,096 formats and 16,384 signatures", text), ("everyday formats", everyday)):
            measure_reading(place, what, registry)
            contents = {"random bytes": chance, "a signature's bytes": front + chance[len(front) :], "zeros": bytes(131_072)}
            measure_contents(place, what, registry, contents)
        for kind in KINDS:
            measure_finding(place, *kind)
        for parts in LONGEST:
            measure_memory(place, *parts)


if __name__ == "__main__":
    main()
