#!/usr/bin/env -S python3 -S -B
"""Tests how the built program reads registries and identifies files: identification.py PROGRAM

- random patterns with gaps of about 64 bytes and more, at both ends of files of up to 200 bytes, against the model
- the sample registry, cut off at each byte and with each byte replaced, against the model
- a registry as large as the limits allow, with a name of 255 bytes
- patterns by hand

The expected replies are those of the model (model/) or stand here; none comes from the program.
"""

import hashlib
import os
import subprocess
import sys
import tempfile
from concurrent.futures import ThreadPoolExecutor
from random import Random

TESTS = os.path.dirname(os.path.abspath(__file__))
sys.path.insert(0, os.path.join(TESTS, "model"))

from found import find  # noqa: E402
from registry import Registry, RegistryFault  # noqa: E402

PROGRAM = sys.argv[1] if len(sys.argv) > 1 else ""
REGISTRIES, PATTERNS, FILES = 12, 40, 12


# patterns, bytes, and whether a match begins at the first byte and whether one ends after the last
MATCHES = [
    ("6a", b"j", True, True),
    ("6A", b"j", True, True),
    ("6A", b"k", False, False),
    ("6B6c", b"kl", True, True),
    ("6B6c", b"lk", False, False),
    ("6B6c", b"k", False, False),
    ("??", b"x", True, True),
    ("??", b"", False, False),
    ("{2}61", b"xya", True, True),
    ("{2}61", b"xa", False, False),
    ("{2}61", b"wxya", False, True),
    ("{1-2}61", b"a", False, False),
    ("{1-2}61", b"xa", True, True),
    ("{1-2}61", b"xya", True, True),
    ("{1-2}61", b"wxya", False, True),
    ("{2-*}61", b"xa", False, False),
    ("{2-*}61", b"xya", True, True),
    ("{2-*}61", b"wwwxya", True, True),
    ("61*62", b"azzb", True, True),
    ("61*62", b"ab", True, True),
    ("61{1-*}62", b"azzb", True, True),
    ("61{1-*}62", b"ab", False, False),
    ("[61:63]", b"a", True, True),
    ("[61:63]", b"c", True, True),
    ("[61:63]", b"d", False, False),
    ("[61:61]", b"a", True, True),
    ("[!61]", b"b", True, True),
    ("[!61]", b"a", False, False),
    ("(61|6263)64", b"bcd", True, True),
    ("(61|6263)64", b"acd", False, False),
    ("(61|6263)64", b"ad", True, True),
    ("(61|6263)64", b"bd", False, False),
    ("(6161|61)61", b"aa", True, True),
    ("(61)", b"a", True, True),
    ("??{2}61", b"xyza", True, True),
    ("61{0}62", b"ab", True, True),
    ("61{65535}62", b"ab", False, False),
    ("{0-65535}61", b"zzza", True, True),
    ("*61", b"zzzab", True, False),
    ("61*", b"zza", False, True),
    ("61{00000}", b"a", True, True),
]
# bytes, a place in them, and whether a match of `(61|6263)64` begins there and whether one ends just before it
PLACES = [
    (b"zzad", 4, False, True),
    (b"zzadz", 5, False, False),
    (b"zzadz", 4, False, True),
    (b"zzad", 2, True, False),
    (b"zzad", 3, False, False),
    (b"bcdad", 3, True, True),
]


def run(registry, script):
    """Runs a script with a registry file. Returns what the program wrote to both streams."""
    with tempfile.NamedTemporaryFile() as file:
        file.write(registry)
        file.flush()
        done = subprocess.run([PROGRAM, "script", "--registry", file.name], input=script, capture_output=True, check=False)
    return done.stdout, done.stderr


def deposit(number, name, content):
    """The lines that deposit a file in profile 1 as node `number`; the requests have the numbers from 3 * number on."""
    lines = [b"1 %d file 1 0 0 %d 256 %s" % (3 * number, len(content), name)]
    if content:
        lines.append(b"1 %d piece 1 %d 0 %s" % (3 * number + 1, number, content.hex().encode()))
    return lines + [b"1 %d finish 1 %d" % (3 * number + 2, number)]


def finished(method, mismatch, content, puids):
    """The reply to a finish."""
    return b"finished %s %s %s %s" % (
        method.encode() or b"none",
        b"true" if mismatch else b"false",
        hashlib.md5(content).hexdigest().encode(),
        b",".join(puids) or b"-",
    )


def letters(random, count, kinds):
    return bytes(random.choices(b"abc"[:kinds], k=count))


def gap(random):
    """The length of a gap: mostly a few bytes, sometimes about as many as a word has bits, or more."""
    chance = random.randrange(8)
    return random.randint(62, 65) if chance == 0 else random.randrange(200) if chance == 1 else random.randrange(5)


def element(random, kinds):
    letter = letters(random, 1, kinds).hex()
    least = gap(random)
    alternatives = [letters(random, random.randint(1, 4), kinds).hex() for _ in range(random.randint(1, 3))]
    chance = random.randrange(9)
    others = ["??", f"[61:{letter}]", f"[!{letter}]", "{%d-%d}" % (least, least + gap(random)), "{%d-*}" % least, f"({'|'.join(alternatives)})"]
    return others[chance] if chance < len(others) else letter


def pattern(random, kinds):
    front = [element(random, kinds) for _ in range(random.randrange(6))]
    back = [element(random, kinds) for _ in range(random.randrange(3))]
    return "".join([*front, letters(random, 1, kinds).hex(), *back])


def random_patterns(seed):
    """Whether the program finds what the model finds, with one registry of random patterns and some random files."""
    random = Random(seed)
    kinds = random.choice([2, 3])
    rows = []
    for number in range(PATTERNS):
        low = random.randrange(202)
        text = pattern(random, kinds)
        for anchor in ("BOF", "EOF"):
            rows.append(f"F,{anchor}/{number},N,,,\nS,{anchor}/{number},{anchor},{low},{low + random.randrange(202)},{text}\n")
    registry = "".join(rows).encode()
    script, wanted = [b"1 1 create 65536 0"], [b"made 1"]
    for number in range(1, FILES + 1):
        content = letters(random, random.randrange(201), kinds)
        script += deposit(number, b"%d" % number, content)
        method, formats, mismatch = find(Registry(registry), b"%d" % number, content, 65536, False)
        wanted += [b"node %d" % number] + ([b"taken 1"] if content else [])
        wanted.append(finished(method, mismatch, content, [form.puid for form in formats]))
    out, err = run(registry, b"".join(line + b"\n" for line in script))
    return out == b"".join(line + b"\n" for line in wanted) and not err


def patterns_by_hand():
    """Whether each pattern matches as it should, at the first byte or a place and up to the last one or a place: by two formats
    for each row, in one registry."""
    rows = [(text, content, 0, 0, starts, ends) for text, content, starts, ends in MATCHES]
    rows += [("(61|6263)64", content, place, len(content) - place, starts, ends) for content, place, starts, ends in PLACES]
    registry, script, kept = [], [b"1 1 create 65536 0"], []
    for number, (text, content, start, end, starts, ends) in enumerate(rows, 1):
        for anchor, offset in (("BOF", start), ("EOF", end)):
            registry.append(f"F,{anchor}/{number},N,,,\nS,{anchor}/{number},{anchor},{offset},{offset},{text}\n")
        script += deposit(number, b"%d" % number, content)
    out, err = run("".join(registry).encode(), b"".join(line + b"\n" for line in script))
    for number, line in enumerate((line for line in out.splitlines() if line.startswith(b"finished ")), 1):
        puids = line.split(b" ")[-1].split(b",")
        kept.append((b"BOF/%d" % number in puids, b"EOF/%d" % number in puids))
    return not err and kept == [row[4:] for row in rows]


def outcome(registry):
    """What the program writes with this registry, by the model."""
    try:
        Registry(registry)
    except RegistryFault as fault:
        return b"", b"fault: %s\n" % str(fault).encode()
    return b"made 1\n", b""


def is_read_as_by_the_model(registry):
    out, err = run(registry, b"1 1 create 65536 0\n")
    # the note on a registry without formats has its stored case
    err = err if err.startswith(b"fault: ") else b""
    wanted_out, wanted_err = outcome(registry)
    return out == wanted_out and err.startswith(wanted_err) and bool(err) == bool(wanted_err)


def parts_of_the_sample():
    with open(os.path.join(TESTS, "sample_registry.csv"), "rb") as file:
        sample = file.read()
    changed = [sample[:place] + bytes([byte]) + sample[place + 1 :] for place in range(len(sample)) for byte in (0x00, 0x22, 0x2C, 0xFF)]
    return [sample[:end] for end in range(len(sample) + 1)] + changed


def largest_registry():
    """4,096 formats, 16,384 records that list an extension, 16,384 priorities in a circle, 16,384 signatures of two byte
    sequences. No format hits, or all do and drop one another: so the extension decides, and each format has a signature."""
    rows = [f"F,f/{place},Format {place},,,\n" for place in range(4096)]
    for row in range(16_384):
        place = row % 4096
        rows.append(f"E,f/{place},e{place},,,\nP,f/{place},f/{(place + 1) % 4096},,,\n")
        rows.append(f"S,f/{place},BOF,0,0,6162\nB,f/{place},EOF,0,0,797A\n")
    registry, name = "".join(rows).encode(), b"n" * 249 + b".E4095"
    for match_all, method, puids in ((1, "Extension", [b"f/4095"]), (0, "", [])):
        script, wanted = [b"1 1 create 65536 %d" % match_all], [b"made 1"]
        for number, content in enumerate((b"aaaa", b"abyz"), 1):
            script += [b"1 %d folder 1 0 0 %d" % (100 + number, number)]
            wanted += [b"node %d" % (2 * number - 1)]
            lines = deposit(2 * number, name, content)
            script += [lines[0].replace(b"file 1 0 ", b"file 1 %d " % (2 * number - 1)), *lines[1:]]
            wanted += [b"node %d" % (2 * number), b"taken 1", finished(method, False, content, puids)]
        out, err = run(registry, b"".join(line + b"\n" for line in script))
        if err or out != b"".join(line + b"\n" for line in wanted):
            return False
    return True


def main():
    with ThreadPoolExecutor(len(os.sched_getaffinity(0))) as pool:
        results = {f"random patterns {seed}": pool.submit(random_patterns, seed) for seed in range(REGISTRIES)}
        results["largest registry"] = pool.submit(largest_registry)
        results["patterns by hand"] = pool.submit(patterns_by_hand)
        parts = parts_of_the_sample()
        same = list(pool.map(is_read_as_by_the_model, parts))
        failed = [name for name, result in results.items() if not result.result()]
    failed += [f"part {number} of the sample: {part!r}" for number, (part, is_same) in enumerate(zip(parts, same)) if not is_same]
    print(*failed[:10], sep="\n", end="\n" if failed else "")
    print(f"identification: {len(results) + len(parts) - len(failed)} passed, {len(failed)} failed")
    sys.exit(1 if failed else 0)


main()
