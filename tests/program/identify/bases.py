"""The basis of each format.

With random registries and files of up to 300 bytes, under some scan limits:
- the bytes of each match, cut out of the file, are matched by that sequence of that signature of that format, at an offset that is
  allowed and within the limit
- no match of that sequence has a lesser offset, and none at this offset is shorter: by trying all
- the signature is the first of the format's that hits, and formats that another one beats have no basis
- a format that the extension gives has the extension as its basis

The matcher is the model's (../model/pattern.py); nothing that is expected comes from the program.
"""

import os
import tempfile
import unittest
from random import Random

from asking import bytes_at, identify, json_lines, write
from found import find
from pattern import ends_of
from registry import Registry

ROUNDS, FORMATS, FILES = 12, 24, 16


def letters(random, count):
    return bytes(random.choices(b"ab", k=count))


def element(random):
    letter = letters(random, 1).hex()
    least = random.randrange(5)
    kinds = [letter, letter, "??", f"[61:{letter}]", f"[!{letter}]", "{%d-%d}" % (least, least + random.randrange(4)), "{%d-*}" % least]
    kinds.append("(%s|%s)" % (letters(random, 2).hex(), letters(random, 1).hex()))
    return random.choice(kinds)


def sequence(random):
    low = random.randrange(6)
    text = "".join([element(random) for _ in range(random.randrange(4))] + [letters(random, 1).hex()] + [element(random) for _ in range(random.randrange(3))])
    return f"{random.choice(['BOF', 'EOF'])},{low},{low + random.randrange(120)},{text}"


def registry_text(random):
    rows = []
    for number in range(FORMATS):
        rows.append(f"F,t/{number},Format {number},{number % 3 or ''},,")
        if number % 4 == 0:
            rows.append(f"E,t/{number},x{number},,,")
        for _ in range(random.randrange(3)):
            rows.append(f"S,t/{number},{sequence(random)}")
            rows += [f"B,t/{number},{sequence(random)}" for _ in range(random.randrange(2))]
    rows += [f"P,t/{random.randrange(8)},t/{random.randrange(8, FORMATS)},,," for _ in range(4)]
    return "".join(row + "\n" for row in rows).encode()


def matches_of(part, content, limit):
    """All matches of a byte sequence: pairs of an offset and a length."""
    anchor, least, most, elements = part
    window = content[:limit] if anchor == b"BOF" else content[max(0, len(content) - limit) :]
    found = []
    for begin in range(len(window) + 1):
        for end in ends_of(elements, window, [begin]):
            offset = begin if anchor == b"BOF" else len(window) - end
            if least <= offset <= most:
                found.append((offset, end - begin))
    return found


def check_signature(form, basis, signatures, content, limit):
    """Checks the basis of a format that a signature gives. `signatures` has all of the registry: pairs of a format and its parts."""
    owner, parts = signatures[basis["signature"]]
    assert owner == form["puid"]
    hitting = [
        place for place, (puid, others) in enumerate(signatures) if puid == owner and all(matches_of(part, content, limit) for part in others)
    ]
    assert basis["signature"] == hitting[0]
    assert len(basis["matches"]) == len(parts)
    for part, match in zip(parts, basis["matches"]):
        assert match["from"] == ("start" if part[0] == b"BOF" else "end")
        assert (match["offset"], match["length"]) == min(matches_of(part, content, limit))
        cut = bytes_at(content, match)
        assert len(cut) in ends_of(part[3], cut, [0])


def all_signatures(text, registry):
    """The signatures in the order of the file, as pairs of a PUID and the parts."""
    taken, found = {}, []
    for row in text.decode().splitlines():
        if row.startswith("S,"):
            puid = row.split(",")[1]
            form = registry.formats[puid.encode()]
            found.append((puid, form.signatures[taken.get(puid, 0)]))
            taken[puid] = taken.get(puid, 0) + 1
    return found


def check_round(seed, folder):
    random = Random(seed)
    text = registry_text(random)
    registry = Registry(text)
    signatures = all_signatures(text, registry)
    place = os.path.join(folder, "registry.csv")
    write(place, text)
    limit = random.choice([65536, 40, 7])
    contents = {}
    for number in range(FILES):
        name = os.path.join(folder, f"{number}.x{number}")
        contents[name] = letters(random, random.randrange(300))
        write(name, contents[name])
    out, err, status = identify("--registry", place, "--limit", str(limit), "--json", *contents)
    assert status == 0 and not err, (status, err)
    lines = json_lines(out)
    assert [line["path"] for line in lines] == list(contents)
    for line in lines:
        content = contents[line["path"]]
        method, formats, mismatch = find(registry, os.path.basename(line["path"]).encode(), content, limit, False)
        assert (line["method"] or "") == method.lower() and line["mismatch"] == mismatch and line["size"] == len(content)
        assert [form["puid"] for form in line["formats"]] == [form.puid.decode() for form in formats]
        for form in line["formats"]:
            if method == "Signature":
                check_signature(form, form["basis"], signatures, content, limit)
            else:
                assert form["basis"] == {"extension": line["path"].rsplit(".", 1)[1]}


class Bases(unittest.TestCase):
    def test_each_match_is_the_nearest_and_shortest(self):
        for seed in range(ROUNDS):
            with self.subTest(seed=seed), tempfile.TemporaryDirectory() as folder:
                check_round(seed, folder)


if __name__ == "__main__":
    unittest.main()
