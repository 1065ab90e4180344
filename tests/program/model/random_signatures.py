"""Random signature files over three letters, so that their signatures often hit random files."""

from xml.sax.saxutils import escape

NAMES = ["Plain", "A < B & C", 'A "quoted" name, with a comma', "Größe", "it's", "x" * 255, "  two  spaces ", "N"]


def letters(random, count):
    return bytes(random.choices(b"abc", k=count))


def digits(some):
    return some.hex().upper()


def one_of(random, count):
    """Returns True in one of `count` cases, by chance."""
    return random.randrange(count) == 0


def item(random):
    letter = digits(letters(random, 1))
    least = random.randrange(4)
    low, high = sorted(letters(random, 2 + (not random.randrange(3))) for _ in range(2))
    if len(low) != len(high):
        low, high = letters(random, 1) * 2, b"\xff\xff"
    shapes = [
        "??",
        f"[61:{letter}]",
        f"[!{letter}]",
        f"[!{letter}:63]",
        "{%d}" % least,
        "{%d-%d}" % (least, least + random.randrange(3)),
        random.choice(["*", "{1-*}"]),
        f"[{digits(low)}:{digits(high)}]",
        f"'{letters(random, random.randrange(1, 3)).decode()}'",
    ]
    return random.choice(shapes) if one_of(random, 3) else letter.lower() if one_of(random, 9) else letter


def alternative(random):
    return "".join(item(random) if one_of(random, 3) else digits(letters(random, 1)) for _ in range(random.randrange(1, 3)))


def text(random):
    """The text of a sequence or a fragment; one of thirty has something that no registry holds."""
    parts = []
    for _ in range(random.choice([1, 1, 2, 2, 3])):
        ways = [alternative(random) for _ in range(random.randrange(1, 4))]
        parts.append("(" + "|".join(ways) + ")" if one_of(random, 7) else item(random))
    if parts[-1][-1] in "}*" and not one_of(random, 6):
        parts.append(digits(letters(random, 1)))
    whole = "".join(parts)
    bad = ["[&01]", "6", "~61", "()", "'", "[6263:61]", "[6263:6162]", "{5-2}", "{70000}", "(61|(62))", "[61]", "[!6161:6262]", "6 1"]
    return escape(whole + random.choice(bad) if one_of(random, 30) else whole)


def attributes(random, values):
    """Attributes in any order, in both quotes."""
    pairs = list(values.items())
    random.shuffle(pairs)
    written = []
    for name, value in pairs:
        quote = random.choice("\"'")
        value = escape(str(value), {quote: "&quot;" if quote == '"' else "&#39;"})
        written.append(f"{random.choice([' ', ' ', chr(10)])}{name}={quote}{value}{quote}")
    return "".join(written)


def element(random, name, values, inner=""):
    """An element; one of fifty has an attribute that means nothing."""
    if one_of(random, 50):
        values = values | {random.choice(["Odd", "Endianness"]): "1"}
    return f"<{name}{attributes(random, values)}>{inner}</{name}>" if inner or one_of(random, 2) else f"<{name}{attributes(random, values)}/>"


def joined(random, parts):
    """Elements with a line end, a comment or nothing between them; one of thirty has one that means nothing."""
    if one_of(random, 30):
        parts = [*parts, "<Odd>61<Sequence>62</Sequence></Odd>"]
    return random.choice(["", "\n", "<!-- -->"]).join(parts)


def fragment(random, side, position):
    least = random.randrange(3)
    values = {"Position": position, "MinOffset": least, "MaxOffset": least + random.randrange(3)}
    if one_of(random, 60):
        values.pop("MaxOffset")
    if one_of(random, 60):
        values["MaxOffset"] = least - 1 if least else 70_000
    if one_of(random, 60):
        values.pop("MinOffset")
    return element(random, side, values, text(random))


def fragments(random, side):
    found, position = [], 1
    while one_of(random, 3):
        found += [fragment(random, side, position) for _ in range(random.choice([1, 1, 2]))]
        position += 2 if one_of(random, 40) else 1
    return found


def subsequence(random, position):
    least = random.randrange(4)
    values = {"Position": position, "SubSeqMinOffset": least}
    if position == 1:
        values["SubSeqMaxOffset"] = least + random.choice([0, 0, 1, 5, 200])
    elif one_of(random, 2):
        values["SubSeqMaxOffset"] = 7 if one_of(random, 30) else 0
    if one_of(random, 60):
        values["Position"] = position + 1
    parts = [f"<Sequence>{text(random)}</Sequence>", *fragments(random, "LeftFragment"), *fragments(random, "RightFragment")]
    if one_of(random, 3):
        parts.append('<DefaultShift>5</DefaultShift><Shift Byte="61">1</Shift>')
    random.shuffle(parts)
    return element(random, "SubSequence", values, joined(random, parts))


def byte_sequence(random):
    reference = random.choice(["BOFoffset"] * 5 + ["EOFoffset"] * 4 + ["Variable"] * one_of(random, 3))
    count = 1
    if reference == "BOFoffset":
        while one_of(random, 3):
            count += 1
    elif one_of(random, 40):
        count = random.choice([0, 2])
    parts = [subsequence(random, place) for place in range(1, count + 1)]
    return element(random, "ByteSequence", {} if one_of(random, 40) else {"Reference": reference}, joined(random, parts))


def signature(random, number):
    parts = 0 if one_of(random, 60) else random.choice([1, 1, 1, 2])
    inner = "".join(byte_sequence(random) for _ in range(parts))
    return element(random, "InternalSignature", {"ID": number, "Specificity": "Specific"}, inner)


def numbered(name, numbers):
    return [f"<{name}>{it}</{name}>" for it in numbers]


def file_format(random, number, ids, places):
    """A format with its own signature and perhaps another's; each of its parts is seldom one that no registry takes."""
    values = {"ID": ids[number], "PUID": f"f/{number}", "Name": random.choice(NAMES), "Version": random.choice(["", "1.0"]), "MIMEType": "a/b"}
    if one_of(random, 40):
        values.pop(random.choice(["PUID", "Name", "Version", "MIMEType"]))
    if one_of(random, 40):
        values[random.choice(["PUID", "Name", "Version"])] = random.choice(["", "f/1", "f.1", "x" * 256])
    named = [number] * (not one_of(random, 9)) + random.sample(places, random.choice([0, 0, 1])) + [99] * one_of(random, 40)
    endings = random.choices(["txt", "abc", "Straße", "a.b", "", "x" * 65], [9, 9, 2, 1, 1, 1], k=random.randrange(3))
    below = random.sample(places, random.choice([0, 0, 1, 2])) if one_of(random, 2) else []
    parts = [
        *numbered("InternalSignatureID", named),
        *numbered("Extension", endings),
        *numbered("HasPriorityOverFileFormatID", [ids[it] for it in below] + [7] * one_of(random, 40)),
    ]
    random.shuffle(parts)
    return element(random, "FileFormat", values, joined(random, parts))


def signature_file(random, count):
    """A file of as many signatures, and as many formats, whose IDs are in no order."""
    places = range(1, count + 1)
    ids = dict(zip(places, random.sample(range(100, 100 + count), count)))
    if one_of(random, 20):
        ids[1] = ids[2]
    signatures = [signature(random, 1 if one_of(random, 60) else number) for number in places]
    formats = [file_format(random, number, ids, places) for number in places]
    head = random.choice(['<?xml version="1.0" encoding="UTF-8"?>\n', "\ufeff<?xml version='1.0'?>", ""])
    collections = [
        element(random, "InternalSignatureCollection", {}, joined(random, signatures)),
        element(random, "FileFormatCollection", {}, joined(random, formats)),
    ]
    random.shuffle(collections)
    root = element(random, "FFSignatureFile", {"Version": count, "DateCreated": "2026-01-01", "xmlns": "x"}, joined(random, collections))
    return (head + root).replace("\n", random.choice(["\n", "\r\n", "\r"])).encode()
