"""Random small documents, mostly XML, of a signature file's elements: some are changed at a few places, so that about half are
no XML. Non-ASCII characters are such that each edition of XML 1.0 has them in names or none has."""

NAMES = ["a", "FileFormat", "Extension", "b-1", "x:y", "_", "é.中", "xml1"]
TEXTS = ["gif", " ", "\n", "\t", "é", "中", "😀", "]]", "]>", ">", "'", '"', "--", "\u0085", "\ufeff", "\x7f"]
REFERENCES = ["&lt;", "&gt;", "&amp;", "&apos;", "&quot;", "&#65;", "&#x41;", "&#x1F600;", "&#10;", "&#9;", "&#xD;", "&#x20;"]
BAD_REFERENCES = ["&nbsp;", "&#0;", "&#x1;", "&#xFFFE;", "&#xD800;", "&#x110000;", "&#;", "&#x;", "&;", "&lt", "& ", "&#6A;", "&LT;"]
INSERTED = [
    *"<>&\"'/=!?-[]; :.a1\0\x01\x0b", "\xff", "\x80", "]]>", "--", "<!--", "-->", "<![CDATA[", "<?", "?>", "<?xml version='1.0'?>", "<?XML ?>", "<a>", "</a>",
    "<a/>", "<!DOCTYPE a>", "<!DOCTYPE a [<!ENTITY b 'c'>]>", "a='1' a='2'", " a=1", "\r", "\r\n",
]


def spaces(random, least=0):
    return "".join(random.choices(" \n\t", k=random.choice([least, least, 1, 2])))


def some_text(random):
    return "".join(random.choice(random.choice([TEXTS, TEXTS, REFERENCES])) for _ in range(random.randrange(4)))


def value(random):
    """The value of an attribute between its quotes."""
    quote = random.choice("\"'")
    parts = [random.choice(random.choice([TEXTS, REFERENCES, ["f/1", "7"]])) for _ in range(random.randrange(4))]
    return quote + "".join(part for part in parts if quote not in part) + quote


def attributes(random, names):
    return "".join(f"{spaces(random, 1) or ' '}{name}{spaces(random)}={spaces(random)}{value(random)}" for name in names)


def aside(random):
    """A comment, a processing instruction, a CDATA section, or nothing."""
    body = random.choice(["", " ", "a", "é\n", "<b>&", "- "])
    return random.choice(["", "", f"<!--{body}-->", f"<?{random.choice(NAMES)}?>", f"<?{random.choice(NAMES)} {body}?>", f"<![CDATA[{body}]]]>"])


def element(random, depth):
    name = random.choice(NAMES)
    some = random.sample(NAMES, random.choice([0, 0, 1, 2]))
    tag = f"<{name}{attributes(random, some)}{spaces(random)}"
    if random.randrange(3) == 0:
        return tag + "/>"
    return f"{tag}>{inside(random, depth)}</{name}{spaces(random)}>"


def inside(random, depth):
    parts = []
    for _ in range(random.randrange(4)):
        parts += [some_text(random), aside(random)]
        if depth and random.randrange(2):
            parts.append(element(random, depth - 1))
    return "".join(parts)


def file_format(random, number):
    """A format whose name and extension are random texts."""
    extension = "".join([some_text(random), aside(random), some_text(random)])
    return (
        f"<FileFormat ID='{number}' PUID=\"f/{number}\" Name={value(random)} Version={value(random)}{attributes(random, [])}>"
        f"<Extension>{extension}</Extension>{inside(random, 2)}</FileFormat>"
    )


def prolog(random):
    quote = random.choice("\"'")
    words = ["version=" + quote + random.choice(["1.0", "1.0", "1.1", "2"]) + quote]
    if random.randrange(2):
        words.append("encoding=" + quote + random.choice(["UTF-8", "utf-8", "Utf-8"]) + quote)
    if random.randrange(3) == 0:
        words.append("standalone=" + quote + random.choice(["yes", "no"]) + quote)
    mark = random.choice(["", "", "\ufeff"])
    return mark + random.choice(["", f"<?xml {(spaces(random) + ' ').join(words)}{spaces(random)}?>"])


def outside(random):
    """What may stand before and behind the root."""
    return random.choice(["", "\n", " \t", "<!-- -->", "<?a b?>\n"])


def changed(random, text):
    """A document with a few bytes taken out, put in or replaced."""
    for _ in range(random.choice([1, 1, 2, 3])):
        place = random.randrange(len(text) + 1)
        new = random.choice(random.choice([INSERTED, BAD_REFERENCES])).encode("latin-1")
        text = text[:place] + random.choice([b"", new, new]) + text[place + random.choice([0, 0, 1, 1, 5]) :]
    return text


def document(random):
    """A document of at most about 2,000 bytes."""
    collection = "".join(file_format(random, number) for number in range(1, random.choice([1, 2, 3]) + 1))
    root = f"<FFSignatureFile{attributes(random, ['Version', 'DateCreated'])}><FileFormatCollection>{collection}</FileFormatCollection></FFSignatureFile>"
    if random.randrange(5) == 0:
        root = element(random, 4)
    text = "".join([prolog(random), outside(random), root, outside(random)]).encode()
    text = text.replace(b"\n", random.choice([b"\n", b"\n", b"\r\n", b"\r"]))
    return changed(random, text) if random.randrange(5) < 3 else text
