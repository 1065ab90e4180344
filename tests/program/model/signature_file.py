"""DROID's signature files: what they say, which files of bytes their formats hit, and what of them a registry can hold.

This follows the format as The National Archives publishes it, and docs/REGISTRY.md for what a registry holds.
"""

import re

from document import read_document
from registry import EXTENSION, PUID
from signature_text import BYTE, LARGEST_NUMBER, NotTaken, gap, in_turn, read_text, side_by_side

# what one signature may become in a registry
MOST_WAYS = 64
LONGEST_PATTERN = 4_096
MOST_IN_ALL = 16_384
LARGEST_POSITION = 64

NUMBER = re.compile("[0-9]+")
SPACE = " \t\r\n"

# the elements that may stand in an element, and its attributes
KNOWN = {
    "FFSignatureFile": (["InternalSignatureCollection", "FileFormatCollection"], ["xmlns", "Version", "DateCreated"]),
    "InternalSignatureCollection": (["InternalSignature"], []),
    "InternalSignature": (["ByteSequence"], ["ID", "Specificity"]),
    "ByteSequence": (["SubSequence"], ["Reference"]),
    "SubSequence": (["Sequence", "LeftFragment", "RightFragment"], ["Position", "SubSeqMinOffset", "SubSeqMaxOffset"]),
    "LeftFragment": ([], ["Position", "MinOffset", "MaxOffset"]),
    "RightFragment": ([], ["Position", "MinOffset", "MaxOffset"]),
    "FileFormatCollection": (["FileFormat"], []),
    "FileFormat": (["InternalSignatureID", "Extension", "HasPriorityOverFileFormatID"], ["ID", "PUID", "Name", "Version", "MIMEType"]),
}
# search tables, which mean nothing
TABLES = ["DefaultShift", "Shift"]


class NotASignatureFile(Exception):
    """It is an XML document, but not of a signature file."""


def number(text):
    """A number that an attribute or an element says, of 32 bits."""
    digits = (text or "").strip(SPACE)
    if not NUMBER.fullmatch(digits) or len(digits.lstrip("0")) > 10 or int(digits) >= 2**32:
        raise NotASignatureFile
    return int(digits)


def optional(element, name):
    return None if element.attributes.get(name) is None else number(element.attributes[name])


def text_of(element):
    return element.text.strip(SPACE)


def texts(element, name):
    return [text_of(it) for it in element.named(name)]


class Fragment:
    def __init__(self, element):
        self.position = number(element.attributes.get("Position"))
        self.offsets = optional(element, "MinOffset"), optional(element, "MaxOffset")
        self.text = text_of(element)


class SubSequence:
    def __init__(self, element):
        self.position = number(element.attributes.get("Position"))
        self.offsets = optional(element, "SubSeqMinOffset"), optional(element, "SubSeqMaxOffset")
        sequences = texts(element, "Sequence")
        if len(sequences) != 1:
            raise NotASignatureFile
        self.text = sequences[0]
        self.left = [Fragment(it) for it in element.named("LeftFragment")]
        self.right = [Fragment(it) for it in element.named("RightFragment")]


def lower(offsets):
    least = offsets[0] or 0
    if least > LARGEST_NUMBER:
        raise NotTaken("an offset")
    return least


def bounds(offsets):
    least, most = lower(offsets), offsets[1]
    if most is None or most > LARGEST_NUMBER or most < least:
        raise NotTaken("an offset")
    return least, most


def levels(fragments):
    """The fragments of each position, from 1 on."""
    positions = {it.position for it in fragments}
    if positions != set(range(1, len(positions) + 1)) or len(positions) > LARGEST_POSITION:
        raise NotTaken("positions")
    return [[it for it in fragments if it.position == position] for position in sorted(positions)]


def away(fragment):
    """How far a fragment lies from what is further in."""
    least, most = bounds(fragment.offsets)
    return [gap(least, most)] if most else []


def part_text(part):
    """A subsequence: left fragments from the outermost in, the sequence, right fragments from the innermost out."""
    left = [side_by_side([in_turn([read_text(it.text), *away(it)]) for it in level]) for level in levels(part.left)]
    right = [side_by_side([in_turn([*away(it), read_text(it.text)]) for it in level]) for level in levels(part.right)]
    return in_turn([*reversed(left), read_text(part.text), *right])


class ByteSequence:
    """A byte sequence, and what it means: from where its offsets count, and an expression that has them."""

    def __init__(self, element):
        self.reference = element.attributes.get("Reference")
        self.parts = [SubSequence(it) for it in element.named("SubSequence")]

    def understand(self):
        if self.reference not in ("BOFoffset", "EOFoffset"):
            raise NotTaken("another reference")
        if [it.position for it in self.parts] != list(range(1, len(self.parts) + 1)) or not self.parts:
            raise NotTaken("positions")
        first, *further = self.parts
        if self.reference == "EOFoffset" and further:
            raise NotTaken("several from the end")
        least, most = bounds(first.offsets)
        whole = [part_text(first)]
        for part in further:
            if part.offsets[1]:
                raise NotTaken("an upper offset")
            whole += [gap(lower(part.offsets), None), part_text(part)]
        text = in_turn(whole)
        if text.ends != {BYTE}:
            raise NotTaken("a gap at the end")
        self.ways, self.length = text.ways, text.length
        away = gap(least, most).expression
        if self.reference == "BOFoffset":
            self.expression = re.compile(away + text.expression)
        else:
            self.expression = re.compile(b"%s(?=%s\\Z)" % (text.expression, away))

    def hits(self, content, limit):
        """Whether it hits, where a match lies wholly in the first or the last bytes, as many as the limit."""
        if self.reference == "BOFoffset":
            return self.expression.match(content[:limit]) is not None
        return self.expression.search(content[max(0, len(content) - limit) :]) is not None


class Signature:
    """A signature. The reason says why no registry holds it; where there is none, the signature certainly fits into one where
    `is_small`, and otherwise a registry may have no room for all its alternatives."""

    def __init__(self, element):
        self.id = number(element.attributes.get("ID"))
        self.sequences = [ByteSequence(it) for it in element.named("ByteSequence")]
        self.reason, self.is_small = None, False
        try:
            if not self.sequences:
                raise NotTaken("no byte sequence")
            for it in self.sequences:
                it.understand()
        except NotTaken as reason:
            self.reason = reason.args[0]
            return
        ways = 1
        for it in self.sequences:
            ways *= it.ways
        self.is_small = ways <= MOST_WAYS and all(it.length <= LONGEST_PATTERN and it.ways * it.length <= MOST_IN_ALL for it in self.sequences)

    def hits(self, content, limit):
        return self.reason is None and all(it.hits(content, limit) for it in self.sequences)


class FileFormat:
    def __init__(self, element):
        attribute = element.attributes.get
        self.id = number(attribute("ID"))
        self.puid = attribute("PUID")
        self.notes = [attribute(name) or "" for name in ("Name", "Version", "MIMEType")]
        self.signatures = [number(text) for text in texts(element, "InternalSignatureID")]
        self.extensions = texts(element, "Extension")
        self.priorities = [number(text) for text in texts(element, "HasPriorityOverFileFormatID")]

    def fits(self):
        """Whether a registry without formats takes it."""
        sizes = [len(it.encode()) for it in self.notes]
        return PUID.fullmatch((self.puid or "").encode()) is not None and sizes[0] > 0 and max(sizes) <= 255


def unknown_names(element, found):
    """Counts the names of elements and attributes that mean nothing, but for what stands inside such elements."""
    elements, attributes = KNOWN.get(element.name, ([], []))
    for name in element.attributes:
        if name not in attributes:
            found["attribute", name] = found.get(("attribute", name), 0) + 1
    for it in element.elements:
        if it.name in elements:
            unknown_names(it, found)
        elif it.name not in TABLES:
            found["element", it.name] = found.get(("element", it.name), 0) + 1
    return found


class SignatureFile:
    """The formats and signatures of a document's root."""

    def __init__(self, root):
        if root.name != "FFSignatureFile":
            raise NotASignatureFile
        self.version, self.created = (root.attributes.get(name) or "" for name in ("Version", "DateCreated"))
        self.unknown = unknown_names(root, {})
        signatures = [Signature(it) for of in root.named("InternalSignatureCollection") for it in of.named("InternalSignature")]
        self.formats = [FileFormat(it) for of in root.named("FileFormatCollection") for it in of.named("FileFormat")]
        ids = [it.id for it in signatures]
        self.signatures = {it.id: it for it in signatures if ids.count(it.id) == 1}
        self.unnamed = [it for it in ids if not any(it in form.signatures for form in self.formats)]
        self.choose()

    def choose(self):
        """Chooses what a registry takes of formats, extensions and priorities, and notes what it does not: the format, what it is,
        and its name."""
        self.kept, self.left_out = {}, []
        for form in self.formats:
            if form.fits() and form.puid not in self.kept:
                self.kept[form.puid] = form
            else:
                self.left_out.append((f"format {form.id}" if form.puid is None else form.puid, "format", ""))
        self.extensions, self.over = [], []
        for form in self.kept.values():
            for it in form.extensions:
                if EXTENSION.fullmatch(it.encode()):
                    self.extensions.append((form.puid, it))
                else:
                    self.left_out.append((form.puid, "extension", it))
            for it in form.priorities:
                others = [other.puid for other in self.kept.values() if other.id == it]
                if len(others) == 1 and others[0] != form.puid:
                    self.over.append((form.puid, others[0]))
                else:
                    self.left_out.append((form.puid, "priority over format", str(it)))

    def lost(self, signatures):
        """What a registry does not have without these signatures of formats, in the order of a report: formats, extensions and
        priorities, these signatures, formats of which no signature is left, and signatures that no format names."""
        left = [(puid, "signature", str(it)) for puid, form in self.kept.items() for it in form.signatures if (puid, it) in signatures]
        without = [
            (puid, "format", "") for puid, form in self.kept.items() if form.signatures and all((puid, it) in signatures for it in form.signatures)
        ]
        kinds = ["format", "extension", "priority over format"]
        others = [it for kind in kinds for it in self.left_out if it[1] == kind]
        return [*others, *left, *without, *(("", "signature", str(it)) for it in self.unnamed)]

    def rows(self):
        """The rows of a registry's formats, extensions and priorities."""
        yield from (["F", form.puid, *form.notes, ""] for form in self.kept.values())
        yield from (["E", puid, extension, "", "", ""] for puid, extension in self.extensions)
        yield from (["P", puid, other, "", "", ""] for puid, other in self.over)

    def hit(self, content, limit, left_out=()):
        """The PUIDs of the formats that hit, without the signatures that are left out of them."""
        return [
            puid
            for puid, form in self.kept.items()
            if any(
                (puid, it) not in left_out and it in self.signatures and self.signatures[it].hits(content, limit)
                for it in form.signatures
            )
        ]

    def find(self, content, limit, left_out=()):
        """The PUIDs of the formats that a file is identified as by its bytes: those that hit and over which none of these has
        priority."""
        found = self.hit(content, limit, left_out)
        return [puid for puid in found if not any((other, puid) in self.over for other in found)]


def read_signature_file(text):
    """Reads a signature file: None where it is no XML document without a document type declaration."""
    root = read_document(text)
    return None if root is None else SignatureFile(root)
