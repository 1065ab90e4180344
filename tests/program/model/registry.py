"""Registry files: the formats, and the signatures, extensions and priorities of each."""

import re

from pattern import BadPattern, read_pattern
from records import records_of

LONGEST_FILE = 16_777_216
MOST_FORMATS = 4096
MOST_RECORDS = 16_384
MOST_SEQUENCES = 32_768

PUID = re.compile(rb"[0-9A-Za-z/-]{1,32}")
EXTENSION = re.compile(rb"[^./]{1,64}", re.DOTALL)
OFFSET = re.compile(rb"[0-9]{1,5}")


class RegistryFault(Exception):
    """The file is no registry: the fault's name, and the number of the record, if it has one."""

    def __init__(self, name, record=None):
        super().__init__(name if record is None else f"{name} at {record}")


class RecordFault(Exception):
    """A record is wrong."""


class Format:
    def __init__(self, puid, name, version, mime):
        self.puid = puid
        self.name = name
        self.version = version
        self.mime = mime
        self.extensions = set()
        self.below = set()
        self.signatures = []


class Registry:
    def __init__(self, text):
        self.formats = {}
        self.counts = {"E": 0, "P": 0, "S": 0, "sequences": 0}
        self.going_on = None
        if len(text) > LONGEST_FILE:
            raise RegistryFault("TooLong")
        for number, fields in enumerate(records_of(text), 1):
            try:
                self.take(fields)
            except RecordFault as fault:
                raise RegistryFault(fault.args[0], number) from None

    def take(self, fields):
        if len(fields) != 6:
            raise RecordFault("BadRecord")
        if not all(is_text(field) for field in fields):
            raise RecordFault("NotUtf8")
        kinds = {
            b"F": self.take_format,
            b"E": self.take_extension,
            b"P": self.take_priority,
            b"S": self.take_signature,
            b"B": self.take_sequence,
        }
        check(fields[0] in kinds, "BadRecord")
        kinds[fields[0]](*fields[1:])

    def take_format(self, puid, name, version, mime, empty):
        sizes = 1 <= len(name) <= 255 and len(version) <= 255 and len(mime) <= 255
        check(is_puid(puid) and sizes and not empty, "BadRecord")
        check(puid not in self.formats, "DuplicatePuid")
        check(len(self.formats) < MOST_FORMATS, "TooMany")
        self.formats[puid] = Format(puid, name, version, mime)
        self.going_on = None

    def take_extension(self, puid, extension, *empty):
        check(is_puid(puid) and EXTENSION.fullmatch(extension) and not any(empty), "BadRecord")
        check(puid in self.formats, "UnknownPuid")
        self.count("E", MOST_RECORDS)
        self.formats[puid].extensions.add(extension.lower())
        self.going_on = None

    def take_priority(self, puid, other, *empty):
        check(is_puid(puid) and is_puid(other) and puid != other and not any(empty), "BadRecord")
        check(puid in self.formats and other in self.formats, "UnknownPuid")
        self.count("P", MOST_RECORDS)
        self.formats[puid].below.add(other)
        self.going_on = None

    def take_signature(self, puid, anchor, least, most, text):
        check(is_puid(puid), "BadRecord")
        offsets = offsets_of(anchor, least, most)
        check(puid in self.formats, "UnknownPuid")
        elements = elements_of(text)
        self.count("S", MOST_RECORDS)
        self.count("sequences", MOST_SEQUENCES)
        self.formats[puid].signatures.append([offsets + (elements,)])
        self.going_on = puid

    def take_sequence(self, puid, anchor, least, most, text):
        offsets = offsets_of(anchor, least, most)
        check(puid == self.going_on, "BadRecord")
        elements = elements_of(text)
        self.count("sequences", MOST_SEQUENCES)
        self.formats[puid].signatures[-1].append(offsets + (elements,))

    def count(self, kind, most):
        self.counts[kind] += 1
        check(self.counts[kind] <= most, "TooMany")


def check(holds, fault):
    if not holds:
        raise RecordFault(fault)


def is_text(field):
    try:
        field.decode("utf-8")
        return True
    except UnicodeDecodeError:
        return False


def is_puid(field):
    return PUID.fullmatch(field) is not None


def offsets_of(anchor, least, most):
    check(anchor in (b"BOF", b"EOF"), "BadRecord")
    check(OFFSET.fullmatch(least) and OFFSET.fullmatch(most), "BadRecord")
    least, most = int(least), int(most)
    check(least <= most <= 65535, "BadRecord")
    return anchor, least, most


def elements_of(text):
    try:
        return read_pattern(text)
    except BadPattern:
        raise RecordFault("BadPattern") from None
