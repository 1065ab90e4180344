"""The records of registries/common.csv, and samples of its formats."""

import csv

import archives
import documents
import pictures
import programs_and_data
import sound_and_film
import texts
from lib.program import EVERYDAY

with open(EVERYDAY, "rb") as file:
    REGISTRY = file.read()

SAMPLES = [
    sample
    for written in (pictures, documents, archives, sound_and_film, texts, programs_and_data)
    for sample in written.SAMPLES
]


class Format:
    def __init__(self, puid, name, version, media_type):
        self.puid = puid
        self.title = f"{name} {version}" if version else name
        self.media_type = media_type
        self.extensions = []
        self.signatures = []
        self.below = []


def read_formats():
    """Returns the formats by their identifiers, in their order. A signature is a list of byte sequences: anchor,
    least, most, pattern."""
    formats = {}
    for kind, puid, *rest in csv.reader(REGISTRY.decode("utf-8").splitlines()):
        if kind == "F":
            formats[puid] = Format(puid, *rest[:3])
        elif kind == "E":
            formats[puid].extensions.append(rest[0])
        elif kind == "P":
            formats[puid].below.append(rest[0])
        elif kind == "S":
            formats[puid].signatures.append([tuple(rest)])
        else:
            formats[puid].signatures[-1].append(tuple(rest))
    return formats


FORMATS = read_formats()
