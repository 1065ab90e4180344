"""The patterns of byte sequences, and the places where they match.

A pattern is a list of elements. An element is a pair of a kind and what belongs to it:
    ('class', bytes that pass)    ('gap', least, most or None)    ('choice', alternatives)
"""

import re

LONGEST_TEXT = 4096
LARGEST_NUMBER = 65535

ELEMENT = re.compile(
    rb"(?P<byte>[0-9A-Fa-f]{2})"
    rb"|(?P<any>\?\?)"
    rb"|\{(?P<exactly>[0-9]{1,5})\}"
    rb"|\{(?P<least>[0-9]{1,5})-(?P<most>[0-9]{1,5}|\*)\}"
    rb"|(?P<star>\*)"
    rb"|\[(?P<low>[0-9A-Fa-f]{2}):(?P<high>[0-9A-Fa-f]{2})\]"
    rb"|\[!(?P<barred>[0-9A-Fa-f]{2})\]"
    rb"|\((?P<choice>(?:[0-9A-Fa-f]{2})+(?:\|(?:[0-9A-Fa-f]{2})+)*)\)"
)


class BadPattern(Exception):
    """The text is no pattern."""


def read_pattern(text):
    """Reads the elements of a pattern's text."""
    if len(text) > LONGEST_TEXT:
        raise BadPattern
    elements = []
    place = 0
    while place < len(text):
        found = ELEMENT.match(text, place)
        if found is None:
            raise BadPattern
        elements.append(element_of(found))
        place = found.end()
    if all(element[0] == "gap" for element in elements):
        raise BadPattern
    return elements


def element_of(found):
    part = found.groupdict()
    if part["byte"]:
        return ("class", {int(part["byte"], 16)})
    if part["any"]:
        return ("class", set(range(256)))
    if part["exactly"]:
        return gap(int(part["exactly"]), int(part["exactly"]))
    if part["least"]:
        most = None if part["most"] == b"*" else int(part["most"])
        return gap(int(part["least"]), most)
    if part["star"]:
        return gap(0, None)
    if part["low"]:
        return between(int(part["low"], 16), int(part["high"], 16))
    if part["barred"]:
        return ("class", set(range(256)) - {int(part["barred"], 16)})
    digits = part["choice"].decode("ascii").split("|")
    return ("choice", [bytes.fromhex(alternative) for alternative in digits])


def gap(least, most):
    if least > LARGEST_NUMBER:
        raise BadPattern
    if most is not None and (most > LARGEST_NUMBER or least > most):
        raise BadPattern
    return ("gap", least, most)


def between(low, high):
    if low > high:
        raise BadPattern
    return ("class", set(range(low, high + 1)))


def ends_of(elements, window, starts):
    """Returns the ends, in the window, of the matches that begin at one of the starts."""
    places = set(starts)
    for element in elements:
        places = places_after(element, window, places)
    return places


def places_after(element, window, places):
    if element[0] == "class":
        return {place + 1 for place in places if place < len(window) and window[place] in element[1]}
    if element[0] == "choice":
        return {
            place + len(alternative)
            for place in places
            for alternative in element[1]
            if window.startswith(alternative, place)
        }
    return places_after_gap(element[1], element[2], window, places)


def places_after_gap(least, most, window, places):
    if not places:
        return set()
    if most is None:
        return set(range(min(places) + least, len(window) + 1))
    reached = set()
    done = 0
    for place in sorted(places):
        first = max(done, place + least)
        last = min(place + most, len(window))
        reached.update(range(first, last + 1))
        done = max(done, last + 1)
    return reached
