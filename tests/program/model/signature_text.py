"""The texts of sequences and fragments in DROID's signature files, as regular expressions over bytes.

An expression has alternatives and ranges as they stand, so nothing is written out here as a converter does it. What a text has
for a registry stands beside it: how many patterns it becomes at most, how many bytes the longest has at most, and how they end.
"""

import re

LARGEST_NUMBER = 65_535
LONGEST_TEXT = 65_536
LONGEST_RANGE = 16
# how a pattern ends
BYTE, GAP, NOTHING = "byte", "gap", "nothing"

ITEM = re.compile(
    r"(?P<byte>[0-9A-Fa-f]{2})"
    r"|(?P<any>\?\?)"
    r"|\{(?P<exactly>[0-9]{1,5})\}"
    r"|\{(?P<least>[0-9]{1,5})-(?P<most>[0-9]{1,5}|\*)\}"
    r"|(?P<star>\*)"
    r"|\[(?P<low>(?:[0-9A-Fa-f]{2})+):(?P<high>(?:[0-9A-Fa-f]{2})+)\]"
    r"|\[!(?P<barred>[0-9A-Fa-f]{2})\]"
    r"|\[!(?P<from>[0-9A-Fa-f]{2}):(?P<to>[0-9A-Fa-f]{2})\]"
    r"|'(?P<quoted>[\x00-\x26\x28-\x7F]+)'"
)


class NotTaken(Exception):
    """No registry holds the signature."""


class Text:
    """An expression, and what a registry has for it."""

    def __init__(self, expression, length, ends, ways=1, is_run=False):
        self.expression = expression
        self.length = length
        self.ends = ends
        self.ways = ways
        self.is_run = is_run


EMPTY = Text(b"", 0, {NOTHING}, is_run=True)


def in_turn(texts):
    """Texts one behind the other."""
    whole = EMPTY
    for it in texts:
        ends = it.ends - {NOTHING} | (whole.ends if NOTHING in it.ends else set())
        whole = Text(whole.expression + it.expression, whole.length + it.length, ends, whole.ways * it.ways, whole.is_run and it.is_run)
    return whole


def any_of(texts):
    """One of several texts. Alternatives that are runs of bytes have a place in one pattern."""
    expression = b"(?:" + b"|".join(it.expression for it in texts) + b")"
    length = sum(it.length + 1 for it in texts) + 1
    ways = 1 if all(it.is_run for it in texts) else sum(it.ways for it in texts)
    return Text(expression, length, set().union(*(it.ends for it in texts)), ways)


def side_by_side(texts):
    """One of several texts that have offsets of their own, so that each has patterns of its own."""
    one = any_of(texts)
    return Text(one.expression, max(it.length for it in texts), one.ends, sum(it.ways for it in texts))


def literal(some):
    return b"".join(b"\\x%02x" % byte for byte in some)


def span(low, high):
    return b"[\\x%02x-\\x%02x]" % (low, high)


def gap(least, most):
    """Any bytes, from the least to the most in number; most may be None."""
    if least > LARGEST_NUMBER or (most is not None and (most > LARGEST_NUMBER or most < least)):
        raise NotTaken("a gap")
    return Text(b"[\\x00-\\xff]{%d,%s}" % (least, b"" if most is None else b"%d" % most), 13, {GAP})


def between(low, high):
    """As many bytes as in both bounds, which as big-endian numbers lie between them: they differ from a bound first at a place
    where they are larger than the low one, or less than the high one."""
    if len(low) != len(high) or low > high:
        raise NotTaken("a range")
    if len(low) > LONGEST_RANGE:
        raise NotTaken("a long range")
    above = [literal(low[:at]) + span(byte + 1, 255) for at, byte in enumerate(low) if byte < 255]
    below = [literal(high[:at]) + span(0, byte - 1) for at, byte in enumerate(high) if byte > 0]
    sides = b"(?=%s)(?=%s)" % (b"|".join([literal(low), *above]), b"|".join([literal(high), *below]))
    ways = 1 if len(low) == 1 else 2 * len(low) + 1
    return Text(sides + b"[\\x00-\\xff]{%d}" % len(low), 7 * len(low), {BYTE}, ways)


def outside(low, high):
    """One byte outside of a range."""
    if low > high or high - low == 255:
        raise NotTaken("a range")
    return Text(b"[^" + span(low, high)[1:], 3 * (255 - high + low) + 1, {BYTE})


def item_of(part):
    if part["byte"]:
        return Text(literal(bytes.fromhex(part["byte"])), 2, {BYTE}, is_run=True)
    if part["any"]:
        return Text(b"[\\x00-\\xff]", 2, {BYTE})
    if part["exactly"]:
        return gap(int(part["exactly"]), int(part["exactly"]))
    if part["least"]:
        return gap(int(part["least"]), None if part["most"] == "*" else int(part["most"]))
    if part["star"]:
        return gap(0, None)
    if part["low"]:
        return between(bytes.fromhex(part["low"]), bytes.fromhex(part["high"]))
    if part["barred"]:
        barred = int(part["barred"], 16)
        return Text(outside(barred, barred).expression, 5, {BYTE})
    if part["from"]:
        return outside(int(part["from"], 16), int(part["to"], 16))
    quoted = part["quoted"].encode("ascii")
    return Text(literal(quoted), 2 * len(quoted), {BYTE}, is_run=True)


def next_item(text, place):
    """The item at a place, and the place behind it."""
    found = ITEM.match(text, place)
    if found is None:
        raise NotTaken("a text")
    return item_of(found.groupdict()), found.end()


def items_of(text):
    parts, place = [], 0
    while place < len(text):
        part, place = next_item(text, place)
        parts.append(part)
    return in_turn(parts)


def marks(text, place):
    """The places of the characters that are not inside quoted text, from a place on."""
    quoted = False
    for at in range(place, len(text)):
        if text[at] == "'":
            quoted = not quoted
        elif not quoted:
            yield at


def closing(text, place):
    """The place of the parenthesis that closes the one at a place."""
    for at in marks(text, place + 1):
        if text[at] == ")":
            return at
    raise NotTaken("a text")


def alternatives(text):
    bars = [at for at in marks(text, 0) if text[at] == "|"]
    return [text[first:last] for first, last in zip([0] + [at + 1 for at in bars], bars + [len(text)])]


def read_text(text):
    """Reads the text of a sequence or a fragment: items, and alternatives in parentheses, each of one item or more."""
    if len(text.encode()) > LONGEST_TEXT:
        raise NotTaken("a long text")
    parts, place = [], 0
    while place < len(text):
        if text[place] != "(":
            part, place = next_item(text, place)
            parts.append(part)
            continue
        end = closing(text, place)
        ways = alternatives(text[place + 1 : end])
        if not all(ways):
            raise NotTaken("a text")
        parts.append(any_of([items_of(way) for way in ways]))
        place = end + 1
    return in_turn(parts)
