"""The records of a CSV text: commas, double quotes, inner quotes doubled, and any end of a line."""

import re

END = re.compile(rb"[,\r\n]|\Z")
LINE_ENDS = re.compile(rb"[\r\n]*")
COMMA, QUOTE = b",", b'"'
BYTE_ORDER_MARK = b"\xef\xbb\xbf"


def records_of(text):
    """Yields each record of the text as a list of fields. Empty lines are skipped."""
    if text.startswith(BYTE_ORDER_MARK):
        text = text[len(BYTE_ORDER_MARK):]
    place = LINE_ENDS.match(text).end()
    while place < len(text):
        fields, place = record_at(text, place)
        yield fields
        place = LINE_ENDS.match(text, place).end()


def record_at(text, place):
    """Reads the record that begins at a place, and returns the place after it too."""
    fields = []
    while True:
        field, place = field_at(text, place)
        fields.append(field)
        end = text[place:place + 1]
        place += 1
        if end != COMMA:
            return fields, place


def field_at(text, place):
    """Reads the field that begins at a place, and returns the place of its end too."""
    field = b""
    if text[place:place + 1] == QUOTE:
        field, place = quoted_at(text, place + 1)
    end = END.search(text, place).start()
    return field + text[place:end], end


def quoted_at(text, place):
    """Reads the text between quotes, and returns the place after the last quote too."""
    field = b""
    while True:
        end = text.find(QUOTE, place)
        if end < 0:
            return field + text[place:], len(text)
        field += text[place:end]
        if text[end + 1:end + 2] != QUOTE:
            return field, end + 1
        field += QUOTE
        place = end + 2
