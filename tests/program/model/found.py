"""The formats of a file: by signatures, or else by the extension."""

from pattern import ends_of


def find(registry, name, content, limit, match_all):
    """Identifies a whole file: the method, the formats and the mismatch."""
    formats = left(hits(registry, content, limit))
    ending = extension(name).lower()
    if formats:
        return "Signature", formats, is_mismatch(formats, ending)
    formats = listing(registry, ending, match_all)
    return ("Extension" if formats else ""), formats, False


def hits(registry, content, limit):
    """Returns the formats with a signature whose byte sequences all match."""
    first = content[:limit]
    last = content[max(0, len(content) - limit):]
    return [
        form
        for form in registry.formats.values()
        if any(all(is_hit(part, first, last) for part in signature) for signature in form.signatures)
    ]


def is_hit(part, first, last):
    anchor, least, most, elements = part
    if anchor == b"BOF":
        starts = range(least, min(most, len(first)) + 1)
        return bool(ends_of(elements, first, starts))
    ends = ends_of(elements, last, range(len(last) + 1))
    return any(least <= len(last) - end <= most for end in ends)


def left(formats):
    """Returns the formats over which no other has priority."""
    return [form for form in formats if not any(form.puid in other.below for other in formats)]


def listing(registry, ending, match_all):
    if not ending:
        return []
    return [
        form
        for form in registry.formats.values()
        if ending in form.extensions and (match_all or not form.signatures)
    ]


def is_mismatch(formats, ending):
    listed = [form.extensions for form in formats if form.extensions]
    return bool(ending) and bool(listed) and not any(ending in extensions for extensions in listed)


def extension(name):
    """Returns the bytes after the last dot, unless that is the first byte."""
    dot = name.rfind(b".")
    return name[dot + 1:] if dot > 0 else b""
