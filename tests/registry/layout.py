"""Numbers and parts of files as bytes, for samples that are written from a specification.

A sample is an identifier, a name, and the bytes of a file. The program has to identify it as that format alone,
with no mismatch.
"""


def le16(*values):
    return b"".join(value.to_bytes(2, "little") for value in values)


def le32(*values):
    return b"".join(value.to_bytes(4, "little") for value in values)


def be16(*values):
    return b"".join(value.to_bytes(2, "big") for value in values)


def be32(*values):
    return b"".join(value.to_bytes(4, "big") for value in values)


def be64(value):
    return value.to_bytes(8, "big")


def le64(value):
    return value.to_bytes(8, "little")


def riff(form, *chunks, name=b"RIFF"):
    """A RIFF file of chunks (name, content)."""
    body = form + b"".join(kind + le32(len(part)) + part + bytes(len(part) % 2) for kind, part in chunks)
    return name + le32(len(body)) + body


def iff(form, *chunks):
    """The same with big-endian numbers."""
    body = form + b"".join(kind + be32(len(part)) + part + bytes(len(part) % 2) for kind, part in chunks)
    return b"FORM" + be32(len(body)) + body


def box(kind, *parts):
    """A box of ISO base media files."""
    body = b"".join(parts)
    return be32(8 + len(body)) + kind + body


def brand(major, *others):
    """A file type box."""
    return box(b"ftyp", major, be32(0), major, *others)
