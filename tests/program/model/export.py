"""The export of a profile: the records that a filter selects, and their text."""

from datetime import date

from found import extension

COLUMNS = (
    b"ID PARENT_ID URI FILE_PATH NAME METHOD STATUS SIZE TYPE EXT LAST_MODIFIED EXTENSION_MISMATCH "
    b"%s FORMAT_COUNT PUID MIME_TYPE FORMAT_NAME FORMAT_VERSION"
)
HASH_COLUMNS = {"none": b"HASH", "md5": b"MD5_HASH", "sha256": b"SHA256_HASH"}
PLAIN = b"ABCDEFGHIJKLMNOPQRSTUVWXYZabcdefghijklmnopqrstuvwxyz0123456789-._~/"
DAY = 86_400
FIRST_DAY = date(1970, 1, 1).toordinal()


def export_text(nodes, every, criteria, hash):
    """Returns the header, which names the hash, and the rows of the selected nodes."""
    rows = [(COLUMNS % HASH_COLUMNS[hash]).split()]
    for node in nodes:
        if is_shown(node, every, criteria):
            rows += rows_of(node)
    return b"".join(b",".join(quoted(field) for field in row) + b"\n" for row in rows)


def quoted(field):
    return b'"' + field.replace(b'"', b'""') + b'"'


def is_shown(node, every, criteria):
    met = [meets(node, name, value) for name, value in criteria]
    if every:
        return all(met)
    return not met or any(met)


def meets(node, name, value):
    if name == "method":
        return node.method == value
    if name == "puid":
        return any(form.puid in value for form in node.formats)
    if name == "ext":
        return ending_of(node).lower() in [text.lower() for text in value]
    if name == "mismatch":
        return node.mismatch == value
    if name == "atleast":
        return node.is_file and node.size >= value
    if name == "atmost":
        return node.is_file and node.size <= value
    return node.is_file == (value == "File")


def ending_of(node):
    return extension(node.name) if node.is_file else b""


def rows_of(node):
    """Yields a row for each format, or one with the last four fields empty."""
    front = [
        decimal(node.number),
        decimal(node.parent) if node.parent else b"",
        b"file:" + escaped(node.path) + (b"" if node.is_file else b"/"),
        node.path,
        node.name,
        node.method.encode("ascii"),
        b"Done",
        decimal(node.size) if node.is_file else b"",
        b"File" if node.is_file else b"Folder",
        ending_of(node),
        moment_text(node.modified),
        b"true" if node.mismatch else b"false",
        node.digest.encode("ascii") if node.is_file else b"",
        decimal(len(node.formats)) if node.is_file else b"",
    ]
    if not node.formats:
        return [front + [b"", b"", b"", b""]]
    return [front + [form.puid, form.mime, form.name, form.version] for form in node.formats]


def decimal(number):
    return str(number).encode("ascii")


def escaped(path):
    return b"".join(bytes([byte]) if byte in PLAIN else b"%%%02X" % byte for byte in path)


def moment_text(seconds):
    """Formats a moment. Days before 1970 are negative, the time of day never is."""
    day, second = divmod(seconds, DAY)
    time = f"{second // 3600:02}:{second // 60 % 60:02}:{second % 60:02}"
    return f"{date.fromordinal(FIRST_DAY + day).isoformat()}T{time}".encode("ascii")
