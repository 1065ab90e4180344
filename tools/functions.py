"""The functions of a source file in the layout of `rt fmt`, and what a check reports of each."""
import re

HEADER = re.compile(r"( *)(?:pub(?:\([^)]*\))? )?(?:const |unsafe )*fn (\w+)")
CLAUSE = re.compile(r" *(?:requires|ensures|ghost)\b")
# errors of a proof that uses a name that an edit removed, or a lemma that is refused
OF_NAMES = re.compile(r"proofs/.*(has no field|is not in scope|has no `|was not admitted)")


def body_of(lines, at):
    """Returns the lines of the body of the function whose header begins at this line, between its braces. After
    clauses the opening brace has a line of its own."""
    indent, has_clauses = HEADER.match(lines[at])[1], False
    for line in range(at, len(lines)):
        has_clauses = has_clauses or bool(CLAUSE.match(lines[line]))
        if lines[line] == indent + "{" or not has_clauses and lines[line].endswith("{"):
            ends = (it for it in range(line + 1, len(lines)) if lines[it] == indent + "}")
            return range(line + 1, next(ends, line + 1))
        if lines[line].endswith(";") or lines[line] in (indent + "}", indent + "{}") or not has_clauses and lines[line].endswith("}"):
            break
    return range(0)


def block_of(lines, at):
    """Returns the header of the block around a line, such as `impl Display for Fault`, or "" at the top."""
    indent = len(lines[at]) - len(lines[at].lstrip())
    for it in range(at, -1, -1):
        line = lines[it]
        if line.strip() and len(line) - len(line.lstrip()) < indent and re.match(r" *(impl|trait|mod|pub trait|pub mod)\b", line):
            return " ".join(" ".join(lines[it : at]).split("{")[0].split())
    return ""


def function_of(text, place):
    """Returns the block and the name of the function whose body has this place of a text, or None."""
    lines, line = text.split("\n"), text.count("\n", 0, place)
    headers = [it for it in range(line, -1, -1) if HEADER.match(lines[it]) and line in body_of(lines, it)]
    return (block_of(lines, headers[0]), HEADER.match(lines[headers[0]])[2]) if headers else None


def functions_in(text):
    """Yields the block and the name of each function of a text, and its lines: from the comment and the attributes above
    it to the end of its body, or of its clauses where it has none."""
    lines = text.split("\n")
    for at in [it for it in range(len(lines)) if HEADER.match(lines[it])]:
        begin, body = at, body_of(lines, at)
        while begin and re.match(r" *(///|//|#\[)", lines[begin - 1]):
            begin -= 1
        # (without lines of a body it ends with `{}`, or with a `;` where it has none)
        end = body.stop if body else next((it for it in range(at, len(lines)) if lines[it].endswith((";", "{}"))), at)
        yield (block_of(lines, at), HEADER.match(lines[at])[2]), range(begin, end + 1)


def in_one_word(type, generics):
    """Spells a type or trait as a check does in the name of an impl: `&mut [u8]` is RefMutSliceU8."""
    words = re.findall(r"&|\[|'\w+|\w+", type)
    signs = {"&": "Ref", "[": "Slice"}
    return "".join(signs.get(it, it[0].upper() + it[1:]) for it in words if it[0] != "'" and it not in generics)


def module_of(file):
    """Returns the path of the module of a source file, "" for the root."""
    return re.sub(r"(^|/)(mod|lib|main)$", "", file[len("src/") : -len(".rt")]).replace("/", "::")


def type_of(block):
    """Returns the word for the type of an impl and the one for its trait, "" where there is none."""
    header = re.match(r"impl(?:<(.*?)>)? (?:(.*) for )?(.*)", re.sub(r" where .*", "", block))
    if not header:
        return "", ""
    generics = re.findall(r"(?:^|, )(\w+)", header[1] or "")
    return in_one_word(re.sub(r"(\w)<.*", r"\1", header[3]), generics), in_one_word(header[2] or "", generics)


def names_of(crate, file, block, name):
    """Returns a pattern of the paths by which a check may name this function: a type's own functions by the type's
    module, and those of a trait by the type and the trait."""
    type, of_trait = type_of(block)
    if not type:
        return re.compile(name_of(crate, file, block, name))
    return re.compile(rf"{crate}::(?:\w+::)*{type}{of_trait}" + r"\w*" * bool(of_trait) + f"::{name}")


def name_of(crate, file, block, name):
    """Returns the name of this function for a check: its path, or of an impl the end of its path."""
    type = "".join(type_of(block))
    return f"{type}::{name}" if type else "::".join(filter(None, [crate, module_of(file), name]))


class Said:
    """The output of a check: for each function by its path the verdict, and the notes right before it."""

    def __init__(self, said):
        self.lines = said.split("\n")
        self.functions, notes = {}, []
        for line in self.lines:
            at = re.match(r"(fn|impl|struct|enum|trait) (\S+): (.*)", line)
            if at and at[1] == "fn":
                self.functions[at[2]] = at[3], [it for it in notes if it.startswith("note: src/")]
            notes = [] if at else [*notes, line]

    def errors_of(self, path):
        """Returns the errors in the files of the function's own proof."""
        at = "proofs/" + "/".join(path.split("::")[1:]) + "/"
        return [it for it in self.lines if re.match(r"(\./)?" + re.escape(at) + r"[^/]+:\d+:\d+: error", it)]

    def refused(self, path):
        """Returns why the function itself is refused, or None if it is refused only because of one that it calls,
        or not at all."""
        verdict, notes = self.functions[path]
        if verdict == "proved":
            return None
        if "`search` did not prove" in verdict:
            return (notes or [verdict])[0]
        return next((it for it in self.errors_of(path) if not OF_NAMES.search(it)), None)
