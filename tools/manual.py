"""The manual page of droid_desk and its completions for bash, made from the help texts of the built program, so
that they always fit it."""
import re
import subprocess

NAME = "droid_desk"
# the sections of a help text that have a heading
COMMANDS, ARGUMENTS, OPTIONS = "Commands:", "Arguments:", "Options:"
# a row of these sections: a name and its text
ROW = re.compile(r" {2,}((?:-\w, )?\S+(?: <\w+>)?|<\w+>|\[\w+\])(?: {2,}(.*))?$")
# an option in such a name
OPTION = re.compile(r"--?[\w-]+")
# names of values that are paths
PATHS = ("FILE", "DIR", "PAGE", "OUT")
# values that an option's text lists: `md5 (default), sha256 or none`
VALUES = re.compile(r": ((?:\w+(?: \(default\))?, )*\w+ or \w+)\b")


def said(program, *words):
    """Returns what the program prints for these words, or nothing where it doesn't know them."""
    run = subprocess.run([program, *words], stdin=subprocess.DEVNULL, capture_output=True, text=True)
    return run.stdout if run.returncode == 0 else ""


class Help:
    """A help text: the summary, the usage, the rows of each section, and the paragraphs after them."""

    def __init__(self, text):
        paragraphs = [part for part in text.rstrip("\n").split("\n\n") if part.strip()]
        self.sections, self.usage, summary, self.rest = {}, "", [], []
        for part in paragraphs:
            heading, *lines = part.strip("\n").split("\n")
            if heading.startswith("Usage: "):
                self.usage = heading[len("Usage: ") :]
            elif heading in (COMMANDS, ARGUMENTS, OPTIONS):
                self.sections[heading] = list(rows_of(lines))
            else:
                (self.rest if self.usage else summary).append(part.strip("\n"))
        self.summary = " ".join(summary)

    def rows(self, heading):
        return self.sections.get(heading, [])

    def names(self, heading):
        return [name for name, _ in self.rows(heading)]

    def options(self):
        """Returns the spellings of each option, the name of its value or None, and its text."""
        for name, text in self.rows(OPTIONS):
            value = re.search(r"<(\w+)>", name)
            yield OPTION.findall(name), value and value[1], text


def rows_of(lines):
    """Yields names and texts. A line that begins no row goes on with the text of the one before."""
    row = None
    for line in lines:
        found = ROW.match(line)
        if found and (row is None or len(line) - len(line.lstrip()) < 10):
            if row:
                yield tuple(row)
            row = [found[1], found[2] or ""]
        elif row:
            row[1] = f"{row[1]} {line.strip()}".strip()
    if row:
        yield tuple(row)


def helps_of(program):
    """Returns the program's own help text, and that of each command by its name."""
    top = Help(said(program, "--help"))
    commands = [name for name in top.names(COMMANDS) if name != "help"]
    return top, {name: Help(said(program, name, "--help")) for name in commands}


def escaped(text):
    """Escapes a text for groff."""
    text = text.replace("\\", "\\e").replace("-", "\\-").replace("'", "\\(aq").replace("`", "\\(ga").replace("^", "\\(ha").replace("~", "\\(ti")
    return "\n".join("\\&" + line if line.startswith(".") else line for line in text.split("\n"))


def page_of_rows(rows):
    for name, text in rows:
        bold = re.sub(r"<(\w+)>", r"\\fI\1\\fR", escaped(name))
        yield f".TP\n\\fB{bold}\\fR\n{escaped(text) or '.'}"


def page_of_rest(paragraphs):
    """Yields paragraphs as they stand: a heading ends in a colon, and a table has lines that begin with spaces."""
    for part in paragraphs:
        if part.endswith(":") and "\n" not in part and not part.startswith(" "):
            yield f".PP\n.B {escaped(part)}"
        elif re.search(r"^ ", part, re.M):
            yield f".PP\n.nf\n{escaped(part)}\n.fi"
        else:
            yield f".PP\n{escaped(part)}"


def page_of_help(help):
    for heading in (ARGUMENTS, OPTIONS):
        if help.rows(heading):
            yield f".PP\n.B {heading}"
            yield from page_of_rows(help.rows(heading))
    yield from page_of_rest(help.rest)


def page(program):
    """Returns the manual page, as groff's macros `man` have it."""
    top, commands = helps_of(program)
    version = said(program, "--version").strip() or NAME
    brief = re.split(r"[:.]", top.summary)[0]
    parts = [
        f'.TH {NAME.upper()} 1 "" "{escaped(version)}" "User Commands"',
        ".ad l",
        f".SH NAME\n{NAME} \\- {escaped(brief[:1].lower() + brief[1:])}",
        f".SH SYNOPSIS\n\\fB{escaped(top.usage)}\\fR",
        f".SH DESCRIPTION\n{escaped(top.summary)}",
        *page_of_rest(top.rest),
        ".SH COMMANDS",
        *page_of_rows(top.rows(COMMANDS)),
        ".SH OPTIONS",
        *page_of_rows(top.rows(OPTIONS)),
    ]
    for name, help in commands.items():
        parts += [f".SH {escaped(name.upper())}", f"\\fB{escaped(help.usage)}\\fR", f".PP\n{escaped(help.summary)}.", *page_of_help(help)]
    return "\n".join(parts) + "\n"


def value_cases(commands):
    """Yields for each option with a value how that is completed: by listed values, or as the shell does it."""
    seen = {}
    for help in commands.values():
        for spellings, value, text in help.options():
            listed = VALUES.search(text)
            if value:
                words = listed[1].replace(" (default)", "").replace(",", "").replace(" or ", " ") if listed and value not in PATHS else ""
                seen.update((spelling, (value, words)) for spelling in spellings)
    for spelling, (value, words) in seen.items():
        if words:
            yield f"        {spelling}) COMPREPLY=($(compgen -W '{words}' -- \"$current\")); return ;;"
        elif value in PATHS:
            yield f"        {spelling}) COMPREPLY=($(compgen -f -- \"$current\")); return ;;"
        else:
            yield f"        {spelling}) COMPREPLY=(); return ;;"


def options_of(help):
    return " ".join(spelling for spellings, _, _ in help.options() for spelling in spellings)


def completions(program):
    """Returns completions for bash, as a script that is sourced."""
    top, commands = helps_of(program)
    names = top.names(COMMANDS)
    lines = [
        f"# Completions of {NAME} for bash, made by tools/manual.py from the program's help texts.",
        f"_{NAME}() {{",
        "    local current=${COMP_WORDS[COMP_CWORD]} previous=${COMP_WORDS[COMP_CWORD - 1]} command= word words",
        '    for word in "${COMP_WORDS[@]:1:COMP_CWORD - 1}"; do',
        f"        case $word in {'|'.join(names)}) command=$word; break ;; esac",
        "    done",
        "    case $previous in",
        *value_cases(commands),
        "    esac",
        "    case $command in",
        f"        '') words='{' '.join(names)} {options_of(top)}' ;;",
        f"        help) words='{' '.join(commands)}' ;;",
        *(f"        {name}) words='{options_of(help)}' ;;" for name, help in commands.items()),
        "    esac",
        '    COMPREPLY=($(compgen -W "$words" -- "$current"))',
        "}",
        f"complete -o bashdefault -o default -F _{NAME} {NAME}",
    ]
    return "\n".join(lines) + "\n"
