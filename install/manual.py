"""The manual pages: one of the program, and one of each command, in man(7).

What a page says of options is the help's; what it says of faults is that of docs/FAULTS.md; what is left is in `pages`."""
import re
from pathlib import Path

import roff
from helps import PROGRAM

HERE = Path(__file__).resolve().parent
TOP = HERE.parent
# Which parts of docs/FAULTS.md a page has.
FAULTS = {
    PROGRAM: ["What a command reports", "Order of checks", "Why: `-v`", "dir.conf"],
    "slapadd": ["LDIF", "Result codes"], "ldapmodify": ["LDIF", "Result codes"], "slapindex": ["index.txt"], "search": ["index.txt"],
    "check": ["What `check` reports", "dir.conf", "LDIF", "Result codes", "index.txt"], "schema": ["What `schema` prints"],
}


def date():
    """The day of the last change that a user meets."""
    return re.search(r"^## (\d{4}-\d\d-\d\d)$", (TOP / "CHANGELOG.md").read_text(), re.M)[1]


def title(command):
    return f"{PROGRAM}-{command}" if command else PROGRAM


def named(option):
    """An option and its value, as a page has it."""
    names = ", ".join(roff.bold(name) for name in option.names())
    return f"{names} {roff.italic(option.value)}" if option.value else names


def synopsis(command, read):
    """How a command is called."""
    words = [roff.bold(PROGRAM)] if not command else [f"{roff.bold(PROGRAM)} {roff.bold(command)}"]
    for option in read.options:
        if option.long == "--db" and "--db" in read.usage:
            words.append(named(option))
        elif option.long != "--help":
            words.append(f"[{named(option).replace(', ', '|')}]")
    if read.words:
        words.append(f"[{roff.italic(read.words[0])} ...]")
    return [" ".join(words)] if command else [" ".join(words), ".br", f"{roff.bold(PROGRAM)} {roff.italic('COMMAND')} ..."]


def options(read):
    """What the help says of each option, and of the words that belong to none."""
    rows = [([named(option)], option.text) for option in read.options]
    rows += [([roff.italic(read.words[0])], read.words[1])] if read.words else []
    return [line for (term,), text in rows for line in roff.item(term, roff.wrapped(roff.plain(f"{text}.")))]


def commands(read):
    return [line for name, text in read.commands.items() for line in roff.item(roff.bold(name), roff.wrapped(roff.plain(f"{text}.")))]


def others(read):
    """What stands for the options of OpenLDAP's tool."""
    return [line for theirs, ours in read.others for line in roff.item(roff.bold(theirs), roff.wrapped(roff.plain(f"{ours}.")))]


def see_also(command, names):
    pages = [title(None)] + [title(name) for name in names]
    listed = [f"{roff.bold(page)}(1)" for page in pages if page != title(command)]
    return [*(f"{page}," for page in listed[:-1]), listed[-1]]


def own_text(command, prefix):
    """What a page's own text says first, and behind it by headings, where the program is installed below a prefix."""
    text = (HERE / "pages" / f"{command or PROGRAM}.md").read_text().replace("PREFIX", str(prefix))
    first, *rest = re.split(r"^(?=## )", text, flags=re.M)
    return roff.lines_of(first), [line for part in rest for line in roff.lines_of(part)]


def faults(command):
    document, lines = (TOP / "docs/FAULTS.md").read_text(), []
    for name in FAULTS.get(command or PROGRAM, []):
        lines += roff.heading(name.replace("`", "")) + roff.lines_of(roff.section(document, name))
    return lines


def page(command, read, names, number, prefix):
    """The page of a command, or of the program where that is None, which has commands of these names, a number, and a prefix."""
    first, rest = own_text(command, prefix)
    lines = [f'.TH {title(command).upper()} 1 {date()} "{PROGRAM} {number}"']
    lines += [".SH NAME", *roff.wrapped(f"{title(command)} \\- {read.about[0].lower()}{read.about[1:]}")]
    lines += [".SH SYNOPSIS", *synopsis(command, read), ".SH DESCRIPTION", *first]
    lines += [".SH COMMANDS", *commands(read)] if read.commands else []
    lines += [".SH OPTIONS", *options(read)]
    lines += [*roff.heading(read.of_others), *others(read)] if read.others else []
    lines += [*rest, *roff.lines_of((HERE / "pages/exit_status.md").read_text()), *faults(command), ".SH SEE ALSO", *see_also(command, names)]
    # a heading begins a paragraph
    kept = [line for at, line in enumerate(lines) if line != ".PP" or not lines[at - 1].startswith(".SH")]
    return "\n".join(kept) + "\n"


def pages(whole, helps, number, prefix):
    """All pages: their names and their texts."""
    return {f"{title(command)}.1": page(command, read, helps, number, prefix) for command, read in {None: whole, **helps}.items()}
