"""What a program's own help says of its commands and their options: the words that manual pages and completions are made of."""
import re
import subprocess
from dataclasses import dataclass, field

PROGRAM = "slaptools"
# A command, or what OpenLDAP's tool has, and behind two spaces or more what is said of it.
ROW = re.compile(r"  (\S.*?)  +(\S.*)")
# An option: its letter, its long name, the name of its value, which may say its words; and what is said of it. WORD, as in [WORD]..., belongs to no
# option.
OPTION = re.compile(r"  (?:  |(-\w))(?:,? +(--[\w-]+))?(?: <([\w=|-]+)>)?  +(\S.*)")
WORDS = re.compile(r"  \[(\w+)\]\.\.\.  +(\S.*)")


@dataclass
class Option:
    short: str | None
    long: str | None
    value: str | None
    text: str

    def names(self):
        return [name for name in (self.short, self.long) if name]


@dataclass
class Help:
    """The help of the program, or of one of its commands."""
    about: str
    usage: str
    # of the program, the commands; of a command, the words that belong to no option, and what OpenLDAP's tool has beside what stands for it here
    commands: dict = field(default_factory=dict)
    words: tuple | None = None
    options: list = field(default_factory=list)
    others: list = field(default_factory=list)
    # the heading of the last
    of_others: str | None = None


class NotUnderstood(Exception):
    """A line of a help that has no form that is known here."""


def said(program, *words):
    return subprocess.run([program, *words], check=True, stdin=subprocess.DEVNULL, capture_output=True, text=True).stdout


def put(read, heading, line):
    """Takes in a line under a heading of a help."""
    if heading == "Commands" and (row := ROW.fullmatch(line)):
        read.commands[row[1]] = row[2]
    elif heading == "Arguments" and (row := WORDS.fullmatch(line)):
        read.words = row.groups()
    elif heading == "Options" and (row := OPTION.fullmatch(line)):
        read.options.append(Option(*row.groups()))
    elif heading == read.of_others and (row := ROW.fullmatch(line)):
        read.others.append(row.groups())
    else:
        raise NotUnderstood(f"{heading}: {line}")


def help_of(program, command=None):
    """Reads the help of the program, or of a command. NotUnderstood where it has another form."""
    about, usage, *rest = said(program, "help", *([command] if command else [])).rstrip("\n").split("\n\n")
    read = Help(about, usage.removeprefix("Usage: "))
    for part in rest:
        heading, *lines = part.split("\n")
        heading = heading.removesuffix(":")
        if heading not in ("Commands", "Arguments", "Options"):
            read.of_others = heading
        for line in lines:
            put(read, heading, line)
    return read


def all_helps(program):
    """The help of the program, and that of each of its commands by its name."""
    whole = help_of(program)
    return whole, {name: help_of(program, name) for name in whole.commands if name != "help"}
