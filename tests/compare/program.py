#!/usr/bin/env python3
"""The second reading as a program with the words of slaptools: program.py WORD .. So the case files can be run through it, too."""
import argparse
import fcntl
import os
import sys
import time

import checks
import differences
import model
import schemas
import sorting
import suffixes


# the options of each command: the one that names a file, those that have another value, and those that stand alone
OPTIONS = {
    "slapadd": ("-l", ["--wait"], ["-c", "-u", "-v"]), "ldapmodify": ("-f", ["--wait"], ["-a", "-c", "-n", "-v"]),
    "slapindex": (None, ["--wait"], ["-v"]),
    "search": ("-f", ["-b", "-s", "-z", "-o"], ["-c", "--count", "-v"]), "slapcat": ("-l", ["-a", "-s", "--suffix", "-o"], ["-v"]),
    "ldifdiff": ("-l", ["-a", "-b"], ["--unordered", "-v"]), "check": ("-l", ["--unique", "--references"], ["-v"]), "sort": ("-l", [], []),
    "schema": ("-l", ["--db"], []),
}
WITHOUT_FOLDER = ("sort", "schema")


def parser_of_words():
    parser = argparse.ArgumentParser(prog="slaptools", allow_abbrev=False)
    parser.add_argument("-V", "--version", action="version", version="slaptools, as it is read a second time")
    commands = parser.add_subparsers(dest="command", required=True)
    parsers = {name: commands.add_parser(name, allow_abbrev=False) for name in OPTIONS}
    for name, (file, others, flags) in OPTIONS.items():
        if name not in WITHOUT_FOLDER:
            parsers[name].add_argument("--db", required=True, action=Once)
        if file is not None:
            parsers[name].add_argument(file, dest="file", action=Once)
        for option in others:
            parsers[name].add_argument(option, action=Once)
        for flag in flags:
            parsers[name].add_argument(flag, action=Once, nargs=0, const=True, default=False)
    parsers["search"].add_argument("words", nargs="*")
    parsers["help"] = commands.add_parser("help", allow_abbrev=False)
    parsers["help"].add_argument("of", nargs="?", choices=list(OPTIONS))
    return parser, parsers


class Once(argparse.Action):
    """An option that doesn't stand twice."""

    def __call__(self, parser, words, value, option_string=None):
        if getattr(words, self.dest) not in (None, False):
            parser.error(f"{option_string} twice")
        setattr(words, self.dest, self.const if self.nargs == 0 else value)


def read(path):
    try:
        with open(path, "rb") as file:
            return file.read()
    except OSError:
        return None


LOCKED = []     # open files, whose locks are held to the end


def is_in_use(folder, seconds):
    """Takes the lock of the directory in this folder, and tries for so long. -> whether another process holds it"""
    end = time.monotonic() + seconds
    while True:
        try:
            LOCKED.append(open(f"{folder}/dir.conf", "rb"))
            fcntl.flock(LOCKED[-1], fcntl.LOCK_EX | fcntl.LOCK_NB)
        except BlockingIOError:
            if time.monotonic() >= end:
                return True
            time.sleep(0.05)
            continue
        except OSError:
            pass        # it can't be read, either
        return False


def seconds_of(words):
    """-> the seconds that a command is to wait; None where they are none"""
    return model.limit_of(b"0" if words.wait is None else encoded(words.wait))


def in_use(folder):
    return 3, b"", f"{folder}: in use\n".encode()


def write(path, text):
    with open(path, "wb") as file:
        file.write(text)


def change(words):
    """slapadd or ldapmodify"""
    is_dry = words.u if words.command == "slapadd" else words.n
    if not is_dry and is_in_use(words.db, seconds_of(words)):
        return in_use(words.db)
    text, source = (read(words.file), words.file) if words.file is not None else (sys.stdin.buffer.read(), "input")
    files = read(f"{words.db}/dir.conf"), read(f"{words.db}/data.ldif"), text
    if words.command == "slapadd":
        status, messages, stored = model.slapadd(*files, words.c, words.u, words.db, source, words.v)
    else:
        status, messages, stored = model.ldapmodify(*files, words.a, words.c, words.n, words.db, source, words.v)
    store(words.db, stored)
    return status, b"", messages


def store(folder, files):
    for name, text in files.items():
        write(f"{folder}/{name}", text)


def slapindex(words):
    if is_in_use(words.db, seconds_of(words)):
        return in_use(words.db)
    status, messages, stored = model.slapindex(read(f"{words.db}/dir.conf"), read(f"{words.db}/data.ldif"), words.db, words.v)
    store(words.db, stored)
    return status, b"", messages


def encoded(text):
    return None if text is None else text.encode()


def is_own_file(folder, path):
    """Whether a file at this path would stand in the place of one of the directory in the folder."""
    beside, name = os.path.split(path)
    return name in ("dir.conf", "data.ldif", "index.txt") and os.path.realpath(beside) == os.path.realpath(folder)


def slapcat(words, parser):
    files = read(f"{words.db}/dir.conf"), read(f"{words.db}/data.ldif")
    if words.suffix is None:
        status, output, messages = model.slapcat(*files, words.db, encoded(words.a), encoded(words.s), words.v, encoded(words.o))
    elif words.a is None and words.s is None:
        status, output, messages = suffixes.slapcat(*files, words.db, encoded(words.suffix), words.v, encoded(words.o))
    else:
        status, output, messages = suffixes.not_a_part(words.a is not None)
    if messages is None:
        parser.error("no width")
    if words.file is None or status != 0:
        return status, output, messages
    if is_own_file(words.db, words.file):
        return 3, b"", f"{words.file}: cannot write\n".encode()
    write(words.file, output)
    return status, b"", messages


def named_text(words):
    """-> (the text of the file that is named, which with a hyphen is standard input, its name)"""
    return (sys.stdin.buffer.read(), "input") if words.file == "-" else (read(words.file), words.file)


def search(words, parser):
    files = read(f"{words.db}/dir.conf"), read(f"{words.db}/data.ldif")
    asked = [encoded(word) for word in words.words], encoded(words.b), encoded(words.s), encoded(words.z)
    status, output, messages = model.search(
        *files, words.db, *asked, read(f"{words.db}/index.txt"), words.v, words.count, None if words.file is None else model.Lines(*named_text(words), words.c), encoded(words.o))
    if messages is None:
        parser.error("no scope, no limit, or no width")
    return status, output, messages


def ldifdiff(words):
    text, source = (read(words.file), words.file) if words.file is not None else (sys.stdin.buffer.read(), "input")
    files = read(f"{words.db}/dir.conf"), read(f"{words.db}/data.ldif"), text
    return differences.ldifdiff(*files, words.db, source, encoded(words.a), encoded(words.b), words.unordered, words.v)


def check(words):
    files = (read(f"{words.db}/{name}") for name in ("dir.conf", "data.ldif", "index.txt"))
    over = None if words.file is None else checks.Over(*named_text(words))
    return checks.check(*files, words.db, encoded(words.unique), encoded(words.references), words.v, over)


def sort(words):
    text, source = (read(words.file), words.file) if words.file is not None else (sys.stdin.buffer.read(), "input")
    return sorting.sort(text, source)


def schema(words):
    conf = b"" if words.db is None else read(f"{words.db}/dir.conf")
    if conf is None:
        return 3, b"", f"{words.db}/dir.conf: cannot read\n".encode()
    text, source = (read(words.file), words.file) if words.file is not None else (sys.stdin.buffer.read(), "input")
    return schemas.with_details(text, conf, source)


def is_utf_8(word):
    try:
        word.encode()
    except UnicodeEncodeError:
        return False
    return True


def main():
    if not all(is_utf_8(word) for word in sys.argv[1:]):
        sys.stderr.write("command line: not UTF-8\n")
        return 2
    parser, parsers = parser_of_words()
    # argparse doesn't take two hyphens behind a command's options
    words = parser.parse_args(sys.argv[1:-1] if sys.argv[-1] == "--" else sys.argv[1:])
    if words.command == "help":
        parsers.get(words.of, parser).print_help()
        return 0
    if "wait" in words and seconds_of(words) is None:
        status, output, messages = model.bad_number(encoded(words.wait), b"--wait <SECONDS>")
    elif words.command in ("search", "slapcat"):
        status, output, messages = {"search": search, "slapcat": slapcat}[words.command](words, parsers[words.command])
    else:
        others = {"slapindex": slapindex, "ldifdiff": ldifdiff, "check": check, "sort": sort, "schema": schema}
        status, output, messages = others.get(words.command, change)(words)
    sys.stdout.buffer.write(output)
    sys.stderr.buffer.write(messages)
    return status


sys.exit(main())
