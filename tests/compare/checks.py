"""What check reports of the files of a directory: faults of dir.conf; or refused records of data.ldif, and of another file over it, index.txt where
it isn't what slapindex writes of data.ldif, names of no entry, and values that several entries have. Behind that it warns of what dir.conf says and
counts for nothing.
"""
import collections
import itertools
import os
import re
from dataclasses import dataclass, field
from typing import Optional

import differences
import indexes
import ldif
import model
import schema
import values

MOST_FAULTS = 2000
# the rules that are known (RFC 4517, 4.2), by the fields that state them
RULES = {
    b"equality": b"""caseIgnoreMatch caseIgnoreIA5Match caseExactMatch caseExactIA5Match numericStringMatch telephoneNumberMatch integerMatch
        booleanMatch octetStringMatch distinguishedNameMatch objectIdentifierMatch""".split(),
    b"ordering": b"caseIgnoreOrderingMatch caseExactOrderingMatch numericStringOrderingMatch integerOrderingMatch octetStringOrderingMatch".split(),
    b"substr": b"""caseIgnoreSubstringsMatch caseIgnoreIA5SubstringsMatch caseExactSubstringsMatch caseExactIA5SubstringsMatch
        numericStringSubstringsMatch telephoneNumberSubstringsMatch""".split(),
}
OCTET_STRING = b"40"


@dataclass(frozen=True)
class Over:
    """A file of which the records are added over those of data.ldif: its text, None where it can't be read, and its name."""
    text: Optional[bytes]
    source: str

    def shown(self):
        """The name in one field of one line."""
        return without_controls(os.fsencode(self.source))


def without_controls(text):
    return b"".join(b"\\%02X" % byte if byte < 32 or byte == 127 else bytes([byte]) for byte in text)


@dataclass
class Checked:
    """The lines that are reported, whether they are of dir.conf, those that are warnings, and what is said with `-v`: lists of sentences, of which one
    is told."""
    lines: list = field(default_factory=list)
    warnings: list = field(default_factory=list)
    said: list = field(default_factory=list)
    is_of_conf: bool = False

    def report(self, kind, where, what):
        self.lines.append(b"\t".join([kind, where, what]) + b"\n")

    def output(self):
        return b"".join(self.lines + self.warnings)

    def status(self):
        return 1 if self.lines else 0


def check(conf_text, data, index, folder, unique=None, references=None, verbose=False, over=None):
    """-> (status, output, messages)"""
    checked = Checked()
    try:
        check_files(checked, conf_text, data, index, folder, unique, references, over)
    except model.Ended as end:
        return end.status, b"", messages_of(checked, verbose) + end.told(verbose)
    return checked.status(), checked.output(), messages_of(checked, verbose)


def messages_of(checked, verbose):
    return "".join(ways[0] for ways in checked.said).encode() if verbose else b""


def check_files(checked, conf_text, data, index, folder, unique=None, references=None, over=None):
    """What is reported of the files of a folder, where None stands for one that isn't there, and of the file `over` them, if there is one. The options
    are lists of types with commas between, or None."""
    if conf_text is None:
        raise model.Ended(3, f"{folder}/dir.conf: cannot read", "  no such file or folder\n")
    checked.warnings += [b"warning\tdir.conf\tline %d: %b\n" % warning for warning in warnings_of(conf_text)]
    faults, has_more = faults_of(conf_text)
    for fault, number in told_of(conf_text, faults):
        checked.report(b"faulty", b"dir.conf", str(fault).removeprefix("dir.conf ").encode())
        if number:
            needing = b"1 line that needs it is" if number == 1 else b"%d lines that need it are" % number
            checked.report(b"note", b"dir.conf", b"line %d: %b left out" % (fault.line, needing))
        checked.said.append([fault.why])
        checked.is_of_conf = True
    if has_more:
        checked.report(b"faulty", b"dir.conf", b"more faults: the first %d are told or left out" % MOST_FAULTS)
    if checked.is_of_conf:
        return
    directory = model.Directory(schema.read_conf(conf_text))
    meant = types_named(directory.conf, references)
    alone = types_named(directory.conf, unique)
    report_refused(checked, directory, b"data.ldif", data or b"")
    # index.txt is that of data.ldif alone, and its line stands behind those of the other file
    of_index = Checked()
    if index is not None:
        report_index(of_index, directory, index)
    if over is not None:
        if over.text is None:
            raise model.Ended(3, f"{over.source}: cannot read", "  no such file or folder\n")
        report_refused(checked, directory, over.shown(), over.text)
    checked.lines += of_index.lines
    report_dangling(checked, directory, meant)
    for number in dict.fromkeys(alone or ()):
        report_shared(checked, directory, number)


def faults_of(text):
    """The first fault of a dir.conf; and those of the text where the line at fault, with those that it goes on on, is a comment.
    -> (so many at most, whether there are more)"""
    found = []
    while True:
        try:
            schema.read_conf(text)
            return found, False
        except schema.Fault as fault:
            if len(found) == MOST_FAULTS:
                return found, True
            found.append(fault)
            # a line that is missing can't become a comment
            if fault.line == 0:
                return found, False
            lines = text.split(b"\n")
            lines[fault.line - 1] = b"#" + lines[fault.line - 1][1:]
            text = b"\n".join(lines)


def told_of(text, faults):
    """Those of the first faults of a dir.conf that aren't left out, each with how many are that count with it. A line is left out that needs a name or
    an OID that isn't defined, since a line at fault would have defined it; it counts with that line, or with the one that that line counts with.
    -> [(fault, number)]"""
    lines = dict(schema.joined_lines(text))
    lost = {b"attributetype": {}, b"objectclass": {}}
    told, number_of = [], collections.Counter()
    for fault in faults:
        word, rest = words_of(lines.get(fault.line, b""))
        root = None
        if fault.code == "C4":
            needed = word if word == b"objectclass" and fault.keyword == b"sup" else b"attributetype"
            root = lost[needed].get(fault.word.lower())
        if root is None:
            told.append(fault)
        else:
            number_of[root] += 1
        for name in would_define(word, rest) if word in lost else ():
            lost[word].setdefault(name.lower(), fault.line if root is None else root)
    return [(fault, number_of[fault.line]) for fault in told]


def words_of(line):
    """-> (the first word of a line, in lower case, and what stands behind it)"""
    word, rest = re.fullmatch(rb"([^ \t]*)(.*)", line, re.DOTALL).groups()
    return word.lower(), rest


def would_define(word, text):
    """The OID and the names in a definition. Where that can't be read, its first word, and what stands in quotes right behind the first word NAME;
    words end at blanks and parentheses."""
    try:
        oid, fields = {b"attributetype": schema.read_type, b"objectclass": schema.read_class}[word](text)
        return [oid, *fields.get(b"name", [])]
    except schema.Wrong:
        pass
    words = [word for word in re.split(rb"[ \t()]", text) if word]
    at = next((at for at, word in enumerate(words, 1) if word.lower() == b"name"), len(words))
    quoted = itertools.takewhile(lambda word: len(word) > 1 and word[:1] == word[-1:] == b"'", words[at:])
    return words[:1] + [word[1:-1] for word in quoted]


def warnings_of(text):
    """What the definitions of a dir.conf say that counts for nothing, where they can be read. -> (number of the line, what it is)"""
    for number, line in schema.joined_lines(text):
        word, rest = words_of(line)
        read = {b"attributetype": schema.read_type, b"objectclass": schema.read_class}.get(word)
        if read is None:
            continue
        try:
            oid, fields = read(rest)
        except schema.Wrong:
            continue
        called = (fields.get(b"name") or [oid])[0]
        if oid in schema.BUILT_IN:
            yield number, called + b" is built in, and this definition is skipped"
        elif read is schema.read_type:
            yield from ((number, b"%b's %b: %b isn't known%b" % (called, *what)) for what in unknown(fields))


def unknown(fields):
    """-> (field, what it states, and a known rule in brackets) for each that isn't known"""
    for name, known in RULES.items():
        stated = fields.get(name)
        if stated is not None and stated.lower() not in [rule.lower() for rule in known]:
            near = [rule for rule in known if differ_by_one(rule.lower(), stated.lower())]
            yield name.upper(), without_controls(stated), b" (%b is)" % near[0] if near else b""
    syntax = fields.get(b"syntax")
    if syntax is not None and syntax not in [values.PREFIX + number for number in [*values.KINDS, OCTET_STRING]]:
        yield b"SYNTAX", syntax, b""


def differ_by_one(one, other):
    """Whether one byte put in, taken out or replaced makes a text the other one."""
    if len(one) > len(other):
        one, other = other, one
    if len(one) == len(other):
        return sum(a != b for a, b in zip(one, other)) == 1
    return any(other[:at] + other[at + 1:] == one for at in range(len(other)))


def types_named(conf, text):
    """-> the numbers of the types that a text names; None without a text"""
    if text is None:
        return None
    numbers = [conf.type_of(name) for name in text.split(b",")]
    if None in numbers:
        raise model.Ended(2, f"check: {text.decode()}: {model.Refused(17)}")
    return numbers


def report_refused(checked, directory, name, text):
    """Adds the records of the file of this name; those that can't be added are reported as slapadd -c does."""
    told = model.Told()
    report = model.run(directory, text, True, told=told)
    for line in report.splitlines():
        checked.report(b"refused", name, line.encode())
    checked.said += [ways for _, ways in told.refusals]


def report_index(checked, directory, text):
    """Where it isn't what slapindex writes: its fault, or else the line on which it goes on otherwise, and the first key under which it has not the
    same entries."""
    dump = directory.dump()
    due = indexes.index_text(directory.conf, dump)
    if text == due:
        return
    try:
        rows = indexes.read(directory.conf, dump, text)
        line = os.path.commonprefix([text, due]).count(b"\n") + 1
        what = b"line %d: of another dir.conf: run slapindex (%b)" % (line, first_other(directory.conf, rows, indexes.read(directory.conf, dump, due)))
    except indexes.Fault as fault:
        what = str(fault).encode()
    checked.report(b"faulty", b"index.txt", what)


def first_other(conf, rows, due):
    """The first slot and key, in order, of which the entries differ."""
    for number, place in sorted(due):
        one, other = rows[number, place], due[number, place]
        for key in sorted({*one, *other}):
            if one.get(key) != other.get(key):
                return b"slot %b %b, key %b" % (conf.types[number].printed(), indexes.KINDS[place], key.hex().encode() or b"-")
    return b""


def report_value(checked, kind, directory, path, number, value):
    """Of an entry: its name, and a value as a line of LDIF, whatever its length."""
    line = ldif.written_line(directory.conf.types[number].printed(), value, model.UNFOLDED)
    checked.report(kind, differences.name_of(directory, path), line.removesuffix(b"\n"))


def report_dangling(checked, directory, meant):
    for path in sorted(directory.entries):
        for number, values in directory.entries[path][1].values.items():
            if directory.conf.types[number].kind == "name" and (meant is None or number in meant):
                for value in values.values():
                    if is_dangling(directory, value):
                        report_value(checked, b"dangling", directory, path, number, value)


def is_dangling(directory, name):
    try:
        return directory.located(name)[1] not in directory.entries
    except model.Refused:
        # of another directory
        return False


def report_shared(checked, directory, number):
    """Each value of a type that several entries have, of each of them, as the first one has it."""
    found = {}
    for path in sorted(directory.entries):
        for normal, value in directory.entries[path][1].values.get(number, {}).items():
            found.setdefault(normal, (value, []))[1].append(path)
    for value, paths in found.values():
        for path in paths if len(paths) > 1 else ():
            report_value(checked, b"shared", directory, path, number, value)
