"""LDIF (RFC 2849) in bytes: the records of a text, what a record of content or of a change says, and how a line is written."""
import base64
import re
from dataclasses import dataclass

FAULTS = {
    "L1": "dn line missing", "L2": "continuation without a line", "L3": "version", "L4": "base64", "L5": "url value",
    "L6": "colon missing", "L7": "changetype unknown", "L8": "attribute of another name", "L9": "part missing",
    "L10": "stray line", "L11": "changetype missing", "L12": "changetype in content", "L13": "word",
}
# a control: its OID, perhaps its criticality, and perhaps a value
CONTROL = re.compile(rb"[0-9.]+(?: +(true|false))? *(:.*)?", re.DOTALL | re.IGNORECASE)


CONTROL_OID = re.compile(rb"[0-9.]+")


class Fault(Exception):
    """What is wrong with a record: at the line that was looked at last, or at its end."""
    def __init__(self, code, at_end=False):
        super().__init__(f"{code} {FAULTS[code]}")
        self.code, self.at = code, None if at_end else Line.last


class Line(bytes):
    """A line of a record, which knows its place there. The one that was looked at last is kept."""
    last = None

    @staticmethod
    def of(place, text):
        line = Line(text)
        line.place = place
        return line


def lines_of(text):
    """Lines end at LF, and one CR before it goes with it; a CR elsewhere belongs to its line, and so does that of a
    last line without LF."""
    *ended, rest = text.split(b"\n")
    lines = [line[:-1] if line.endswith(b"\r") else line for line in ended]
    return lines + [rest] if rest else lines


def records(text):
    """-> [(number of its first line, is it the first record, its lines)]"""
    return [(numbers[0], first, lines) for numbers, first, lines in numbered_records(text)]


def numbered_records(text):
    """Records stand between empty lines. A comment is dropped with its continuation; any other continuation is joined to
    the line before, or stays as it is where there is none.
    -> [(the number of each line of the text that a line of it begins on, is it the first record, its lines)]"""
    found, kept, in_comment = [], [], False
    for number, line in enumerate(lines_of(text) + [b""], 1):
        if not line:
            if kept:
                lines = [Line.of(place, b"".join(pieces)) for place, (_, pieces) in enumerate(kept)]
                found.append(([first for first, _ in kept], not found, lines))
            kept, in_comment = [], False
        elif line.startswith(b"#"):
            in_comment = True
        elif not line.startswith(b" "):
            kept.append((number, [line]))
            in_comment = False
        elif kept and not in_comment:
            kept[-1][1].append(line[1:])
        elif not in_comment:
            kept.append((number, [line]))
    return found


def base64_value(text):
    """Padded base64 with nothing in between and no bits left over: the one text that the value is written as."""
    try:
        value = base64.b64decode(text, validate=True)
    except ValueError:
        raise Fault("L4") from None
    if base64.b64encode(value) != text:
        raise Fault("L4")
    return value


def value_line(line):
    """-> (name, value)"""
    Line.last = getattr(line, "place", None)
    if line.startswith(b" "):
        raise Fault("L2")
    name, colon, rest = line.partition(b":")
    if not name or not colon:
        raise Fault("L6")
    return name, value_of(rest)


def value_of(text):
    """What stands behind a line's first colon."""
    if text.startswith(b":"):
        return base64_value(text[1:].strip(b" "))
    if text.startswith(b"<"):
        raise Fault("L5")
    return text.lstrip(b" ")


def read_dn(first, lines):
    """-> (dn, the lines behind it), or None where a version is all there is"""
    name, value = value_line(lines[0])
    if first and name.lower() == b"version":
        if value != b"1":
            raise Fault("L3")
        if len(lines) == 1:
            return None
        lines = lines[1:]
        name, value = value_line(lines[0])
    if name.lower() != b"dn":
        raise Fault("L1")
    return value, lines[1:]


def read_content(first, lines):
    """The first faulty line answers. -> (dn, [(name, value)]), or None where a version is all there is"""
    found = read_dn(first, lines)
    if found is None:
        return None
    dn, lines = found
    attributes = []
    for line in lines:
        attributes.append(value_line(line))
        if attributes[-1][0].lower() == b"changetype":
            raise Fault("L12")
    return dn, attributes


@dataclass
class Change:
    """What a record wants done: an add has the attributes as `what`, a modify its blocks, a modrdn a Rename, a delete nothing."""
    dn: bytes
    critical: object        # the first control that is critical: its place and its OID
    kind: str
    what: object


@dataclass
class Block:
    """Of a modify: add, delete or replace, the name of an attribute, and values."""
    word: str
    name: bytes
    values: list


@dataclass
class Rename:
    rdn: bytes
    deletes_old: bool
    superior: object = None     # the name of another parent


def read_change(first, lines, add_default):
    """The first faulty line answers, a missing one as if it stood at the end. Where `add_default` holds, a record
    without a changetype adds. -> a Change, or None where a version is all there is"""
    found = read_dn(first, lines)
    if found is None:
        return None
    dn, lines = found
    critical = None
    for at, line in enumerate(lines):
        name, value = value_line(line)
        if name.lower() == b"changetype":
            kind = value.rstrip(b" ").lower()
            if kind not in CHANGES:
                raise Fault("L7")
            kind, read = CHANGES[kind]
            return Change(dn, critical, kind, read(lines[at + 1:]))
        if name.lower() != b"control":
            if not add_default:
                raise Fault("L11")
            return Change(dn, critical, "add", read_attributes(lines[at:]))
        if control_is_critical(value) and critical is None:
            critical = at, CONTROL_OID.match(value)[0]
    if not add_default:
        raise Fault("L11", at_end=True)
    return Change(dn, critical, "add", [])


def control_is_critical(text):
    """Where no word says so, it isn't."""
    found = CONTROL.fullmatch(text)
    if not found:
        raise Fault("L13")
    word, value = found.groups()
    if value is not None:
        value_of(value[1:])
    return word is not None and word.lower() == b"true"


def read_attributes(lines):
    return [value_line(line) for line in lines]


def read_delete(lines):
    for line in lines:
        value_line(line)
        raise Fault("L10")


def read_blocks(lines):
    """A line `-` ends a block; behind the last one it may be missing."""
    blocks, is_open = [], False
    for line in lines:
        if is_open and line.rstrip(b" ") == b"-":
            is_open = False
            continue
        name, value = value_line(line)
        name = name.lower()
        if is_open:
            if name != blocks[-1].name.lower():
                raise Fault("L8")
            blocks[-1].values.append(value)
            continue
        if name not in (b"add", b"delete", b"replace"):
            raise Fault("L10")
        blocks.append(Block(name.decode(), value.rstrip(b" "), []))
        is_open = True
    return blocks


def read_rename(lines):
    values = []
    for wanted, fault, line in zip((b"newrdn", b"deleteoldrdn", b"newsuperior"), ("L9", "L9", "L10"), lines):
        name, value = value_line(line)
        if name.lower() != wanted:
            raise Fault(fault)
        if wanted == b"deleteoldrdn":
            value = value.rstrip(b" ")
            if value not in (b"0", b"1"):
                raise Fault("L13")
        values.append(value)
    if len(values) < 2:
        raise Fault("L9", at_end=True)
    for line in lines[3:]:
        value_line(line)
        raise Fault("L10")
    return Rename(values[0], values[1] == b"1", *values[2:])


# the words of changetype: what they do, and how the lines behind them are read
CHANGES = {
    b"add": ("add", read_attributes), b"delete": ("delete", read_delete), b"modify": ("modify", read_blocks),
    b"modrdn": ("modrdn", read_rename), b"moddn": ("modrdn", read_rename),
}


def is_plain(value):
    """Can the value stand as it is, behind a colon and a space?"""
    return (all(1 <= byte <= 127 and byte not in b"\r\n" for byte in value)
            and not value.startswith((b" ", b":", b"<")) and not value.endswith(b" "))


STANDARD_WIDTH = 76


def folded(line, width):
    """Lines of at most so many bytes (RFC 2849, note 2): of each but the first the first one is a space."""
    pieces, rest = [line[:width]], line[width:]
    while rest:
        pieces.append(b" " + rest[:width - 1])
        rest = rest[width - 1:]
    return b"".join(piece + b"\n" for piece in pieces)


def written_line(name, value, width=STANDARD_WIDTH):
    """What is in no form to stand as it is stands in base64."""
    if not value:
        line = name + b":"
    elif is_plain(value):
        line = name + b": " + value
    else:
        line = name + b":: " + base64.b64encode(value)
    return folded(line, width)
