"""The text of an index, made of a dump and its configuration alone; and a text read back, with what a filter may find by it.

Its first line has the number of entries and the SHA-256 (FIPS 180-4) of the dump. Behind it come the slots of the index lines, by the
numbers of their types and then eq, pres, sub: for each a line, and then a line for each key that an entry has, in the order of their
bytes, with the places in the dump of the entries that have it. A key is written in hexadecimal, the empty one as a hyphen.
"""
import hashlib
import re

import filters
import ldif

# the kinds of indexes, in the order of their slots
KINDS = (b"eq", b"pres", b"sub")
WINDOW = 3      # bytes of a key of sub


def index_text(conf, dump):
    entries = [normal_values(conf, lines) for _, _, lines in ldif.records(dump)]
    out = [b"slapindex 1 %d %b" % (len(entries), hashlib.sha256(dump).hexdigest().encode())]
    for number, place in sorted(conf.slots):
        out.append(b"slot %b %b" % (conf.types[number].printed(), KINDS[place]))
        out += key_lines([keys_of(conf, entry, number, KINDS[place]) for entry in entries])
    return b"".join(line + b"\n" for line in out + [b"end"])


def normal_values(conf, lines):
    """-> {type: its values as they compare} of an entry that a dump prints"""
    found = {}
    for name, value in ldif.read_content(False, lines)[1]:
        number = conf.type_of(name)
        found.setdefault(number, []).append(conf.normal(number, value))
    return found


def keys_of(conf, entry, number, kind):
    """The keys of an entry for a slot: of the values of its type and of those below it."""
    values = [value for own, values in entry.items() if conf.is_subtype(own, number) for value in values]
    if kind == b"eq":
        return set(values)
    if kind == b"pres":
        return {b""} if values else set()
    return {value[at:at + WINDOW] for value in values for at in range(len(value) - WINDOW + 1)}


def key_lines(keys_by_rank):
    ranks_of = {}
    for rank, keys in enumerate(keys_by_rank):
        for key in keys:
            ranks_of.setdefault(key, []).append(b"%d" % rank)
    return [b" ".join([key.hex().encode() or b"-", *ranks]) for key, ranks in sorted(ranks_of.items())]


# a text read back

NUMBER = rb"(?:0|[1-9][0-9]{0,9})"
HEADER = re.compile(rb"slapindex 1 (%b) ([0-9a-f]{64})" % NUMBER)
SLOT = re.compile(rb"slot (\S+) (eq|pres|sub)")
KEY = re.compile(rb"(-|(?:[0-9a-f]{2})+)((?: %b)+)" % NUMBER)


class Fault(Exception):
    """The first thing wrong with a text, and the line on which it is, with its number."""

    def at(self, number, line):
        self.number, self.line = number, line
        return self


class Reader:
    """Reads the lines behind the first one. Each is looked at by its form, then by its order, then by its ranks."""

    def __init__(self, conf, entries):
        self.entries = entries
        self.numbers = {kind.printed(): number for number, kind in reversed(list(enumerate(conf.types)))}
        self.due, self.rows, self.slot, self.key, self.is_over = sorted(conf.slots), {}, None, None, False

    def line(self, line):
        if self.is_over:
            raise Fault("I3 form")
        if line == b"end":
            if self.due:
                raise Fault("I3 form")
            self.is_over = True
        elif line.startswith(b"slot "):
            self.take_slot(line)
        else:
            self.take_key(line)

    def take_slot(self, line):
        match = SLOT.fullmatch(line)
        number = self.numbers.get(match[1]) if match else None
        if number is None:
            raise Fault("I3 form")
        slot = number, KINDS.index(match[2])
        if self.slot is not None and slot <= self.slot:
            raise Fault("I4 order")
        if slot not in self.due[:1]:
            raise Fault("I3 form")
        self.slot, self.key, self.rows[slot] = self.due.pop(0), None, {}

    def take_key(self, line):
        match = KEY.fullmatch(line)
        if match is None or self.slot is None:
            raise Fault("I3 form")
        key = b"" if match[1] == b"-" else bytes.fromhex(match[1].decode())
        ranks = [int(rank) for rank in match[2].split()]
        if (self.key is not None and key <= self.key) or any(a >= b for a, b in zip(ranks, ranks[1:])):
            raise Fault("I4 order")
        if any(rank >= self.entries for rank in ranks):
            raise Fault("I5 rank")
        self.key, self.rows[self.slot][key] = key, set(ranks)


def read(conf, dump, text):
    """-> {slot: {key: ranks}} of a text that was written for this dump"""
    first, end, rest = text.partition(b"\n")
    header = HEADER.fullmatch(first)
    if header is None or not end:
        raise Fault("I1 header").at(1, first)
    entries = len(list(ldif.records(dump)))
    if int(header[1]) != entries or header[2] != hashlib.sha256(dump).hexdigest().encode():
        raise Fault("I2 stale").at(1, first)
    reader = Reader(conf, entries)
    *lines, behind = rest.split(b"\n")
    for number, line in enumerate(lines, 2):
        try:
            reader.line(line)
        except Fault as fault:
            raise fault.at(number, line) from None
    # what stands behind the last LF is no line
    if behind or not reader.is_over:
        raise Fault("I3 form").at(len(lines) + 2, behind)
    return reader.rows


def candidates(steps, rows, entries):
    """-> the ranks of those entries of which a prepared filter may be True, and of those of which it may be False, as the rows have it"""
    everything = set(range(entries))
    found = []
    for step in steps:
        if step is None:
            found.append((set(), set()))
        elif isinstance(step, filters.Test):
            found.append(of_item(step, rows, everything))
        else:
            mark, number = step
            parts = found[len(found) - number:]
            del found[len(found) - number:]
            found.append(joined(mark, parts, everything))
    return found[0]


def of_item(test, rows, everything):
    def under(kind, key):
        slot = rows.get((test.number, KINDS.index(kind)))
        return None if slot is None else slot.get(key, set())

    if test.form in ("equal", "approximate", "present"):
        ranks = under(b"pres", b"") if test.form == "present" else under(b"eq", test.asserted)
        return (everything, everything) if ranks is None else (ranks, everything - ranks)
    if test.form in ("at least", "at most"):
        ranks = under(b"pres", b"")
        return (everything if ranks is None else ranks), everything
    if under(b"sub", b"") is None:
        return everything, everything
    windows = [piece[at:at + WINDOW] for piece in test.asserted for at in range(len(piece) - WINDOW + 1)]
    return everything.intersection(*(under(b"sub", window) for window in windows)), everything


def joined(mark, parts, everything):
    may, may_not = [part[0] for part in parts], [part[1] for part in parts]
    if mark == "!":
        return may_not[0], may[0]
    if mark == "&":
        return everything.intersection(*may), set().union(*may_not)
    return set().union(*may), everything.intersection(*may_not)
