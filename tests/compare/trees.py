"""Random texts for sort, the same for the same seed: trees of records, mostly out of order, and what else may stand in a text.

A name is a list of RDNs, own one first, each [(type, value)]. It is spelled in many ways, of which some are another name for sort.
"""
from dataclasses import dataclass
from typing import ClassVar, Optional

from cases import Speller, mutated, value_line
from configs import other_case, some, spelled
from pieces import BAD_NAMES, FIRST_LINES, NO_BASE64, NO_UTF8, ODD_LINES, TINY, TOKENS, VERSIONS

SUFFIX = [[(b"dc", b"ex")]]
TYPES = [b"ou", b"cn", b"uid", b"l", b"o", b"dc"]
# other words for these types, which are other types where no dir.conf tells
ALIASES = {b"cn": [b"commonName", b"2.5.4.3"], b"ou": [b"2.5.4.11"], b"dc": [b"0.9.2342.19200300.100.1.25"]}
VALUES = [b"a", b"b", b"c", b"a b", b"a,b", b"a+b", b"a=b", b"#a", b"a\\", b'"a"', b"\xc3\xa9", b"\xc3\x89", b"a\0b", b"1", b"a;b", b"<a>",
          b"Ab C d", b"\xff"]
EMPTY_VALUES = [b"", b" ", b"   "]
NO_NAMES = [b"", b" ", b"   ", b"dc", b",", b"=", b"dc=ex,", b",dc=ex", b"dc=ex;o=a", b"dc=#6578", b'dc="ex"', b"dc=e\\x", b"dc=ex\\", b"dc=a<b"]
CHANGES = [[b"changetype: add"], [b"changetype: delete"], [b"changetype: modify", b"add: cn", b"cn: a", b"-"], [b"control: 1.2.3", b"changetype: add"],
           [b"changetype: modrdn", b"newrdn: cn=a", b"deleteoldrdn: 1"], [b"ChangeType:: YWRk"]]
BAD_VERSIONS = [b"version: 2", b"version: 1 ", b"version:: MQ", b"version:", b"version", b"version:< 1", b"versions: 1", b" version: 1", b"version: 11"]


@dataclass(frozen=True)
class Sort:
    """The text that sort reads, None for a file that isn't there."""
    OPTIONS: ClassVar = (("by_file", False),)
    TEXTS: ClassVar = (("text", b""),)
    text: Optional[bytes]
    by_file: bool = False


class Trees:
    """Makes records, and keeps their names, so that more records can stand below them."""

    def __init__(self, rng):
        self.rng, self.names = rng, []
        self.is_deep, self.is_plain = some(rng, .3), some(rng, .3)

    # names

    def new_name(self):
        """Mostly one below a name that is there."""
        rng = self.rng
        if not self.names or some(rng, .03):
            return SUFFIX
        parent = rng.choice(self.names[-2:] if self.is_deep and some(rng, .8) else self.names)
        return [self.rdn()] + (parent if len(parent) < 9 else SUFFIX)

    def rdn(self):
        rng = self.rng
        kinds = rng.sample(TYPES, rng.choice([1] * 8 + [2, 3]))
        return [(kind, self.value()) for kind in kinds] * (1 + some(rng, .01))

    def value(self):
        rng = self.rng
        return rng.choice(EMPTY_VALUES) if some(rng, .02) else rng.choice(VALUES[:4] if some(rng, .6) else VALUES)

    def name_text(self, name):
        is_plain = self.is_plain or some(self.rng, .5)
        return b",".join(self.rdn_text(rdn, is_plain) for rdn in name)

    def rdn_text(self, rdn, is_plain):
        if not is_plain and some(self.rng, .5):
            rdn = self.rng.sample(rdn, len(rdn))
        return b"+".join(self.ava_text(*ava, is_plain) for ava in rdn)

    def ava_text(self, kind, value, is_plain):
        """An AVA of a name; where that isn't plain in another case, with other spaces, or by another word for its type."""
        rng = self.rng
        if is_plain:
            return kind + b"=" + spelled(rng, value)
        spaces = [rng.choice([b"", b"", b"", b" ", b"  "]) for _ in range(4)]
        kind = rng.choice(ALIASES.get(kind, [kind])) if some(rng, .05) else rng.choice([kind, other_case(rng, kind)])
        value = rng.choice([value] * 3 + [other_case(rng, value), value.replace(b" ", b"  "), b" " + value, value + b"  "])
        return spaces[0] + kind + spaces[1] + b"=" + spaces[2] + spelled(rng, value) + spaces[3]

    # records

    def record(self, name):
        rng = self.rng
        dn = value_line(rng, rng.choice([b"dn"] * 4 + [b"DN", b"Dn"]), self.name_text(name))
        return [dn] + [b"objectClass: top"] * some(rng, .95) + [b"cn: %d" % rng.randrange(9)] * some(rng, .3)

    def good(self):
        name = self.new_name()
        self.names.append(name)
        return self.record(name)

    def again(self):
        return self.record(self.rng.choice(self.names or [SUFFIX]))

    def orphan(self):
        """A record below a name that mostly isn't there, and perhaps one below itself."""
        missing = [self.rdn()] + self.rng.choice(self.names or [SUFFIX])
        self.names.append([self.rdn()] + missing)
        return self.record(self.names[-1])

    def badly_named(self):
        """A dn that is no name, or a strange one."""
        rng, name = self.rng, self.name_text(self.rng.choice(self.names or [SUFFIX]))
        text = rng.choice([rng.choice(BAD_NAMES), rng.choice(NO_NAMES), b"cn=" + rng.choice(NO_UTF8) + b",$N", b"$N" + rng.choice(NO_UTF8)])
        text = text.replace(b"$T", b"cn").replace(b"$N", name)
        dn = b"dn:: " + rng.choice(NO_BASE64) if some(rng, .1) else value_line(rng, b"dn", text)
        return [dn] + [b"objectClass: top"] * some(rng, .9)

    def broken(self):
        """A record with a line that it can't have, of a name that others may be below."""
        rng, lines = self.rng, self.good()
        odd = rng.choice(ODD_LINES[rng.choice(list(ODD_LINES))]).replace(b"$T", b"cn")
        lines.insert(rng.randrange(1, len(lines) + 1), odd)
        return lines if some(rng, .9) else rng.sample(lines, len(lines))

    def oddly_begun(self):
        rng, lines = self.rng, self.good()
        line = rng.choice(FIRST_LINES[rng.choice(list(FIRST_LINES))])
        return rng.choice([[line] + lines, [line] + lines[1:], [line], lines[1:]])

    def change(self):
        return self.good()[:1] + self.rng.choice(CHANGES)

    def version(self):
        """A version that doesn't come first, alone or of a record."""
        rng = self.rng
        return [rng.choice(VERSIONS if some(rng, .5) else BAD_VERSIONS)] + (self.good() if some(rng, .5) else [])

    def spaced(self):
        """A record whose first line begins with a space: it would go on with a version directly before it."""
        return [self.rng.choice([b" ", b" 0", b" dn: dc=ex", b"  a"])] + (self.good() if some(self.rng, .5) else [])

    def comments(self):
        """A block without a record."""
        rng = self.rng
        return [rng.choice([b"#", b"# note", b"#dn: dc=ex", b"#\n more", b"#\n dn: dc=ex"]) for _ in range(rng.choice([1, 1, 2, 3]))]

    def some_records(self, number):
        """Records of a tree, in the order in which they come up, with others between them."""
        kinds = [self.good] * 70 + [self.again] * 6 + [self.orphan] * 5 + [self.badly_named] * 5 + [self.broken] * 4 + [self.change] * 3 + \
            [self.oddly_begun] * 3 + [self.version] * 2 + [self.spaced] * 2 + [self.comments] * 5
        return [self.good() if self.is_plain and some(self.rng, .8) else self.rng.choice(kinds)() for _ in range(number)]

    def in_another_order(self, records):
        rng, kind = self.rng, self.rng.randrange(10)
        if kind < 5:
            return rng.sample(records, len(records))
        if kind < 7:
            return records[::-1]
        if kind < 9:
            # a few in other places
            for _ in range(min(len(records), rng.choice([1, 1, 2]))):
                records.insert(rng.randrange(len(records)), records.pop(rng.randrange(len(records))))
        return records

    def begun(self, records):
        """Records behind a version, which stands alone or begins the first one."""
        rng = self.rng
        version = rng.choice(VERSIONS if some(rng, .85) else BAD_VERSIONS)
        before = self.comments() if some(rng, .2) else []
        if some(rng, .2):
            records = [before] + records
            before = []
        if some(rng, .5) or not records:
            return [before + [version]] + records
        return [before + [version] + records[0]] + records[1:]

    def text(self, number):
        rng = self.rng
        records = self.in_another_order(self.some_records(number))
        records = [record for record in records if some(rng, .93)]
        if some(rng, .3):
            records = self.begun(records)
        return Speller(rng, some(rng, .2)).text(records)


def soup(rng):
    lines = [b"dn: dc=ex\n", b"dn: cn=a,dc=ex\n", b"dn: cn=b,cn=a,dc=ex\n", b"objectClass: x\n", b"\n", b"\n\n", b"\r\n\r\n", b"version: 1\n"]
    pieces = TOKENS + lines * 3
    return b"".join(rng.choice(pieces) for _ in range(rng.randrange(40)))


def sort_case(rng):
    if some(rng, .02):
        return Sort(None, True)
    kind = rng.randrange(20)
    text = soup(rng) if kind == 0 else Trees(rng).text(rng.choice([0] + [1, 2, 3, 5, 8, 12, 20] * 2))
    if kind == 1 and some(rng, .5):
        text = rng.choice(TINY)
    elif kind < 4 and text:
        text = mutated(rng, text)
    elif kind == 4:
        # a CR behind which no LF comes
        text = text.rstrip(b"\r\n") + b"\r"
    return Sort(text, some(rng, .3))
