"""Random configurations for slapadd: good ones, ones with a fault or a few, and names and values of their types."""
from dataclasses import dataclass

import schema
import values
from pieces import (
    ALIKE_NAMES, BAD_NAMES, BAD_SUFFIXES, BLANK_EDITS, DEFINITION, DEFINITION_EDITS, DEFINITIONS, FIELDS, IDLE_LINES,
    INDEX_KINDS, INDEX_LINES, KEYWORDS, NAME_TYPES, OPEN_LINES, OTHER_LINES, STRANGE, SUFFIX_LINES, TYPES, WORDS)


def some(rng, chance):
    return rng.random() < chance


def other_case(rng, text):
    """Some letters in the other case."""
    return bytes(byte ^ 32 if chr(byte).isalpha() and byte < 128 and some(rng, .5) else byte for byte in text)


def definition(oid, name):
    return DEFINITION.replace(b"9.8.7", oid).replace(b"n7", name)


FEW_TYPES = [b"dc", b"cn", b"description"]
PLAIN_CONF = b"\n".join([b"suffix dc=ex"] + [definition(TYPES[name], name) for name in FEW_TYPES])


# syntaxes and rules that go with each other, most of them texts; the rules of a kind are of one family, or none
PAIRED = [(b"15", b"caseIgnoreMatch")] * 8 + [
    (b"15", b"caseExactMatch"), (b"15", b""), (b"15", b"octetStringMatch"), (b"44", b"caseIgnoreMatch"),
    (b"11", b"caseExactMatch"), (b"26", b"caseIgnoreIA5Match"), (b"26", b"caseExactIA5Match"), (b"26", b""),
    (b"36", b"numericStringMatch"), (b"50", b"telephoneNumberMatch"), (b"27", b"integerMatch"), (b"27", b"caseIgnoreMatch"),
    (b"27", b""), (b"7", b"booleanMatch"), (b"7", b""), (b"40", b"octetStringMatch"), (b"40", b"caseIgnoreMatch"),
    (b"38", b"objectIdentifierMatch"),
    (b"12", b"distinguishedNameMatch"), (b"12", b""), (b"24", b"generalizedTimeMatch"), (b"99", b"caseExactMatch"),
    (b"15", b"numericStringMatch"), (b"36", b"integerFirstComponentMatch")]
RULES = [
    b"caseIgnoreMatch", b"CASEIGNOREIA5MATCH", b"caseExactMatch", b"caseExactIA5Match", b"numericStringMatch",
    b"telephoneNumberMatch", b"integerMatch", b"booleanMatch", b"octetStringMatch", b"distinguishedNameMatch",
    b"objectIdentifierMatch", b"caseIgnoreOrderingMatch", b"caseIgnoreSubstringsMatch", b"2.5.13.2", b"bitStringMatch",
    b"'caseIgnoreMatch'"]
SUBSTRINGS = [
    b"caseIgnoreSubstringsMatch", b"CASEIGNOREIA5SUBSTRINGSMATCH", b"caseExactSubstringsMatch", b"caseExactIA5SubstringsMatch",
    b"numericStringSubstringsMatch", b"telephoneNumberSubstringsMatch", b"'caseIgnoreSubstringsMatch'", b"caseIgnoreMatch",
    b"caseIgnoreOrderingMatch", b"2.5.13.4", b"caseIgnoreListSubstringsMatch"]
# the substring rules that go with each family
SUBSTRINGS_OF = {
    "ignore": [b"caseIgnoreSubstringsMatch", b"caseIgnoreIA5SubstringsMatch"],
    "exact": [b"caseExactSubstringsMatch", b"caseExactIA5SubstringsMatch"],
    "numeric": [b"numericStringSubstringsMatch"], "telephone": [b"telephoneNumberSubstringsMatch"]}
# the rules of types whose values are names
NAME_RULES = [b"distinguishedNameMatch"] * 5 + [
    b"", b"uniqueMemberMatch", b"caseIgnoreMatch", b"caseExactMatch", b"octetStringMatch", b"numericStringMatch"]
# fields that change nothing of what slapadd does
IDLE_FIELDS = [
    b"DESC 'a ( $ b )'", b"OBSOLETE", b"NO-USER-MODIFICATION", b"USAGE directoryOperation", b"usage userAPPLICATIONS",
    b"ORDERING caseIgnoreOrderingMatch", b"SUBSTR caseIgnoreSubstringsMatch", b"ORDERING integerOrderingMatch",
    b"SUBSTR nosuch", b"X-ORIGIN 'here'", b"X-MORE ( 'a' 'b' )"]
ALIASES = [b"alias", b"Other-Name", b"x_y", b"Q9"]


@dataclass
class Type:
    """A type as it is defined: what its values are like, and the ways to name it."""
    name: bytes
    names: list
    syntax: bytes       # the last number
    rule: bytes
    text: bytes

    def kind(self):
        return values.kind_of(values.PREFIX + self.syntax)

    def family(self):
        return values.FAMILIES.get(self.rule.lower())

    def names_entries(self):
        return self.family() is not None and self.kind() != "name"


@dataclass
class Class:
    """An object class as it is defined: the ways to name it, and the types that it and those above it require."""
    names: list
    must: list


def spelled(rng, value):
    """A value as it may stand in a name, with the escapes that it needs and some that it doesn't."""
    is_text, out = values.is_utf8(value), b""
    for at, byte in enumerate(value):
        character, digits = bytes([byte]), b"\\%02x" % byte
        is_edge = byte == 32 and at in (0, len(value) - 1) or byte == 35 and at == 0
        if byte in b"\0\r\n" or byte > 127 and not is_text:
            out += rng.choice([digits, digits.upper()])
        elif byte in b'"+,;<>\\' or is_edge:
            out += rng.choice([b"\\" + character] * 3 + [digits])
        elif some(rng, .03) and byte < 128:
            out += rng.choice([digits, b"\\" + character if byte in b" #=" else digits])
        else:
            out += character
    return out


class Config:
    """A good dir.conf, and the types and the suffix of it. A name is a list of RDNs, own one first, each [(type, value)]."""

    def __init__(self, rng):
        self.rng = rng
        most = list(TYPES)
        names = rng.choice([most, FEW_TYPES, rng.sample(most, rng.randrange(1, 20)), rng.sample(most, 9)])
        self.kinds, plain = {}, some(rng, .3)
        for at, name in enumerate(names):
            self.define(name, plain or at == 0)
        for name in rng.sample(NAME_TYPES, rng.choice([0, 0, 1, 2])):
            if name not in names:
                self.define(name, False, (b"12", rng.choice(NAME_RULES)))
        self.types = list(self.kinds)
        self.naming = [name for name in self.types if self.kinds[name].names_entries()]
        # types whose values are names
        self.named = [name for name in self.types if self.kinds[name].kind() == "name"]
        first = [rng.choice(self.naming[:6]) for _ in range(rng.choice([1, 1, 1, 2, 3]))]
        self.suffix = [self.rdn(name) for name in first]
        if some(rng, .05):
            self.suffix[0] = [(b"objectClass", b"a.b")]
        self.lines = [b"attributetype " + kind.text for kind in self.kinds.values()]
        # most entries name some of these, where there are any
        self.classes = []
        for serial in range(rng.choice([0, 0, 0, 1, 2, 3, 6])):
            self.add_class(serial)
        if some(rng, .3):
            self.lines = [self.respelled(line) for line in self.lines]
        if some(rng, .2):
            self.lines = [self.continued(line) for line in self.lines]
        if some(rng, .2):
            idle = IDLE_LINES + [definition(oid, b"cn") for oid in schema.BUILT_IN]
            for _ in range(rng.randrange(1, 4)):
                self.lines.insert(rng.randrange(len(self.lines) + 1), rng.choice(idle))
        place = rng.choice([0, 0, 0, len(self.lines), rng.randrange(len(self.lines) + 1)])
        self.lines.insert(place, self.suffix_line())
        if some(rng, .8):
            self.add_index_lines()
        self.text = self.joined(self.lines)

    def define(self, name, plain, pair=None):
        """A type of its own, or one below another; or a type of a syntax and a rule."""
        rng, oid = self.rng, TYPES[name]
        if plain:
            text = definition(oid, name).partition(b" ")[2]
            text = text.replace(b" SYNTAX", b" SUBSTR caseIgnoreSubstringsMatch SYNTAX") if some(rng, .3) else text
            self.kinds[name] = Type(name, [name, oid], b"15", b"caseIgnoreMatch", text)
            return
        syntax, rule = pair or rng.choice(PAIRED)
        fields = [b"SYNTAX " + rng.choice([b"%b", b"%b", b"%b{64}", b"'%b'", b"'%b{1}'"]) % (values.PREFIX + syntax)]
        if rule:
            fields.append(b"EQUALITY " + rng.choice([rule, rule, other_case(rng, rule), b"'" + rule + b"'"]))
        above = [kind for kind in self.kinds.values() if pair is None or kind.syntax == syntax]
        if above and some(rng, .3):
            above = rng.choice(above)
            syntax, rule = above.syntax, above.rule
            same = [b"SYNTAX " + values.PREFIX + syntax] + [b"EQUALITY " + rule] * (rule != b"") + [b"EQUALITY nosuchMatch"]
            fields = [b"SUP " + rng.choice([above.names[0], above.names[-1], b"'" + above.names[0] + b"'"])]
            fields += rng.sample(same, rng.choice([0, 0, 1, 2]))[:1]
        names = [name] + [alias + b"%d" % len(self.kinds) for alias in rng.sample(ALIASES, rng.choice([0, 0, 1, 2]))]
        if some(rng, .1):
            names = []
        quoted = [b"'" + one + b"'" for one in names]
        if names:
            fields.append(b"NAME " + (quoted[0] if len(names) == 1 else b"( " + b" ".join(quoted) + b" )"))
        idle = rng.sample(IDLE_FIELDS, rng.choice([0, 0, 1, 3]))
        substrings = SUBSTRINGS_OF.get(values.FAMILIES.get(rule.lower()))
        if substrings and some(rng, .5):
            idle.append(b"SUBSTR " + rng.choice(substrings))
        fields += [b"SINGLE-VALUE"] * some(rng, .2) + distinct(idle)
        if some(rng, .4):
            rng.shuffle(fields)
        printed = names[0] if names else oid
        self.kinds[printed] = Type(printed, names + [oid], syntax, rule, b"( " + oid + b" " + b" ".join(fields) + b" )")

    def add_class(self, serial):
        """An object class of its own, or below others. The first one takes most types."""
        rng, oid = self.rng, b"8.%d" % serial
        names = [b"class%d" % serial, b"Kind-%d" % serial][:rng.choice([0, 1, 1, 1, 2])] + [oid]
        above = rng.sample(self.classes, min(len(self.classes), rng.choice([0, 1, 1, 2, 3])))
        must = rng.sample(self.types, min(len(self.types), rng.choice([0, 0, 0, 1, 2])))
        may = rng.sample(self.types, min(len(self.types), rng.choice([0, 1, 3, 6]) if serial else rng.choice([1, 50, 50])))
        built_in = [] if some(rng, .5) else [rng.choice([b"top", b"TOP", b"2.5.6.0"])]
        built_in += [rng.choice([b"extensibleObject", schema.BUILT_IN[2]])] if some(rng, .1) else []
        fields = [b"NAME ( " + b" ".join(b"'" + name + b"'" for name in names[:-1]) + b" )"] if names[:-1] else []
        for word, listed in ((b"SUP ", built_in + [rng.choice(one.names) for one in above]),
                             (b"MUST ", [self.type_text(name) for name in must]), (b"MAY ", [self.type_text(name) for name in may])):
            fields += [word + (listed[0] if len(listed) == 1 else b"( " + b" $ ".join(listed) + b" )")] if listed else []
        fields += rng.choice([[], [], [b"STRUCTURAL"], [b"AUXILIARY"], [b"ABSTRACT"]])
        rng.shuffle(fields)
        self.lines.append(b"objectclass ( " + b" ".join([oid] + fields) + b" )")
        self.classes.append(Class(names, must + [name for one in above for name in one.must]))

    def class_text(self, one):
        """One of the spellings of a class."""
        return other_case(self.rng, self.rng.choice(one.names)) if some(self.rng, .2) else self.rng.choice(one.names)

    def word(self, name):
        """A value of a type that stands in a name."""
        rng, kind = self.rng, self.kinds[name].kind() if name in self.kinds else "oid"
        if kind == "oid":
            return rng.choice([b"a", b"A.b", b"1.2.3", b"x-y_z", b"n%d" % rng.randrange(50)])
        if kind == "numeric":
            return rng.choice([b"1", b"12 3", b"1 23", b"007", b"%d" % rng.randrange(50)])
        if kind == "integer":
            return rng.choice([b"0", b"-1", b"7", b"%d" % rng.randrange(-50, 50)])
        if kind == "boolean":
            return rng.choice([b"TRUE", b"FALSE"])
        if kind in ("text", "octet") and some(rng, .1):
            return rng.choice([text for text in STRANGE if text != b""] + [b'a,b+c"d;e<f>g\\h=i#', b"#", b"\x7f"])
        if kind == "octet" and some(rng, .2):
            return rng.choice([b"", b"\xff", b"\xc3", b"\0"])
        return rng.choice(WORDS) if some(rng, .5) else b"n%d" % rng.randrange(200)

    def rdn(self, name):
        """An RDN of the type, and of another one or two where it has more AVAs."""
        rng = self.rng
        more = [other for other in self.naming if other != name]
        names = [name] + (rng.sample(more, min(len(more), rng.choice([1, 1, 2]))) if some(rng, .15) else [])
        if some(rng, .3):
            rng.shuffle(names)
        return [(one, self.word(one)) for one in names]

    def value(self, name, odd=.08):
        """A value of a type; some aren't valid."""
        rng, kind = self.rng, self.kinds[name].kind()
        if some(rng, odd):
            return rng.choice([value(rng), b"", b" ", b"TRUE", b"1", b"a b"])
        if kind == "numeric":
            return rng.choice([b"1 2", b"12", b"0", b"007", b"  7", b"1  2 3", b"%d" % rng.randrange(999)])
        if kind == "integer":
            return rng.choice(INTEGERS if some(rng, odd * 4) else [b"%d" % rng.randrange(-999, 999)])
        if kind == "boolean":
            return rng.choice([b"true", b"", b"FALSE "] if some(rng, odd) else [b"TRUE", b"FALSE"])
        if kind == "name":
            return self.bad_name() if some(rng, odd) else self.name_text(self.any_name())
        if kind == "oid":
            return rng.choice(OIDS + [b"t%d" % rng.randrange(9)])
        if self.kinds[name].syntax == b"50" and some(rng, .5):
            return rng.choice([b"+1 234-56", b"+1 23456", b"+123-456", b"1 234 56", b"555-CALL", b"555 call", b"-", b" - "])
        if kind == "ascii" and some(rng, .7):
            return rng.choice([b"a", b"A", b"a  b", b"A b", b"", b" ", b"x%d" % rng.randrange(50), b"\0", b"\x7f", b"x" * 80])
        return value(rng)

    def any_name(self):
        """A name that a value may be: one of the directory or of elsewhere, or the empty one."""
        rng = self.rng
        rdns = [self.rdn(rng.choice(self.naming)) for _ in range(rng.choice([0, 1, 1, 2, 3]))]
        return rdns + self.suffix if some(rng, .4) else rdns

    def bad_name(self):
        rng = self.rng
        return self.filled(rng.choice(BAD_NAMES), rng.choice([self.suffix, self.any_name()]))

    def alike_names(self, number):
        """Texts of names, of which some may be equal."""
        rng = self.rng
        if some(rng, .5):
            name = self.any_name()
            return [self.name_text(rng.choice([name, self.respelled_name(name), self.near(name)])) for _ in range(number)]
        one, other, texts = rng.choice(self.naming), rng.choice(self.types), rng.choice(ALIKE_NAMES)
        texts = [text.replace(b"$A", self.type_text(one)).replace(b"$B", self.type_text(other)) for text in texts]
        return [self.filled(rng.choice(texts), self.suffix) for _ in range(number)]

    def respelled_name(self, name):
        """The same name under most rules."""
        rng = self.rng
        rdns = [[(kind, rng.choice([word, self.variant(kind, word)])) for kind, word in rdn] for rdn in name]
        return [rng.choice([rdn, rdn, rdn[::-1]]) for rdn in rdns]

    def variant(self, kind, word):
        """A value that is equal under most rules, in bytes that a name may have."""
        rng = self.rng
        spaced = word.replace(b" ", b"  ")
        if kind in self.kinds and self.kinds[kind].family() in ("numeric", "telephone"):
            spaced = rng.choice([spaced, word.replace(b" ", b""), word[:1] + b" " + word[1:], word.replace(b"-", b"")])
            spaced = spaced.strip(b" ") or word
        return rng.choice([other_case(rng, word), spaced])

    def near(self, name):
        """Mostly another name, of the same AVAs."""
        rng, parts = self.rng, [part for rdn in name for part in rdn]
        more = self.rdn(rng.choice(self.naming))
        others = [name[::-1], name[1:], name + self.suffix, name + [more], [[part] for part in parts]]
        if parts and len({kind for kind, _ in parts}) == len(parts):
            others.append([parts])
        return rng.choice(others)

    def respelled(self, line):
        """A definition with its first word in another case, and with other blanks."""
        rng = self.rng
        for old, new in BLANK_EDITS:
            if some(rng, .2):
                line = line.replace(old, new)
        word, *words = line.split(b" ")
        line = other_case(rng, word) if some(rng, .5) else word
        return line + b"".join(rng.choice([b" ", b" ", b" ", b"  ", b"\t", b" \t "]) + word for word in words)

    def continued(self, line):
        """A definition on several lines."""
        rng = self.rng
        first, *words = line.split(b" ")
        breaks = [b"\n ", b"\n\t", b"\r\n  ", b" \n "]
        return first + b"".join((rng.choice(breaks) if some(rng, .2) else b" ") + word for word in words)

    def suffix_line(self):
        rng, text = self.rng, self.name_text(self.suffix)
        word = rng.choice([b"suffix ", b"suffix ", b"suffix\t", b"SUFFIX  ", b"Suffix \t "])
        # an escaped space at the end stays within quotes alone
        plain = [] if text.endswith(b" ") or text.startswith((b" ", b"\t")) else [text, text + b"  "]
        return word + rng.choice([b'"' + text + b'"', b'"' + text + b'" '] + plain)

    def add_index_lines(self):
        """Good ones, anywhere, mostly of types that stand above others or have no name. Which types take which kinds is read from
        the definitions."""
        rng, conf = self.rng, schema.read_conf(b"\n".join(self.lines))
        types = {name: conf.types[conf.type_of(name)] for name in self.types + [b"objectClass"]}
        above = {kind.above for kind in conf.types}
        weight_of = {name: 4 if not kind.names or conf.type_of(name) in above else 1 for name, kind in types.items()}
        for _ in range(rng.choice([1, 1, 2, 5])):
            kinds = rng.sample(INDEX_KINDS, rng.choice([1, 1, 2, 3]))
            fit = [name for name, taken in types.items() if all(taken.takes_index(kind) for kind in kinds)]
            if fit:
                weights = [weight_of[name] for name in fit]
                names = [self.type_text(name) for name in rng.choices(fit, weights, k=rng.choice([1, 1, 2, 4]))]
                words = [rng.choice([b"index", b"index", b"INDEX"]), b",".join(names), b",".join(kinds)]
                line = rng.choice([b" ", b" ", b" ", b"\t", b"  ", b"\n "]).join(words) + rng.choice([b"", b"", b" ", b"\t"])
                self.lines.insert(rng.randrange(len(self.lines) + 1), line)

    def joined(self, lines):
        rng = self.rng
        end = rng.choice([b"\n", b"\n", b"\n", b"\r\n"])
        return end.join(lines) + (b"" if some(rng, .1) else end)

    def type_text(self, name):
        """One of the spellings of a type: its name, in any case, or its OID."""
        rng = self.rng
        if name == b"objectClass":
            return rng.choice([name, name, b"OBJECTCLASS", b"objectclass", b"2.5.4.0"])
        return rng.choice([name] * 14 + [other_case(rng, name)] * 3 + self.kinds[name].names * 2)

    def name_text(self, name):
        loose = some(self.rng, .2)
        rdns = [b"+".join(self.ava_text(kind, value, loose) for kind, value in rdn) for rdn in name]
        return b",".join(rdns)

    def ava_text(self, kind, value, loose):
        """An AVA of a name, with spaces where it is loose."""
        rng = self.rng
        spaces = [rng.choice([b"", b"", b" ", b"  "]) if loose else b"" for _ in range(4)]
        return spaces[0] + self.type_text(kind) + spaces[1] + b"=" + spaces[2] + spelled(rng, value) + spaces[3]

    def filled(self, line, name=()):
        while b"$T" in line:
            line = line.replace(b"$T", self.type_text(self.rng.choice(self.types)), 1)
        return line.replace(b"$N", self.name_text(name))

    def filled_definition(self, line):
        kind = self.kinds[self.rng.choice(self.types)]
        line = line.replace(b"$S", values.PREFIX).replace(b"$O", kind.names[-1]).replace(b"$N", kind.names[0])
        return self.filled(line)

    def with_field(self):
        """A line of the configuration with one more field."""
        rng = self.rng
        line = rng.choice([line for line in self.lines if b"(" in line])
        places = [at for at in range(line.index(b"(") + 1, len(line)) if line[at:at + 1] == b" "]
        place = rng.choice(places) if places else len(line)
        return line[:place] + b" " + self.filled_definition(rng.choice(FIELDS)) + line[place:]

    def broken_text(self):
        """The text with one fault put into it, or a few, or with what only looks like one."""
        rng, lines = self.rng, list(self.lines)
        for _ in range(rng.choice([1, 1, 1, 2, 3])):
            place, kind = rng.randrange(len(lines) + 1), rng.randrange(17)
            if kind >= 14:
                lines[place:place] = [self.filled(rng.choice(INDEX_LINES))]
            elif kind < 6:
                lines[place:place] = self.more_lines()
            elif kind < 8:
                place = rng.choice([len(lines), len(lines), place])
                lines[place:place] = [b"attributetype " + self.filled_definition(rng.choice(DEFINITIONS))]
            elif kind < 10:
                self.replace_line(lines, self.with_field())
            elif kind < 12:
                lines = [line for line in lines if not line.lower().startswith(b"suffix")]
                lines[place:place] = self.other_suffix()
            elif lines:
                self.change_line(lines, min(place, len(lines) - 1))
        return self.joined(lines)

    def other_suffix(self):
        rng = self.rng
        bad = rng.choice([b'suffix "%b"', b"suffix %b"]) % rng.choice(BAD_SUFFIXES)
        return rng.choice([[], [self.filled(bad)]] + [[self.filled(rng.choice(SUFFIX_LINES), self.suffix)]] * 3)

    def more_lines(self):
        rng = self.rng
        name, digit = rng.choice(self.types), b"%d" % rng.randrange(10)
        old, new = rng.choice(DEFINITION_EDITS)
        edited = DEFINITION.replace(old, new, 1).replace(b"7", digit)
        return rng.choice([[edited]] * 8 + [
            [DEFINITION.replace(b"7", digit)], [rng.choice(KEYWORDS)], rng.choice(OPEN_LINES),
            [self.filled(rng.choice(OTHER_LINES))],
            [definition(b"9.8", rng.choice(schema.BARRED + (b"DN", b"ChangeType")))],
            [definition(rng.choice(schema.BUILT_IN), rng.choice([b"dn", b"", b"x y", b"control", b"fine"]))],
            [definition(self.kinds[name].names[-1], b"n")],
            [definition(b"9.8", rng.choice([name, other_case(rng, name), b"OBJECTCLASS"]))],
            [rng.choice([b'suffix "dc=ex"', b'suffix ""', b"suffix", b"Suffix cn=a"])]])

    def replace_line(self, lines, changed):
        """Puts a line in place of the one that it was made of, or at the end."""
        oid = changed[changed.index(b"("):].split()[:2]
        for at, line in enumerate(lines):
            if b"(" in line and line[line.index(b"("):].split()[:2] == oid:
                lines[at] = changed
                return
        lines.append(changed)

    def change_line(self, lines, place):
        rng, line, kind = self.rng, lines[place], self.rng.randrange(5)
        if kind == 0:
            lines.pop(place)
        elif kind == 1:
            lines.append(line)
        elif kind == 2:
            rng.shuffle(lines)
        elif kind == 3:
            lines[place] = other_case(rng, line)
        else:
            blank = rng.choice([b"", b"\x0b", b"\n ", b"\n\t", b"\r"])
            lines[place] = line.replace(b" ", blank, rng.randrange(1, 3))


OIDS = [b"person", b"PERSON", b"2.5.6.6", b"a\x01", b"a\tb", b"x\x7f", b"a b"]
INTEGERS = [
    b"0", b"1", b"-1", b"01", b"-0", b"+1", b"", b"-", b"1 ", b"1.0", b"%d" % (2**127 - 1), b"%d" % 2**127, b"%d" % -2**127,
    b"%d" % (-2**127 - 1), b"9" * 39, b"9" * 200, b"00", b"--1", b"1-", b"a", b"\xd9\xa1"]


def distinct(fields):
    """Fields with no word twice."""
    return list({field.split()[0].lower(): field for field in fields}.values())


def value(rng):
    kind = rng.randrange(20)
    if kind < 2:
        return b" ".join(other_case(rng, rng.choice([b"alpha", b"be", b"c"])) for _ in range(rng.randrange(1, 5)))
    if kind < 4:    # lengths around those of a folded line
        return rng.choice([b"x", b"xy ", b"\xc3\xa9", b"a  "]) * rng.choice([*range(57, 66), 10, 30, 70, 139, 140, 300])
    if kind == 4:
        return bytes([97 + rng.randrange(26)]) * rng.randrange(40, 160)
    if kind < 7:
        return rng.choice(STRANGE)
    if kind == 7:
        return bytes(rng.randrange(1, 128) for _ in range(rng.randrange(1, 20)))
    if kind == 8:
        return bytes(rng.choice(b"aAbB  ") for _ in range(rng.randrange(1, 8)))
    if kind < 13:
        return rng.choice([b"v%d", b"V%d", b"v %d", b"word  %d"]) % rng.randrange(50)
    return rng.choice([b"a", b"b", b"a b", b"A  b", b"secret", b"x y", b"Bob", b"12", b"person"])
