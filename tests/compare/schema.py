"""dir.conf in bytes: its lines, the definitions of attribute types and object classes (RFC 4512, 4.1), the suffix, and the
index lines; and names of entries (RFC 4514), which it reads and writes.

Of a definition the form is read whole first: its fields, in any order and each once. Then it is looked at beside those before
it.
"""
import re
from dataclasses import dataclass, field
from typing import Optional

import indexes
import ldif
import sentences
import values

FAULTS = {
    "C1": "keyword", "C2": "form", "C3": "twice", "C4": "unknown name", "C5": "subtype", "C6": "rule needs another syntax",
    "C7": "suffix", "C8": "index", "C9": "collective", "C10": "too many types",
}
# objectClass, top and extensibleObject are there already; definitions with their OIDs are skipped
BUILT_IN = (b"2.5.4.0", b"2.5.6.0", b"1.3.6.1.4.1.1466.101.120.111")
TOP, EXTENSIBLE_OBJECT, BUILT_IN_CLASSES = 0, 1, 2
# names that stand for something else in LDIF
BARRED = (b"dn", b"version", b"control", b"changetype")
USAGES = (b"userapplications", b"directoryoperation", b"distributedoperation", b"dsaoperation")
MOST_TYPES = 65535

TOKEN = re.compile(rb"[ \t]*(?:([()$])|'([^']*)'|([^ \t()$']+))")
OID = re.compile(rb"[0-9]+(?:\.[0-9]+)*")
SYNTAX = re.compile(rb"([0-9]+(?:\.[0-9]+)*)(?:\{[0-9]+\})?")
NAME = re.compile(rb"[A-Za-z][A-Za-z0-9_-]*")
# an AVA of a name: its type, and the bytes and escapes of its value (RFC 4514, 3)
AVA = re.compile(rb" *([A-Za-z0-9_.-]+) *= *")
UNIT = re.compile(rb"""\\(?:(["+,;<>\\ #=])|([0-9A-Fa-f]{2}))|([^"+,;<>\\\0])""", re.DOTALL)

# a word of an index line
WORD = re.compile(rb"[^ \t]+")

# the fields of definitions, and how their values are read
TYPE_FIELDS = {
    b"name": "names", b"desc": "quoted", b"obsolete": "flag", b"sup": "name", b"equality": "name", b"ordering": "name",
    b"substr": "name", b"syntax": "syntax", b"single-value": "flag", b"collective": "flag",
    b"no-user-modification": "flag", b"usage": "word",
}
CLASS_FIELDS = {
    b"name": "names", b"desc": "quoted", b"obsolete": "flag", b"sup": "listed names", b"abstract": "flag",
    b"structural": "flag", b"auxiliary": "flag", b"must": "listed words", b"may": "listed words",
}
CLASS_KINDS = (b"abstract", b"structural", b"auxiliary")


class Fault(Exception):
    """What is wrong, where the line is known; `why` is said with `-v`. Of a name that isn't defined the word, and the field that names it."""
    def __init__(self, line, code, why="", word_line=0, word=None, keyword=None):
        super().__init__(f"dir.conf line {line}: {code} {FAULTS[code]}")
        self.line, self.code, self.word, self.keyword = line, code, word, keyword and keyword.lower()
        self.why = sentences.line(f"line {word_line}: {why}" if word_line else why)


class Wrong(Exception):
    """What is wrong with a line: its code, what is said of it with `-v`, and the word that this is of, behind a keyword or for the second time."""
    def __init__(self, code, why="", word=None, keyword=None, is_second=False):
        super().__init__(code)
        self.why, self.word, self.keyword, self.is_second = why, word, keyword, is_second

    def at(self, text, line):
        word_line = sentences.word_line(text, line, self.keyword, self.word, self.is_second)
        return Fault(line, str(self), self.why, word_line, self.word, self.keyword)


class BadName(Exception):
    """34 or 64 of an AVA of a name, its type, its value, and what is wrong with it."""


@dataclass
class Type:
    oid: bytes
    names: list
    kind: str
    family: Optional[str]
    has_substrings: bool = False
    has_order: bool = False
    is_single: bool = False
    is_fixed: bool = False      # NO-USER-MODIFICATION
    is_operational: bool = False
    above: Optional[int] = None     # the number of its supertype

    def printed(self):
        return self.names[0] if self.names else self.oid

    def takes_index(self, kind):
        return {b"eq": self.family is not None, b"pres": True, b"sub": self.has_substrings}.get(kind, False)


@dataclass
class Class:
    """An object class: the classes that it is derived from, and the types that it names, all by their numbers."""
    above: list
    must: list
    may: list
    name: bytes     # its first name, or its OID


# definitions as text

def tokens_of(text):
    """-> [(what it is, its text)]"""
    tokens, at = [], 0
    text = text.rstrip(b" \t")
    while at < len(text):
        found = TOKEN.match(text, at)
        if not found:
            raise Wrong("C2")
        mark, quoted, word = found.groups()
        tokens.append(("mark", mark) if mark else ("quoted", quoted) if quoted is not None else ("word", word))
        at = found.end()
    return tokens


class Cursor:
    """Takes the tokens of a definition one by one."""

    def __init__(self, tokens):
        self.tokens, self.at = tokens, 0

    def peek(self):
        return self.tokens[self.at] if self.at < len(self.tokens) else ("end", b"")

    def take(self, *whats):
        what, text = self.peek()
        if what not in whats:
            raise Wrong("C2")
        self.at += 1
        return text

    def mark(self, mark):
        if self.peek() != ("mark", mark):
            raise Wrong("C2")
        self.at += 1

    def name(self):
        """A bare word; in quotes, a name or an OID."""
        what, text = self.peek()
        if what == "quoted" and not NAME.fullmatch(text) and not OID.fullmatch(text):
            raise Wrong("C2")
        return self.take("word", "quoted")

    def listed(self, form, between):
        """One text, or a list of them in parentheses."""
        if self.peek() != ("mark", b"("):
            return [self.value(form)]
        self.mark(b"(")
        found = [self.value(form)]
        while self.peek() != ("mark", b")"):
            if between:
                self.mark(between)
            found.append(self.value(form))
        self.mark(b")")
        return found

    def value(self, form):
        if form == "flag":
            return True
        if form in ("quoted", "word"):
            return self.take(form)
        if form == "name":
            return self.name()
        if form == "syntax":
            return self.take("word", "quoted")
        if form in ("names", "extension"):
            return self.listed("quoted", b"")
        return self.listed("name" if form == "listed names" else "word", b"$")


def read_definition(text, forms):
    """-> (OID, {field: value})"""
    cursor = Cursor(tokens_of(text))
    cursor.mark(b"(")
    oid = cursor.take("word")
    if not OID.fullmatch(oid):
        raise Wrong("C2")
    fields = {}
    while cursor.peek() != ("mark", b")"):
        word = cursor.take("word").lower()
        form = "extension" if word.startswith(b"x-") and len(word) > 2 else forms.get(word)
        if form is None or word in fields:
            raise Wrong("C2")
        fields[word] = cursor.value(form)
    cursor.mark(b")")
    if cursor.peek() != ("end", b"") or not all(NAME.fullmatch(name) for name in fields.get(b"name", [])):
        raise Wrong("C2")
    return oid, fields


def read_type(text):
    oid, fields = read_definition(text, TYPE_FIELDS)
    syntax = fields.get(b"syntax")
    if any(name.lower() in BARRED for name in fields.get(b"name", [])) or \
            fields.get(b"usage", USAGES[0]).lower() not in USAGES or b"sup" not in fields and syntax is None:
        raise Wrong("C2")
    if syntax is not None:
        found = SYNTAX.fullmatch(syntax)
        if not found:
            raise Wrong("C2")
        fields[b"syntax"] = found[1]
    return oid, fields


def read_class(text):
    oid, fields = read_definition(text, CLASS_FIELDS)
    if sum(kind in fields for kind in CLASS_KINDS) > 1:
        raise Wrong("C2")
    return oid, fields


def read_value(text, at):
    """-> (a value of a name, where it ends)"""
    value, kept = bytearray(), 0
    if text[at:at + 1] == b"#":
        raise ValueError
    while text[at:at + 1] not in (b"", b",", b"+"):
        found = UNIT.match(text, at)
        if not found:
            raise ValueError
        character, digits, raw = found.groups()
        value += bytes.fromhex(digits.decode()) if digits else character or raw
        # spaces at the end count where they are escaped
        if raw != b" ":
            kept = len(value)
        at = found.end()
    return bytes(value[:kept]), at


def read_rdns(text):
    rdns, at = [[]], 0
    while True:
        found = AVA.match(text, at)
        if not found:
            raise ValueError
        value, at = read_value(text, found.end())
        rdns[-1].append((found[1], value))
        if at == len(text):
            return rdns
        if text[at:at + 1] == b",":
            rdns.append([])
        at += 1


def read_name(text):
    """A name of RFC 4514, 3, but for values in hexadecimal. -> its RDNs, own one first, each [(type, value)], or None"""
    if not values.is_utf8(text):
        return None
    if text.strip(b" ") == b"":
        return []
    try:
        return read_rdns(text)
    except ValueError:
        return None


def written_value(value):
    """A value as it stands in a name (RFC 4514, 2.4)."""
    out = bytearray()
    for at, byte in enumerate(value):
        is_edge = byte == 32 and at in (0, len(value) - 1) or byte == 35 and at == 0
        if byte < 32 or byte > 126:
            out += b"\\%02X" % byte
        else:
            out += b"\\" * (is_edge or byte in b'"+,;<>\\') + bytes([byte])
    return bytes(out)


@dataclass
class Conf:
    """The types and classes by their numbers, their names and OIDs, and the suffix, each of its RDNs as [(number, value)]."""
    types: list = field(default_factory=lambda: [Type(b"2.5.4.0", [b"objectClass"], "oid", "oid")])
    numbers: dict = field(default_factory=lambda: {b"objectclass": 0, b"2.5.4.0": 0})
    classes: list = field(default_factory=lambda: [Class([], [0], [], b"top"), Class([TOP], [], [], b"extensibleObject")])
    class_numbers: dict = field(default_factory=lambda: {
        b"top": TOP, b"2.5.6.0": TOP, b"extensibleobject": EXTENSIBLE_OBJECT, BUILT_IN[2]: EXTENSIBLE_OBJECT})
    suffix: Optional[list] = None
    # of the index lines: {(type, place of a kind in indexes.KINDS)}
    slots: set = field(default_factory=set)

    def type_of(self, text):
        """The number of the type that a name, in any case, or an OID says (RFC 4512, 2.5)."""
        return self.numbers.get(text.lower())

    def is_subtype(self, number, above):
        """Is it this very type, or one below it?"""
        while number is not None and number != above:
            number = self.types[number].above
        return number == above

    def is_valid(self, number, value):
        if self.types[number].kind == "name":
            return self.avas_of(value) is not None
        return values.is_valid(self.types[number].kind, value)

    def normal(self, number, value):
        if self.types[number].family == "name":
            return self.normal_name(self.avas_of(value))
        return values.normal(self.types[number].family, value)

    def avas_of(self, value):
        """The AVAs of a value that is a name, or None"""
        name = read_name(value)
        try:
            return None if name is None else self.pairs_of(name)
        except BadName:
            return None

    def normal_name(self, name):
        rdns = [b"+".join(self.types[number].printed().lower() + b"=" + written_value(value) for number, value in step)
                for step in self.steps(name)]
        return b",".join(rdns)

    def written_name(self, name):
        return b",".join(b"+".join(self.types[number].printed() + b"=" + written_value(value) for number, value in rdn)
                         for rdn in name)

    def add_type(self, text):
        oid, fields = told_form(read_type, text, TYPE_FIELDS)
        if oid in BUILT_IN:
            return
        names = fields.get(b"name", [])
        of = sentences.name((names or [oid])[0])
        if len(self.types) >= MOST_TYPES:
            raise Wrong("C10", f"{of}: 65,535 attribute types stand above")
        keys = new_keys(oid, names, self.numbers)
        if b"collective" in fields:
            raise Wrong("C9", f"{of}: collective attributes aren't kept", keyword=b"COLLECTIVE")
        kind, family, substrings, ordering = self.inherited(fields, of)
        if values.KIND_OF_FAMILY.get(family, kind) != kind:
            raise Wrong("C6", f"{of}: {sentences.RULES[family]}", keyword=b"EQUALITY")
        self.numbers.update((key, len(self.types)) for key in keys)
        # a rule for other values than those of the equality rule is none
        has_substrings, has_order = (rule is not None and rule == family for rule in (substrings, ordering))
        is_operational = fields.get(b"usage", USAGES[0]).lower() != USAGES[0]
        self.types.append(Type(oid, names, kind, family, has_substrings, has_order, b"single-value" in fields,
                               b"no-user-modification" in fields, is_operational, self.type_of(fields.get(b"sup", b""))))

    def inherited(self, fields, of):
        """-> (kind, family, what its substring and ordering rules go with) of a type, its own or those of the type above it"""
        kind = values.kind_of(fields[b"syntax"]) if b"syntax" in fields else None
        family = values.FAMILIES.get(fields.get(b"equality", b"").lower())
        substrings = values.SUBSTRINGS.get(fields.get(b"substr", b"").lower())
        ordering = values.ORDERINGS.get(fields.get(b"ordering", b"").lower())
        if b"sup" not in fields:
            return kind, family, substrings, ordering
        number = self.type_of(fields[b"sup"])
        named = fields[b"sup"]
        if number is None:
            raise Wrong("C4", f"{of}'s SUP: {sentences.name(named)} isn't defined above", named, b"SUP")
        above = self.types[number]
        if family and above.family and family != above.family or kind and kind != above.kind:
            raise Wrong("C5", f"{of} has another syntax or equality rule than its SUP {sentences.name(named)}", named, b"SUP")
        substrings = substrings or (above.family if above.has_substrings else None)
        ordering = ordering or (above.family if above.has_order else None)
        return above.kind, family or above.family, substrings, ordering

    def add_class(self, text):
        oid, fields = told_form(read_class, text, CLASS_FIELDS)
        if oid in BUILT_IN:
            return
        keys = new_keys(oid, fields.get(b"name", []), self.class_numbers)
        above = [self.class_of(name) for name in fields.get(b"sup", [])]
        must, may = ([self.type_of(name) for name in fields.get(kind, [])] for kind in (b"must", b"may"))
        of = sentences.name((fields.get(b"name") or [oid])[0])
        for field, found in (b"sup", above), (b"must", must), (b"may", may):
            if None in found:
                word = fields[field][found.index(None)]
                raise Wrong("C4", f"{of}'s {field.decode().upper()}: {sentences.name(word)} isn't defined above", word, field)
        self.class_numbers.update((key, len(self.classes)) for key in keys)
        self.classes.append(Class(above, must, may, (fields.get(b"name") or [oid])[0]))

    def class_of(self, text):
        """The number of the class that a name, in any case, or an OID says."""
        return self.class_numbers.get(text.lower())

    def printed_class(self, number):
        return self.classes[number].name

    def with_superclasses(self, numbers):
        """These classes and all that they are derived from (RFC 4512, 2.4)."""
        found, left = set(), list(numbers)
        while left:
            number = left.pop()
            if number not in found:
                found.add(number)
                left += self.classes[number].above
        return found

    def required_in_order(self, number):
        """The types that a class requires: those that it names itself, in this order, then those of each superclass, each once."""
        types = list(self.classes[number].must)
        for above in self.classes[number].above:
            types += self.required_in_order(above)
        return list(dict.fromkeys(types))

    def fits_classes(self, names, types):
        """May an entry that names these classes have these types, and no others? All will do where no class is defined."""
        if len(self.classes) == BUILT_IN_CLASSES:
            return True
        named = [self.class_of(name) for name in names]
        if None in named:
            return False
        belongs = self.with_superclasses(named)
        required = {number for one in belongs for number in self.classes[one].must}
        allowed = required.union(*(self.classes[one].may for one in belongs))
        return required <= types and all(
            number == 0 or self.types[number].is_operational or EXTENSIBLE_OBJECT in belongs or number in allowed
            for number in types)

    def add_suffix(self, text):
        text = text.rstrip(b" ")
        if len(text) >= 2 and text.startswith(b'"') and text.endswith(b'"'):
            text = text[1:-1]
        if self.suffix is not None:
            raise Wrong("C7", "a suffix stands above; one is kept")
        self.suffix = self.avas_of(text)
        if not self.suffix:
            # the first RDN that isn't one, as it stands there, or all of it
            part = next((part for part in sentences.rdns_of(text) if not self.avas_of(part)), text)
            raise Wrong("C7", f"{sentences.value(part)} is no name of attribute types that are defined")

    def add_index(self, text):
        """An index line: a list of types, and a list of kinds."""
        lists = [word.split(b",") for word in WORD.findall(text)]
        if len(lists) != 2 or b"" in lists[0] or b"" in lists[1]:
            raise Wrong("C2", "an index line has a list of types and a list of kinds, each without spaces")
        numbers = [self.type_of(name) for name in lists[0]]
        if None in numbers:
            word = lists[0][numbers.index(None)]
            raise Wrong("C4", f"index: {sentences.name(word)} isn't defined", word)
        for kind in lists[1]:
            if kind not in (b"eq", b"pres", b"sub"):
                raise Wrong("C8", f"index: {sentences.name(kind)} is no kind; eq, pres and sub are", kind)
        for kind in lists[1]:
            for name, number in zip(lists[0], numbers):
                if not self.types[number].takes_index(kind):
                    raise Wrong("C8", f"index: {sentences.name(name)} has no {sentences.LACKING[kind]}", name)
        self.slots.update((number, indexes.KINDS.index(kind)) for number in numbers for kind in lists[1])

    def pairs_of(self, name):
        """Looks at each AVA of a name before the next. -> its RDNs, each [(number, value)]"""
        return [self.pairs_of_rdn(rdn) for rdn in name]

    def pairs_of_rdn(self, rdn):
        pairs = []
        for kind, value in rdn:
            number = self.type_of(kind)
            if number is None:
                raise BadName(34, kind, value, "type")
            if self.types[number].kind == "name":
                raise BadName(34, kind, value, "syntax")
            if self.types[number].family is None:
                raise BadName(64, kind, value, "rule")
            if not self.is_valid(number, value):
                raise BadName(34, kind, value, "value")
            if number in [number for number, _ in pairs]:
                raise BadName(64, kind, value, "twice")
            pairs.append((number, value))
        return pairs

    def steps(self, name):
        """The RDNs as they compare: their AVAs by type."""
        return [sorted((number, self.normal(number, value)) for number, value in rdn) for rdn in name]


def new_keys(oid, names, there):
    """The OID and the names without case, where none is there twice."""
    keys, words = [oid] + [name.lower() for name in names], [oid] + names
    taken = [word for at, word in enumerate(words) if keys[at] in there] or [word for at, word in enumerate(words) if keys[at] in keys[at + 1:]]
    if taken:
        raise Wrong("C3", f"{sentences.name((names or [oid])[0])}: {sentences.name(taken[0])} is taken already", taken[0])
    return keys


def told_form(read, text, forms):
    """Reads a definition; where it hasn't its form, says what can't be read."""
    try:
        return read(text)
    except Wrong:
        pass
    why, word = sentences.unread(text, forms, lambda field, part: has_form(read, field, part))
    of = sentences.defined_name(text)
    raise Wrong("C2", why if of is None else f"{sentences.name(of)}: {why}", word, is_second=why.endswith("stands twice"))


def has_form(read, field, part):
    """Whether a field by itself can be read."""
    more = b"" if read is read_class else b" SUP a" if field == b"syntax" else b" SYNTAX 0"
    try:
        read(b"( 0 " + part.replace(b"\n", b" ") + more + b" )")
        return True
    except Wrong:
        return False


def joined_lines(text):
    """A line that begins with a space or tab goes on with the one before, a comment too; the break and that byte count as a
    space.
    -> [(number of its first line, line)]"""
    lines = []
    can_go_on = False
    for number, line in enumerate(ldif.lines_of(text), 1):
        if can_go_on and line.startswith((b" ", b"\t")):
            lines[-1][1] += b" " + line[1:]
        else:
            lines.append([number, line])
        can_go_on = line != b""
    return lines


def read_conf(text):
    """The suffix and index lines come after all others, wherever they stand."""
    conf, later = Conf(), []
    for number, line in joined_lines(text):
        if line == b"" or line.startswith(b"#"):
            continue
        word, rest = re.fullmatch(rb"([^ \t]*)[ \t]*(.*)", line).groups()
        if word.lower() in (b"suffix", b"index"):
            later.append((number, word.lower(), rest))
            continue
        try:
            first_pass(conf, word, rest)
        except Wrong as wrong:
            raise wrong.at(text, number) from None
    for number, word, rest in later:
        try:
            if word == b"index":
                conf.add_index(rest)
            else:
                conf.add_suffix(rest)
        except Wrong as wrong:
            raise wrong.at(text, number) from None
    if conf.suffix is None:
        raise Fault(0, "C7", "no suffix line; the suffix is the name of the first entry")
    return conf


def first_pass(conf, spelled, rest):
    word = spelled.lower()
    if word == b"attributetype":
        conf.add_type(rest)
    elif word == b"objectclass":
        conf.add_class(rest)
    else:
        # a line that goes on with none has no first word
        if not word:
            raise Wrong("C2", "a line that begins with a space continues the one before, and here is none")
        if spelled.startswith(b"\xef\xbb\xbf"):
            raise Wrong("C1", "the line begins with a byte order mark; take it away")
        raise Wrong("C1", f"{sentences.value(spelled)} is no keyword; suffix, index, attributetype and objectclass are")
