"""Random folders and inputs for slapadd, ldapmodify, slapindex and slapcat, the same for the same seed.

Most are good but for a fault or two: those of the lists in `pieces.py`, and those that come of cutting and mixing good
texts. The configurations are those of `configs.py`. What comes of a case is the model's to say.
"""
import base64
from dataclasses import dataclass
from typing import ClassVar, Optional

import ldif
import model
import schema
import values
from configs import PAIRED, PLAIN_CONF, RULES, SUBSTRINGS, Config, definition, other_case, some, value
from pieces import (
    BAD_CONTROLS, BAD_NAMES, BAD_RDNS, CHANGE_LINES, CONTROLS, CRITICAL_CONTROLS, FIRST_LINES, INDEX_KINDS, NAMING, NO_TYPES,
    ODD_LINES, PAIRS, TINY, TOKENS, VALUES, VERSIONS, WORDS)


@dataclass(frozen=True)
class Case:
    """The files of a folder, None for one that isn't there, and the input and options of a command."""
    # what a case is cut down to
    OPTIONS: ClassVar = (("wrap", None), *((option, False) for option in ("by_file", "to_file", "index_first", "go_on", "dry_run", "add_default")))
    TEXTS: ClassVar = (("index", None), ("data", None), ("input", b""), ("conf", PLAIN_CONF))
    conf: Optional[bytes]
    data: Optional[bytes]
    input: Optional[bytes]      # None: the command is to read a file that isn't there
    changes: bool = False       # ldapmodify reads it, and not slapadd
    add_default: bool = False   # a record without a changetype adds
    go_on: bool = False
    dry_run: bool = False
    by_file: bool = False       # the input comes as a file
    to_file: bool = False       # slapcat writes to a file
    index: Optional[bytes] = None
    index_first: bool = False   # slapindex runs over the folder as it begins, too
    wrap: Optional[bytes] = None    # what slapcat has behind -o


# words behind -o that say no width
BAD_WRAPS = [b"", b"ldif-wrap", b"ldif-wrap=", b"ldif-wrap=1", b"ldif-wrap=01", b"ldif-wrap=+20", b"ldif-wrap=-20", b"ldif-wrap= 20", b"ldif-wrap=20 ",
             b"ldif-wrap=4294967296", b"ldif-wrap=99999999999999999999", b"ldif-wrap=No", b"ldif-wrap=nono", b"ldif-wrap==20", b"ldif_wrap=20",
             b"LDIF-WRAP=20", b"wrap=20", b"20", b"no", b"ldif-wrap=2_0", b"ldif-wrap=\xd9\xa3", b"ldif-wrap=20,ldif-wrap=30"]


def wrap(rng, chance):
    """What stands behind -o, with this chance: mostly a width."""
    if not some(rng, chance):
        return None
    width = rng.choice([b"%d" % rng.randrange(2, 101)] * 6 + [b"%d" % rng.randrange(2, 12)] * 3 + [b"0", b"00", b"no", b"no", b"2", b"75", b"76", b"77"] +
                       [b"4294967295", b"0020"])
    return rng.choice(BAD_WRAPS) if some(rng, .03) else b"ldif-wrap=" + width


def value_line(rng, name, text, wild=True):
    """One of the ways to write a value line; a wild one may have bytes that have to be in base64."""
    plain = ldif.is_plain(text)
    raw = b"\n" not in text and text[:1] not in (b" ", b":", b"<") and text[-1:] != b"\r"
    if raw and not some(rng, .1 if plain else .6 if wild else 1):
        return name + b":" + rng.choice([b" ", b" ", b" ", b"", b"   "]) + text
    before, behind = rng.choice([b" ", b" ", b"", b"   "]), rng.choice([b"", b"", b"", b"   "])
    return name + b"::" + before + base64.b64encode(text) + behind


class Speller:
    """Makes one text of records, with its own ends of lines, folding and comments."""

    def __init__(self, rng, calm):
        self.rng, self.calm = rng, calm
        self.ends = rng.choice([[b"\n"], [b"\n"], [b"\n"], [b"\r\n"], [b"\n", b"\r\n"]])
        self.folding = 0 if calm else rng.choice([0, 0, .05, .3])
        self.comments = 0 if calm else rng.choice([0, 0, .1, .3])

    def end(self):
        return self.rng.choice(self.ends)

    def line(self, line):
        rng = self.rng
        if line and some(rng, self.folding):
            for _ in range(rng.choice([1, 1, 2, 5])):
                place = rng.randrange(1, len(line) + 1)
                cut = self.end() + b"#cut" if some(rng, .05) else b""
                line = line[:place] + cut + self.end() + b" " + line[place:]
        return line + self.end()

    def comment(self, chance):
        rng = self.rng
        if not some(rng, chance):
            return b""
        out = b"#" + rng.choice([b"", b" note", b" dn: dc=no", b"\xff\x00", b"#"]) + self.end()
        while some(rng, .3):
            out += b" " + rng.choice([b"", b"more", b"objectClass: x", b"#"]) + self.end()
        return out

    def text(self, records):
        rng = self.rng
        out = b"" if self.calm or some(rng, .85) else self.end() * rng.randrange(1, 4)
        for lines in records:
            for line in lines:
                out += self.comment(self.comments) + self.line(line)
            out += self.comment(self.comments)
            out += self.end() * (1 if self.calm or some(rng, .8) else rng.randrange(1, 5))
            out += self.comment(0 if self.calm else .05)
        return out.rstrip(b"\r\n") if some(rng, .25) else out[:-1] if some(rng, .05) else out


class Records:
    """Makes records, and keeps the names of those that may stand, so that more records can stand below them."""

    def __init__(self, rng, config):
        self.rng, self.config = rng, config
        self.names, self.is_deep = [], False

    def new_name(self):
        rng, config = self.rng, self.config
        if not self.names:
            return list(config.suffix)
        parent = rng.choice(self.names) if some(rng, .6) else self.names[0]
        if self.is_deep and some(rng, .6):
            parent = rng.choice(self.names[-3:])
        if len(parent) > 12:
            parent = self.names[0]
        kind = b"objectClass" if some(rng, .035) else rng.choice(config.types if some(rng, .05) else config.naming)
        return [[(kind, config.word(kind))] if kind == b"objectClass" else config.rdn(kind)] + parent

    def line(self, name, text, wild=True):
        return value_line(self.rng, self.config.type_text(name), text, wild)

    def attributes(self, most=3, wild=True):
        rng = self.rng
        lines = self.classes(wild)
        for _ in range(rng.randrange(most + 1)):
            kinds = self.config.types if some(rng, .1) else self.config.naming
            kind = rng.choice(self.config.named if self.config.named and some(rng, .2) else kinds)
            lines.append(self.line(kind, self.config.value(kind, .05 if wild else 0), wild))
        if some(rng, .3):
            rng.shuffle(lines)
        return lines

    def classes(self, wild):
        """Values of objectClass, and mostly of the types that defined classes require."""
        rng, config = self.rng, self.config
        if not config.classes or some(rng, .05):
            names = [b"person", b"top", b"domain", b"2.5.6.6", b"a\x01", b"x\x7f", b"t%d" % rng.randrange(9)]
            return [self.line(b"objectClass", rng.choice(names), wild) for _ in range(rng.choice([1, 1, 1, 2]))]
        picked = rng.sample(config.classes, min(len(config.classes), rng.choice([1, 1, 2, 3])))
        if some(rng, .6) and config.classes[0] not in picked:
            picked.append(config.classes[0])
        names = [config.class_text(one) for one in picked]
        if some(rng, .3):
            names.append(rng.choice([b"top", b"extensibleObject", b"EXTENSIBLEobject", schema.BUILT_IN[2], b"2.5.6.0"]))
        lines = [self.line(b"objectClass", name, wild) for name in names]
        for kind in sorted({kind for one in picked for kind in one.must}):
            if some(rng, .95):
                lines.append(self.line(kind, config.value(kind, 0), wild))
        return lines

    def named(self, name, wild=True):
        rng = self.rng
        dn = value_line(rng, rng.choice([b"dn", b"dn", b"dn", b"DN", b"Dn"]), self.config.name_text(name), wild)
        return [dn] + self.attributes(wild=wild)

    def good(self, first):
        rng, name = self.rng, self.new_name()
        self.names.append(name)
        lines = self.named(self.config.respelled_name(name) if some(rng, .3) else name)
        if some(rng, .3):   # the value of the RDN
            lines.insert(rng.randrange(1, len(lines) + 1), self.line(*self.config.respelled_name(name)[0][0]))
        return [rng.choice(VERSIONS)] + lines if first and some(rng, .3) else lines

    def again(self, _):
        return self.named(self.config.respelled_name(self.rng.choice(self.names or [self.config.suffix])))

    def nowhere(self, _):
        return self.named(self.nowhere_name())

    def nowhere_name(self):
        rng, suffix = self.rng, self.config.suffix
        kind = rng.choice(self.config.types)
        no, nowhere, single = [(kind, b"no")], [(kind, b"nowhere")], [(kind, b"x")]
        return rng.choice([
            [no, nowhere] + suffix, suffix[1:], [single] + suffix[:-1], [single], [single] + suffix + [no], suffix + suffix,
            [[(kind, word + b"x") for kind, word in rdn] for rdn in suffix], [rdn + single for rdn in suffix],
            [rdn[:1] for rdn in suffix], [single + no] + suffix])

    def badly_named(self, _):
        rng = self.rng
        text = self.config.filled(rng.choice(BAD_NAMES), rng.choice(self.names or [self.config.suffix]))
        return [value_line(rng, b"dn", text)] + self.attributes()

    def odd(self, _):
        """A line too much, or a few."""
        rng, lines = self.rng, self.named(self.new_name())
        key = rng.choice([17, 21, "L4", "L4", "L5", "L6", "L12", "many"])
        for _ in range(rng.choice([1, 2, 3]) if key == "many" else 1):
            lines.insert(rng.randrange(1, len(lines) + 1), self.config.filled(rng.choice(ODD_LINES[key])))
        return lines[1:] if some(rng, .05) else lines

    def twice(self, _):
        rng, lines = self.rng, self.named(self.new_name())
        kind = rng.choice(self.config.types)
        text = self.config.value(kind)
        twin = rng.choice([
            text, other_case(rng, text), text.replace(b" ", b"   "), b" " + text + b"  ", text.replace(b" ", b""),
            text.replace(b"-", b""), text + b"-", self.config.value(kind)])
        if some(rng, .2):
            text, twin = (text.encode() for text in rng.choice(PAIRS))
        elif some(rng, .3):
            kind, text = b"objectClass", rng.choice(WORDS).replace(b" ", b"")
            twin = other_case(rng, text)
        for text in (text, twin):
            lines.insert(rng.randrange(1, len(lines) + 1), self.line(kind, text))
        return lines

    def with_names(self, first):
        """An entry with names for values, some of them alike."""
        rng, config = self.rng, self.config
        if not config.named:
            return self.good(first)
        name = self.new_name()
        self.names.append(name)
        lines = self.named(name)
        for _ in range(rng.choice([1, 1, 2, 5])):
            kind, texts = rng.choice(config.named), config.alike_names(rng.choice([1, 2, 2, 3]))
            lines += [self.line(kind, config.bad_name() if some(rng, .05) else text) for text in texts]
        return lines

    def without_class(self, _):
        lines = self.named(self.new_name())
        return lines[:1] + [line for line in lines[1:] if not line.lower().startswith((b"objectclass", b"2.5.4.0"))]

    def oddly_begun(self, first):
        rng, lines = self.rng, self.named(self.new_name())
        line = rng.choice(FIRST_LINES["L3" if first and some(rng, .5) else rng.choice(list(FIRST_LINES))])
        return rng.choice([[line] + lines, [line] + lines[1:], [line], lines[1:], lines[::-1]])

    def change(self, _):
        return self.named(self.new_name())[:1] + self.rng.choice([
            [b"changetype: modify", b"add: cn", b"cn: a", b"-"], [b"control: 1.2.3 true", b"changetype: delete"],
            [b"changetype: modrdn", b"newrdn: cn=a", b"deleteoldrdn: 1"], [b"changetype: add", b"objectClass: a"], []])

    def record(self, first):
        kinds = [self.good] * 38 + [self.odd] * 28 + [self.again] * 5 + [self.nowhere] * 5 + [self.badly_named] * 6 + \
            [self.twice] * 5 + [self.with_names] * 8 + [self.without_class] * 3 + [self.oddly_begun] * 7 + [self.change] * 3
        # little comes of most records where none stands
        return (self.good if not self.names and some(self.rng, .8) else self.rng.choice(kinds))(first)

    def text(self, number):
        return Speller(self.rng, some(self.rng, .3)).text([self.record(at == 0) for at in range(number)])

    def good_text(self, number):
        """Records that nearly always can be added."""
        records = []
        for _ in range(number):
            name = self.new_name()
            self.names.append(name)
            records.append(self.named(name, False))
        return Speller(self.rng, some(self.rng, .5)).text(records)

    def server_text(self, number):
        """What the slapcat of a server prints: base64, folded lines, operational attributes, comments."""
        rng = self.rng
        out = rng.choice([b"", b"", b"version: 1\n\n", b"version: 1\n", b"# extended LDIF\n#\n\nversion: 1\n\n"])
        for serial in range(number):
            name = self.new_name()
            self.names.append(name)
            width = rng.choice([76, 76, 76, 78, 60])
            for kind, text in [(b"dn", self.config.name_text(name))] + name[0] + self.server_attributes(serial):
                plain = ldif.is_plain(text) and kind != b"userPassword"
                line = kind + (b": " + text if plain else b":: " + base64.b64encode(text))
                out += line[:width] + b"\n"
                out += b"".join(b" " + line[at:at + width - 1] + b"\n" for at in range(width, len(line), width - 1))
            out += b"\n" + (b"# entry-id: %d\n" % serial if some(rng, .1) else b"")
        return out

    def server_attributes(self, serial):
        rng, config = self.rng, self.config
        texts = ["Zurück " * 20 + "!", "long words " * 15 + "end", "short", "x" * 300]
        pairs = [
            (b"objectClass", b"top"), (b"objectClass", b"inetOrgPerson"), (b"structuralObjectClass", b"inetOrgPerson"),
            (b"description", rng.choice(texts).encode()), (b"userPassword", b"{SSHA}" + base64.b64encode(rng.randbytes(24))),
            (b"entryUUID", b"7f6c1f7e-3a1c-103f-8a00-%012d" % serial), (b"createTimestamp", b"20240101%06dZ" % serial),
            (b"creatorsName", b"cn=admin," + config.name_text(config.suffix)),
            (b"entryCSN", b"20240101000000.%06dZ#000000#000#000000" % serial)]
        known = config.types + [b"objectClass"]
        return [pair for pair in pairs if pair[0] in known or some(rng, .015)]


class Changes(Records):
    """Makes records of changes, and carries them out on a directory, so that most speak of what is there."""

    def __init__(self, rng, config, add_default):
        super().__init__(rng, config)
        self.directory, self.add_default = model.load(config.text, None, ""), add_default

    def carry_out(self, lines, changes):
        model.run(self.directory, b"\n".join(lines), False, changes, self.add_default)
        self.names = [self.name_of(path) for path in self.directory.entries]

    def fill(self, number):
        """Adds entries with values of many types."""
        rng, config = self.rng, self.config
        for _ in range(number):
            kinds, name = rng.choices(config.types, k=rng.choice([0, 1, 2, 4, 8])), self.new_name()
            lines = self.named(name, False) + [self.line(kind, config.value(kind, .02), False) for kind in kinds]
            for part in name[0] if some(rng, .5) else ():
                lines.insert(rng.randrange(1, len(lines) + 1), self.line(*part))
            self.carry_out(lines, False)

    def rdn_of(self, pairs):
        return [(self.directory.conf.types[number].printed(), value) for number, value in pairs]

    def name_of(self, path):
        rdns = [self.rdn_of(self.directory.entries[path[:depth]][0]) for depth in range(len(path), 0, -1)]
        return rdns + [self.rdn_of(rdn) for rdn in self.directory.conf.suffix]

    def some_path(self, leaf=.5):
        """Of an entry that is there, or of the suffix."""
        paths = list(self.directory.entries) or [()]
        leaves = [path for path in paths if not self.directory.has_child(path)]
        return self.rng.choice(leaves if some(self.rng, leaf) else paths)

    def some_parent(self):
        """Of an entry below the suffix that has others below it, where there is one."""
        parents = sorted({path[:-1] for path in self.directory.entries if len(path) > 1})
        return self.rng.choice(parents) if parents else self.some_path()

    def dn_of(self, path, odd=.07):
        rng, name = self.rng, self.name_of(path) if path in self.directory.entries else self.config.suffix
        if some(rng, odd):
            return rng.choice([
                self.config.filled(rng.choice(BAD_NAMES), name), self.config.name_text(self.nowhere_name()),
                self.config.name_text(self.new_name())])
        return self.config.name_text(self.config.respelled_name(name) if some(rng, .2) else name)

    def keyword(self, name, text, is_word=False):
        """A line of a change. Spaces at the end of a word are dropped."""
        rng = self.rng
        spaces = b"  " if is_word and some(rng, .05) else b""
        return value_line(rng, other_case(rng, name) if some(rng, .1) else name, text + spaces)

    def controls(self):
        rng, lines = self.rng, []
        for _ in range(rng.choice([0] * 12 + [1, 1, 2])):
            lists = [CONTROLS] * 6 + [CRITICAL_CONTROLS, BAD_CONTROLS]
            lines.append(self.keyword(b"control", rng.choice(rng.choice(lists))))
        return lines

    def begun(self, dn, word):
        """A change down to its changetype."""
        rng = self.rng
        word = other_case(rng, word) if some(rng, .1) else word
        return [self.keyword(b"dn", dn)] + self.controls() + [self.keyword(b"changetype", word, True)]

    def addition(self):
        rng = self.rng
        kinds = [self.good] * 8 + [self.again, self.nowhere, self.badly_named, self.odd, self.twice, self.with_names,
                                   self.without_class]
        lines = rng.choice(kinds)(False)
        word = [] if some(rng, .5 if self.add_default else .03) else [self.keyword(b"changetype", b"add", True)]
        return lines[:1] + self.controls() + word + lines[1:]

    def deletion(self):
        return self.begun(self.dn_of(self.some_path(.7)), b"delete") + self.stray_lines()

    def stray_lines(self):
        return [self.config.filled(self.rng.choice(CHANGE_LINES), self.config.suffix)] if some(self.rng, .04) else []

    def modification(self):
        rng, path = self.rng, self.some_path()
        lines = self.begun(self.dn_of(path), b"modify")
        rdn, there = self.directory.entries.get(path, ([], model.Attributes(self.directory.conf)))
        there = there.copy()
        for _ in range(rng.choice([0, 1, 1, 1, 2, 3, 5])):
            for block in self.blocks(there, rdn):
                try:
                    self.directory.modify_one(there, block)
                except model.Refused:
                    pass
                lines += self.block_lines(block)
        return lines[:-1] if some(rng, .1) and lines[-1].startswith(b"-") else lines

    def block_lines(self, block):
        rng = self.rng
        lines = [self.keyword(block.word.encode(), block.name, True)]
        for text in block.values:
            name = self.config.type_text(rng.choice(self.config.types)) if some(rng, .01) else block.name or b"cn"
            name += b" " if some(rng, .01) else b""
            lines.append(value_line(rng, other_case(rng, name) if some(rng, .1) else name, text))
        return lines + [rng.choice([b"-"] * 9 + [b"-  "])]

    def blocks(self, there, rdn):
        """A block that can mostly be carried out, or two that give the RDN's value another spelling."""
        rng, types = self.rng, self.directory.conf.types
        if some(rng, .03):
            name = self.config.filled(rng.choice(NO_TYPES))
            return [ldif.Block(rng.choice(["add", "delete", "replace"]), name, rng.choice([[], [b"a"]]))]
        if some(rng, .12):
            return [self.wild_block(there)]
        if rdn and some(rng, .08):
            number, text = rng.choice(rdn)
            name = self.config.type_text(types[number].printed())
            return [ldif.Block("delete", name, [text]), ldif.Block("add", name, [alike(rng, text)])]
        number = self.some_type(there, rdn)
        word = rng.choice(["add", "add", "delete", "replace"] + ["add"] * (number not in there.values))
        if types[number].family is None and number in there.values and not some(rng, .2):
            word = rng.choice(["replace", "delete"])
        return [ldif.Block(word, self.config.type_text(types[number].printed()), self.new_values(word, there, number))]

    def wild_block(self, there):
        """A block that may break several rules at a time."""
        rng, types = self.rng, self.directory.conf.types
        numbers = rng.choice([range(len(types)), list(there.values), [
            number for number, kind in enumerate(types) if kind.is_fixed or kind.family is None]])
        number = rng.choice(numbers or [model.OBJECT_CLASS])
        pool = [alike(rng, text) for text in there.values.get(number, {}).values()]
        pool += [self.new_value(number), self.new_value(number), rng.choice(VALUES)]
        picked = rng.choices(pool, k=rng.choice([0, 0, 1, 2, 3]))
        return ldif.Block(rng.choice(["add", "delete", "replace"]), self.config.type_text(types[number].printed()), picked)

    def some_type(self, there, rdn):
        """Seldom one that users don't change, or one of the RDN."""
        rng, types = self.rng, self.directory.conf.types
        for _ in range(6):
            number = rng.choice(list(there.values)) if there.values and some(rng, .6) else rng.randrange(len(types))
            if some(rng, .05) or not types[number].is_fixed and number not in [number for number, _ in rdn]:
                break
        return number

    def new_value(self, number):
        name = self.directory.conf.types[number].printed()
        if number == model.OBJECT_CLASS:
            others = [self.config.class_text(one) for one in self.config.classes] * 3 + [b"extensibleObject"] * (self.config.classes != [])
            return self.rng.choice(others + [b"person", b"PERSON", b"top", b"2.5.6.6", b"a\x01", b"t%d" % self.rng.randrange(9)])
        return self.config.value(name, .03)

    def new_values(self, word, there, number):
        """The values of a block."""
        rng, kind = self.rng, self.directory.conf.types[number]
        old = list(there.values.get(number, {}).values())
        few = 1 if kind.is_single and some(rng, .8) else rng.choice([1, 1, 2, 3])
        new = [self.new_value(number) for _ in range(few)]
        if word == "delete":
            takes_none = some(rng, .9 if kind.family is None else .3) or not old and some(rng, .3)
            picked = [alike(rng, text) for text in rng.sample(old, rng.randrange(1, len(old) + 1))] if old else new
            picked = [] if takes_none else picked + (new if some(rng, .05) else [])
        elif word == "replace":
            kept = [alike(rng, text) for text in old if some(rng, .4)]
            picked = rng.choice([[], new, new, new, new[:1], kept if kind.is_single else kept + new])
            rng.shuffle(picked)
        else:
            picked = [] if some(rng, .03) else new + ([alike(rng, rng.choice(old))] if old and some(rng, .07) else [])
        return picked + ([alike(rng, rng.choice(picked))] if picked and some(rng, .05) else [])

    def renaming(self):
        rng, wild = self.rng, some(self.rng, .12)   # a wild one may break several rules at a time
        path = self.some_path(.2 if wild else .5)
        if some(rng, .4):
            path = self.some_parent()
        if path == () and not wild:         # the suffix keeps its name
            path = self.some_path(1)
        lines = self.begun(self.dn_of(path), rng.choice([b"modrdn", b"modrdn", b"moddn"]))
        moves = some(rng, .4)
        lines.append(self.keyword(b"newrdn", self.new_rdn(path, moves, .3 if wild else .05)))
        word = rng.choice([b"2", b"", b"00", b"-1", b"a"]) if some(rng, .02) else rng.choice([b"0", b"1"])
        lines.append(self.keyword(b"deleteoldrdn", word, True))
        lines += [self.keyword(b"newsuperior", self.superior(path, 4 if wild else 16))] if moves else []
        return lines + self.stray_lines()

    def new_rdn(self, path, moves, bad):
        """A new RDN, the old one in other words, one with an AVA more or less, that of another entry, or no good one."""
        rng, config = self.rng, self.config
        if some(rng, bad):
            return config.filled(rng.choice(BAD_RDNS), config.suffix)
        old, entries = self.name_of(path)[0] if path in self.directory.entries else config.suffix[0], self.directory.entries
        other = self.name_of(rng.choice(list(entries)))[0] if entries else old
        kind, text = rng.choice(old)
        named = [kind for kind in config.naming if kind not in [kind for kind, _ in old]] or config.naming
        more = rng.choice(named)
        rdns = [
            config.rdn(rng.choice(config.naming)), config.rdn(rng.choice(config.naming)), config.respelled_name([old])[0],
            old + [(more, config.word(more))], [(kind, text)], [(kind, config.word(kind))], other, self.rdn_of_values(path, old)]
        return config.name_text([config.respelled_name([old])[0] if moves and some(rng, .5) else rng.choice(rdns)])

    def rdn_of_values(self, path, old):
        """An RDN of values that the entry has."""
        rng, conf = self.rng, self.directory.conf
        attributes = self.directory.entries.get(path, (None, model.Attributes(conf)))[1]
        pairs = [(number, text) for number, texts in attributes.values.items() for text in texts.values()
                 if conf.types[number].family is not None and conf.types[number].kind != "name"]
        picked = dict(rng.sample(pairs, min(len(pairs), rng.choice([1, 1, 2, 3]))))
        return [(name, alike(rng, text)) for name, text in self.rdn_of(picked.items())] or old

    def superior(self, path, kinds):
        """The name of a parent: mostly of an entry, sometimes of the entry itself or of one below it."""
        rng, config = self.rng, self.config
        kind = rng.randrange(kinds)
        if kind == 0:
            return rng.choice([b"", b" ", config.filled(rng.choice(BAD_RDNS), config.suffix)])
        if kind == 1:
            return self.dn_of(path, 0)
        if kind == 2:
            return config.name_text([config.rdn(rng.choice(config.naming))]) + b"," + self.dn_of(path, 0)
        others = [other for other in self.directory.entries if other[:len(path)] != path]
        return self.dn_of(path[:-1] if kind == 3 or not others else rng.choice(others), .1)

    def odd_change(self):
        """A change with a line too much, too few, or elsewhere."""
        rng = self.rng
        lines = rng.choice([self.modification, self.renaming, self.deletion, self.addition])()
        for _ in range(rng.choice([1, 1, 2])):
            place, kind = rng.randrange(1, len(lines) + 1), rng.randrange(8)
            if kind < 4 or place >= len(lines):
                lines.insert(place, self.config.filled(rng.choice(CHANGE_LINES), rng.choice(self.names or [self.config.suffix])))
            elif kind == 4:
                lines.insert(place, lines[rng.randrange(len(lines))])
            elif kind == 5:
                lines[place], lines[-1] = lines[-1], lines[place]
            else:
                lines.pop(place)
        return lines

    def record(self, first):
        rng = self.rng
        kinds = [self.modification] * (5 if self.is_deep else 40) + [self.renaming] * (70 if self.is_deep else 25) + [self.deletion] * 8 + [self.addition] * 15 + \
            [self.odd_change] * 12
        lines = (self.addition if len(self.names) < 2 and some(rng, .6) else rng.choice(kinds))()
        if some(rng, .015):
            lines = self.oddly_begun(first)
        elif first and some(rng, .1):
            lines = [rng.choice(VERSIONS)] + lines
        self.carry_out(lines, True)
        return lines

    def text(self, number):
        speller = Speller(self.rng, some(self.rng, .3))
        speller.folding /= 4        # the lines are many and short
        return speller.text([self.record(at == 0) for at in range(number)])


def alike(rng, text):
    """A value that is equal to this one under many rules."""
    return rng.choice([text] * 5 + [other_case(rng, text), text.replace(b" ", b"  "), b" " + text, text + b" ",
                                    text.replace(b"-", b"")])


def mutated(rng, text):
    """The text with a few bytes or lines cut, doubled, exchanged or put in."""
    for _ in range(rng.choice([1, 1, 1, 2, 3, 6])):
        text = rng.choice([mutated_bytes, mutated_lines])(rng, text)
    return text


def mutated_bytes(rng, text):
    place, more = rng.randrange(len(text) + 1), rng.choice([1, 1, 1, 2, 5, 20, 60])
    before, there, after = text[:place], text[place:place + more], text[place + more:]
    return before + rng.choice([
        after, after, rng.choice(TOKENS) + there + after, rng.choice(TOKENS) + there + after, there + there + after,
        bytes(byte ^ 1 << rng.randrange(8) for byte in there[:1]) + there[1:] + after,
        rng.randbytes(1) + there[1:] + after, b""])


def mutated_lines(rng, text):
    lines = text.split(b"\n")
    one, other, kind = rng.randrange(len(lines)), rng.randrange(len(lines)), rng.randrange(4)
    line = lines[one]
    if kind == 0:
        lines[one], lines[other] = lines[other], lines[one]
    elif kind == 1:
        lines.pop(one)
    elif kind == 2:
        lines.insert(other, line)
    else:
        begun = rng.choice([b" ", b"#", b"\t"]) + line
        lines[one] = rng.choice([begun, begun, line + b"\r", line + b" ", line[1:], line[:-1], b""])
    return b"\n".join(lines)


# kinds of cases: each gives the two files and the input

def conf_case(rng, config, records):
    """A dir.conf that may have a fault."""
    text = records.good_text(rng.randrange(1, 3))
    conf = mutated(rng, config.text) if some(rng, .3) else config.broken_text()
    return None if some(rng, .025) else conf, rng.choice([None, None, b"", text, mutated(rng, text)]), text


def random_definition(rng, oid, name, above):
    """A definition whose syntax, rule and type above it needn't go together."""
    fields = [b"NAME '" + name + b"'"] + [b"SINGLE-VALUE"] * some(rng, .1) + [b"COLLECTIVE"] * some(rng, .03)
    if above and some(rng, .6):
        fields.append(b"SUP " + rng.choice(above))
    if len(fields) == 1 or some(rng, .5):
        fields.append(b"SYNTAX " + values.PREFIX + rng.choice(PAIRED)[0])
    if some(rng, .6):
        fields.append(b"EQUALITY " + rng.choice(RULES))
    if some(rng, .4):
        fields.append(b"SUBSTR " + rng.choice(SUBSTRINGS))
    rng.shuffle(fields)
    return b"attributetype ( " + oid + b" " + b" ".join(fields) + b" )"


def types_case(rng, config, _):
    """A few types whose definitions may not go together, and entries with values of them."""
    names = [b"t%d" % at for at in range(rng.randrange(1, 6))]
    lines = [definition(b"2.5.4.3", b"cn")]
    for at, name in enumerate(names):
        others = [b"cn", b"2.5.4.3", b"objectClass", b"no"][:rng.choice([2, 3, 4])]
        lines.append(random_definition(rng, b"1.%d" % at, name, names[:at] + others))
    lines.insert(rng.randrange(len(lines) + 1), b"suffix cn=ex")
    for _ in range(rng.choice([0, 1, 1, 2, 3])):
        line = b"index %b %b" % (rng.choice(names), rng.choice(INDEX_KINDS + [b"sub"]))
        lines.insert(rng.randrange(len(lines) + 1), line)
    records = [[b"dn: cn=ex", b"objectClass: p"]]
    for at in range(rng.randrange(1, 9)):
        part = b"%b=%b" % (rng.choice(names), rng.choice(NAMING))
        name = rng.choice([part, part + b"+cn=a", part + b"+%b=b" % rng.choice(names)]) if some(rng, .4) else b"cn=k%d" % at
        records.append([b"dn: " + name + b",cn=ex", b"objectClass: p"] + values_of(rng, rng.choice(names)))
    return config.joined(lines), None, Speller(rng, True).text(records)


def values_of(rng, name):
    """Lines with values of a type that may be equal."""
    text = rng.choice([value(rng)] + VALUES * 3)
    twins = [text, other_case(rng, text), text.replace(b" ", b"  "), text.replace(b" ", b""), text + b" ", rng.choice(VALUES)]
    return [value_line(rng, name, one) for one in [text, rng.choice(twins)][:rng.choice([0, 1, 1, 2, 2])]]


def data_case(rng, config, records):
    """A data.ldif that may not load."""
    data = rng.choice([records.good_text, records.server_text])(rng.randrange(3))
    data = mutated(rng, data) if some(rng, .5) else data.rstrip(b"\r\n") + b"\n\n" + records.text(rng.randrange(1, 5))
    return config.text, data, records.good_text(1) if some(rng, .9) else None


def dumped(rng, config, records):
    """No data.ldif, or one as slapadd stores it, or one by hand."""
    if some(rng, .5):
        return None
    text = records.good_text(rng.randrange(5))
    return text if some(rng, .2) else model.slapadd(config.text, None, text, True, False, "", "")[2]["data.ldif"]


def records_case(rng, config, records):
    data = dumped(rng, config, records)
    text = records.text(rng.choice([1, 2, 4, 8, 12]))
    return config.text, data, None if some(rng, .025) else mutated(rng, text) if some(rng, .1) else text


def server_case(rng, config, records):
    data, text = dumped(rng, config, records), records.server_text(rng.randrange(1, 8))
    return config.text, data, mutated(rng, text) if some(rng, .4) else text


def mutated_case(rng, config, records):
    return config.text, dumped(rng, config, records), mutated(rng, records.good_text(rng.randrange(1, 6)))


def soup_case(rng, config, records):
    pieces = TOKENS + [b"dn: dc=ex\n", b"cn: a\n", b"objectClass: x\n", config.name_text(config.suffix), b"\n"]
    soup = b"".join(rng.choice(pieces) for _ in range(rng.randrange(40)))
    return config.text, dumped(rng, config, records), rng.choice([soup, rng.choice(TINY)])


def index_before(rng, conf, data):
    """No index.txt, or that of a data.ldif, or of an empty one, or one with faults."""
    if some(rng, .4):
        return None
    text = model.slapindex(conf, rng.choice([data, None]), "")[2].get("index.txt", b"end\n")
    return mutated(rng, text) if some(rng, .4) else text


KINDS = [conf_case] * 22 + [types_case] * 15 + [data_case] * 10 + [records_case] * 34 + [server_case] * 10 + \
    [mutated_case] * 23 + [soup_case] * 5


def case(rng):
    config = Config(rng)
    conf, data, text = rng.choice(KINDS)(rng, config, Records(rng, config))
    return Case(conf, data, text, go_on=some(rng, .7), dry_run=some(rng, .1), by_file=some(rng, .3),
                to_file=some(rng, .1), index=index_before(rng, conf, data), index_first=some(rng, .2), wrap=wrap(rng, .3))


def change_case(rng):
    """A directory, and changes for it."""
    config, add_default = Config(rng), some(rng, .3)
    changes = Changes(rng, config, add_default)
    # long branches, of which whole ones move
    changes.is_deep = some(rng, .3)
    changes.fill(rng.choice([6, 10, 16] if changes.is_deep else [0, 1, 3, 6, 10]))
    data = changes.directory.dump() or rng.choice([None, b""])
    text = changes.text(rng.choice([1, 2, 4, 8, 12]))
    text = None if some(rng, .02) else mutated(rng, text) if some(rng, .1) else text
    conf = config.broken_text() if some(rng, .03) else config.text
    return Case(conf, data, text, True, add_default, go_on=some(rng, .8), dry_run=some(rng, .1), by_file=some(rng, .3),
                to_file=some(rng, .1), index=index_before(rng, conf, data), index_first=some(rng, .2), wrap=wrap(rng, .3))
