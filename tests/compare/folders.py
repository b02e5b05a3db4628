"""Random folders for check, the same for the same seed: a dir.conf, mostly without a fault, a data.ldif, of which some records may be refused, an
index.txt that is right, missing, stale, broken, lying or of another dir.conf, options, and for some another file over data.ldif.

Many values name entries, of which some aren't there, and many are like those of other entries.
"""
import re
from dataclasses import dataclass
from typing import ClassVar, Optional

import checks
import indexes
import model
import schema
from cases import Records, alike, mutated
from configs import NAME_RULES, PLAIN_CONF, Config, some
from searches import NO_NAMES, SearchConfig, Searches, lying, sayable

# what is no list of types; $T is a type
BAD_LISTS = [b"", b",", b" ", b"$T,", b",$T", b"$T,,$T", b"$T, $T", b"$T ,$T", b"$T ", b" $T", b"$T;$T", b"$T $T", b"*", b"+", b"1.1", b"top",
             b"$T\t", b"$T\n", b"\xc3\x89", b"\xff", b"$T,\xff", b"2.5.4.", b"2.5.4.0,no"]
# what makes another dir.conf, mostly of the same slots
OTHER_RULES = [
    (b"caseIgnoreMatch", b"caseExactMatch"), (b"caseExactMatch", b"caseIgnoreMatch"), (b"Match", b"NoMatch"),
    (b"distinguishedNameMatch", b"caseExactMatch"), (b"numericStringMatch", b"telephoneNumberMatch"),
    (b"SUP ", b"SYNTAX 1.3.6.1.4.1.1466.115.121.1.15 DESC 'c' X-SUP '"), (b"index ", b"index objectClass eq\n#"), (b",pres", b""), (b",eq", b""),
    (b"eq,", b"")]
RULE_OR_SYNTAX = re.compile(rb"[A-Za-z0-9]+Match\b|1\.3\.6\.1\.4\.1\.1466\.115\.121\.1\.[0-9]+")
# definitions that are skipped, and some near them
BUILT_IN_LINES = [
    b"attributetype ( 2.5.4.0 NAME 'objectClass' EQUALITY objectIdentifierMatch SYNTAX 1.3.6.1.4.1.1466.115.121.1.38 )",
    b"attributetype ( 2.5.4.0 NAME 'cn' EQUALITY noMatch SYNTAX 1.2 COLLECTIVE )", b"attributetype ( 2.5.4.0 SUP nothing )",
    b"objectclass ( 2.5.6.0 NAME 'top' ABSTRACT MUST objectClass )", b"ObjectClass ( 1.3.6.1.4.1.1466.101.120.111 MUST nothing )",
    b"objectclass ( 2.5.4.0 )", b"attributetype ( 2.5.6.0 SYNTAX 1.2 )", b"attributetype ( 2.5.4.0 )", b"# attributetype ( 2.5.4.0 SYNTAX 1.2 )"]


@dataclass(frozen=True)
class Check:
    """The files of a folder, None for one that isn't there, and the options of check."""
    OPTIONS: ClassVar = (("verbose", False), ("unique", None), ("references", None), ("over", None))
    TEXTS: ClassVar = (("over", b""), ("index", None), ("data", None), ("conf", PLAIN_CONF), ("unique", None), ("references", None))
    conf: Optional[bytes]
    data: Optional[bytes]
    index: Optional[bytes]
    unique: Optional[bytes] = None
    references: Optional[bytes] = None
    verbose: bool = False
    over: Optional[bytes] = None    # the text of the file over data.ldif; None: it isn't named
    over_from: str = "file"         # or "input", or "nowhere"

    def command(self, db, file):
        """The words of the command line; the file over data.ldif has this name."""
        options = [("--unique", self.unique), ("--references", self.references), ("-l", None if self.over is None else file)]
        return ["check", "--db", db, *(word for option in options if option[1] is not None for word in option)] + ["-v"] * self.verbose

    def texts(self):
        return [text for text in (self.unique, self.references) if text is not None]


class CheckConfig(SearchConfig):
    """With more types whose values are names, many of them of entries, or near those."""
    there = ()      # names of entries

    def define(self, name, plain, pair=None):
        if pair is None and not plain and some(self.rng, .2):
            pair = b"12", self.rng.choice(NAME_RULES)
        super().define(name, plain, pair)

    def any_name(self):
        rng = self.rng
        if not self.there or some(rng, .15):
            return super().any_name()
        name = rng.choice(self.there)
        name = rng.choice([name, name, name[1:], [self.rdn(rng.choice(self.naming))] + name, self.near(name), self.suffix])
        return self.respelled_name(name) if some(rng, .3) else name


class Folders(Searches):
    """Makes entries that name each other and have values of each other."""

    def fill(self, number):
        for _ in range(number):
            super().fill(1)
            self.config.there = self.names
        for path in list(self.directory.entries):
            if some(self.rng, .4):
                self.take_values(path)

    def take_values(self, path):
        """More values for an entry, of others and of its own, where it can have them."""
        rng, entries = self.rng, self.directory.entries
        for _ in range(rng.choice([1, 1, 2, 4])):
            others = entries[rng.choice(list(entries))][1].values
            number = rng.choice(list(others))
            texts = list(others[number].values()) if some(rng, .7) else [self.new_value(number)]
            rdn, changed = entries[path][0], entries[path][1].copy()
            for text in texts:
                text = alike(rng, text)
                if self.directory.conf.is_valid(number, text) and not changed.has(number, text):
                    changed.add(number, text)
            try:
                changed.check()
            except model.Refused:
                continue
            entries[path] = rdn, changed

    def data(self):
        """A dump, or one with other records or with faults, or texts that a server has or that are none."""
        rng, dump, kind = self.rng, self.directory.dump(), self.rng.randrange(20)
        others = Records(rng, self.config)
        if kind < 10:
            return dump or rng.choice([None, b""])
        if kind < 15:
            others.names = list(self.names)
            text = others.text(rng.choice([1, 1, 2, 4, 8]))
            return rng.choice([dump + b"\n" + text, dump + text, text + b"\n\n" + dump])
        if kind < 17:
            return mutated(rng, dump or b"x")
        if kind == 17:
            text = others.good_text(rng.choice([1, 4, 8]))
            return text if some(rng, .5) else mutated(rng, text)
        if kind == 18:
            return others.server_text(rng.choice([1, 4, 8]))
        return rng.choice([None, b"", others.text(rng.choice([1, 4, 8, 12]))])

    def types_list(self, pool):
        """What may stand behind an option."""
        rng, config = self.rng, self.config
        if some(rng, .08):
            return sayable(config.filled(rng.choice(BAD_LISTS)))
        names = [config.type_text(rng.choice(pool)) for _ in range(rng.choice([1, 1, 2, 3, 5]))]
        if some(rng, .05):
            names[rng.randrange(len(names))] = config.filled(rng.choice(NO_NAMES))
        if some(rng, .15):
            names.append(rng.choice(names))
        return sayable(b",".join(names))


def many_faults(config):
    """A dir.conf with faults on several lines."""
    for _ in range(config.rng.choice([1, 2, 4, 8])):
        config.lines = config.broken_text().replace(b"\r\n", b"\n").split(b"\n")
    return config.joined(config.lines)


def chained_faults(config, text):
    """A dir.conf of which some definitions are at fault, so that those are that name them, by a name or the OID; with more below these, some that name
    what nothing defines, or that define once more what is lost."""
    rng = config.rng
    lines = text.replace(b"\r\n", b"\n").split(b"\n")
    starts = [at for at, line in enumerate(lines) if b"(" in line and line[:1].lower() in (b"a", b"o")]
    for at in rng.sample(starts, min(len(starts), rng.choice([1, 1, 2, 3, 6]))):
        lines[at] = spoilt(rng, lines[at])
    for _ in range(rng.choice([0, 1, 2, 4, 8])):
        lines.insert(rng.choice([len(lines), rng.randrange(len(lines) + 1)]), needing_line(config))
    return b"\n".join(lines)


def spoilt(rng, line):
    """The first line of a definition, with a fault."""
    front, mark, behind = line.partition(b"(")
    oid, blank, fields = behind.lstrip(b" \t").partition(b" ")
    return rng.choice([
        front + b"( Macro:7 " + fields, front + b"( Macro:%b " % oid + fields, front + b"(" + fields,
        front + b"( 2.5.4.0.0 SUP nowhere " + fields,
        front + mark + b" " + oid + rng.choice([b" COLLECTIVE ", b" SUP nowhere ", b" NOSUCH ", b" NAME 'lost' ", b" SUP ( a $ top ) "]) + fields,
        line.replace(b"(", b"( ( ", 1), line.replace(b"NAME", b"NAME (", 1), line.replace(b"'", b"", 1), line.replace(b"SYNTAX", b"SYNTAX x", 1)])


def needing_line(config):
    """A line that needs some types or a class: a definition of its own, or an index line."""
    rng = config.rng
    oid, kind = b"7.%d" % rng.randrange(12), rng.randrange(8)
    if kind == 0:
        return b"index %b eq" % b",".join(config.type_text(rng.choice(config.types)) for _ in range(rng.choice([1, 2, 3])))
    name = rng.choice([b"", b"NAME 'needing%d' " % rng.randrange(12), b"NAME 'class0' ", b"NAME ( '%b' 'Lost' ) " % rng.choice(config.types)])
    needed = rng.choice([config.type_text(rng.choice(config.types))] * 2 + [b"7.%d" % rng.randrange(12), b"NEEDING%d" % rng.randrange(12), b"lost",
                        b"nowhere", rng.choice([b"class0", b"kind-1", b"8.0", b"8.1"])])
    if kind < 4:
        return b"attributetype ( %b %bSUP %b )" % (oid, name, needed)
    fields = rng.choice([b"SUP %b", b"MUST %b", b"MAY ( cn $ %b )", b"SUP ( top $ class0 ) MAY %b", b"MUST nowhere MAY %b"]) % needed
    return b"objectclass ( %b %b%b )" % (oid, name, fields)


def broken_conf(config, text):
    rng = config.rng
    return rng.choice([lambda: config.broken_text(), lambda: many_faults(config), lambda: mutated(rng, text), lambda: chained_faults(config, text)])()


def misspelt(rng, conf):
    """A dir.conf with rules and syntaxes that aren't known, many of them near known ones, and with definitions of what is built in."""
    for _ in range(rng.choice([1, 1, 2, 4])):
        words = list(RULE_OR_SYNTAX.finditer(conf))
        if words and some(rng, .8):
            word = rng.choice(words)
            conf = conf[:word.start()] + other_spelling(rng, word[0]) + conf[word.end():]
        else:
            line = rng.choice(BUILT_IN_LINES)
            conf = rng.choice([line + b"\n" + conf, conf + b"\n" + line + b"\n"])
    return conf


def other_spelling(rng, word):
    """With a letter more, less or another one, once or twice; in another case; of its OID; or another word."""
    if some(rng, .2):
        return rng.choice([word.upper(), b"2.5.13.2", b"1.3.6.1.4.1.1466.115.121.1.24", b"noSuchMatch", b"caseIgnoreMatch", b"wordMatch\x01", b"\xc3\xa9"])
    for _ in range(rng.choice([1, 1, 1, 2])):
        at = rng.randrange(len(word))
        word = word[:at] + rng.choice([b"", b"", b"5", b"x", b"M", word[at:at + 1] * 2]) + word[at + rng.choice([0, 1]):]
    return word or b"x"


def loaded(conf, data):
    """The directory of those records that aren't refused, or None where there is no configuration."""
    try:
        directory = model.load(conf, None, "")
    except model.Ended:
        return None
    model.run(directory, data or b"", True)
    return directory


def other_rules(rng, conf):
    """A dir.conf where a type has another rule, or is no subtype, or of other index lines."""
    lines = conf.split(b"\n")
    for _ in range(rng.choice([1, 3, 6])):
        at = rng.randrange(len(lines))
        lines[at] = lines[at].replace(*rng.choice(OTHER_RULES))
    return b"\n".join(lines)


def index_for(rng, conf, data):
    """No index.txt, or that of the accepted entries, or of others, or with faults, or one that lies, or one of another dir.conf."""
    directory, kind = loaded(conf, data), rng.choice(["none", "other", "broken"] + ["right"] * 3 + ["lying", "rules"] * 2)
    if directory is None or kind == "none":
        return None if some(rng, .7) else rng.choice([b"", b"old\n", b"end\n"])
    dump = directory.dump()
    stored = indexes.index_text(directory.conf, dump)
    if kind in ("broken", "lying"):
        return {"broken": mutated, "lying": lying}[kind](rng, stored)
    if kind == "other":
        # of none, or of all but the last one
        *others, _ = [b"", *(directory.printed(path) for path in sorted(directory.entries))]
        return indexes.index_text(directory.conf, b"".join(others) if some(rng, .7) else b"")
    if kind == "rules":
        other = loaded(other_rules(rng, conf), None)
        return stored if other is None else index_under(other.conf, dump, stored)
    return stored


def index_under(conf, dump, stored):
    """The index text of a dump under another configuration, where that takes its values."""
    try:
        return indexes.index_text(conf, dump)
    except (TypeError, ValueError):
        return stored


def text_over(folders, data):
    """Records that are to be added over those of a data.ldif: new ones, some that are there, some with faults. -> (the text, where it comes from)"""
    rng, others = folders.rng, Records(folders.rng, folders.config)
    others.names = list(folders.names)
    kind = rng.randrange(10)
    if kind < 6:
        text = others.text(rng.choice([1, 2, 4, 8]))
    elif kind < 8:
        text = others.good_text(rng.choice([1, 4, 8]))
    elif kind == 8:
        text = mutated(rng, others.good_text(rng.choice([1, 4])))
    else:
        text = rng.choice([b"", data or b"", others.server_text(rng.choice([1, 4]))])
    return text, rng.choice(["file"] * 6 + ["input"] * 3 + ["nowhere"] * some(rng, .1))


def check_case(rng):
    config = CheckConfig(rng)
    folders = Folders(rng, config, False)
    folders.fill(rng.choice([0] + [1, 3, 6, 10, 14] * 4))
    conf, data = config.text, folders.data()
    if some(rng, .25):
        conf = misspelt(rng, conf)
    if some(rng, .3):
        conf = None if some(rng, .03) else broken_conf(config, conf)
    everything = config.types + [b"objectClass"]
    return Check(conf, data, index_for(rng, conf, data),
                 folders.types_list(everything) if some(rng, .7) else None,
                 folders.types_list(config.named if config.named and some(rng, .7) else everything) if some(rng, .45) else None,
                 some(rng, .3), *(text_over(folders, data) if some(rng, .5) else ()))
