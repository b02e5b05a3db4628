"""What slapadd, ldapmodify, slapindex, slapcat and search do, byte for byte. `schema.py` reads dir.conf and names, `values.py` compares
values, `ldif.py` reads and writes records, `filters.py` reads and tests filters, `indexes.py` makes index texts of dumps.
"""
import functools
import re
import sys
from dataclasses import dataclass
from typing import Optional

import filters
import indexes
import ldif
import schema
import sentences

# RFC 4511, appendix A
CODES = {
    2: "protocolError", 4: "sizeLimitExceeded", 12: "unavailableCriticalExtension", 16: "noSuchAttribute", 17: "undefinedAttributeType",
    18: "inappropriateMatching", 19: "constraintViolation", 20: "attributeOrValueExists", 21: "invalidAttributeSyntax",
    32: "noSuchObject", 34: "invalidDNSyntax", 53: "unwillingToPerform", 64: "namingViolation",
    65: "objectClassViolation", 66: "notAllowedOnNonLeaf", 67: "notAllowedOnRDN", 68: "entryAlreadyExists",
}
OBJECT_CLASS = 0
DIGITS = re.compile(rb"[0-9]+")
MOST_ENTRIES = 2**32 - 1    # that a limit can name, and the most bytes of a line
# which entries are looked at, by their paths (RFC 4511, 4.5.1.2)
SCOPES = {
    b"base": lambda path, base: path == base,
    b"one": lambda path, base: path != () and path[:-1] == base,
    b"sub": lambda path, base: path[:len(base)] == base,
    b"children": lambda path, base: path[:len(base)] == base and path != base,
}


class Refused(Exception):
    """A record that has no place in the directory. `why` is said with `-v`, of a part of the record, if of one by itself."""
    def __init__(self, code, why="", part=None):
        super().__init__(f"{code} {CODES[code]}")
        self.code, self.why, self.part = code, why, part


class Ended(Exception):
    """A command that ends before its work. `why` is said with `-v`."""
    def __init__(self, status, message, why=""):
        super().__init__(message)
        self.status, self.messages, self.why = status, f"{message}\n".encode(), why

    def told(self, verbose):
        """The message, and with `-v` the sentence behind it."""
        return self.messages + self.why.encode() * verbose


def fixed(name):
    return f"{sentences.type_name(name)}: users can't change it (NO-USER-MODIFICATION)"


class Attributes:
    """The values of an entry, by type in the order of coming: {type: {normal form: value}}. No type is without values."""

    def __init__(self, conf, values=()):
        self.conf, self.values, self.said = conf, dict(values), {}

    def copy(self):
        return Attributes(self.conf, {number: dict(values) for number, values in self.values.items()})

    def has(self, number, value):
        return self.conf.normal(number, value) in self.values.get(number, ())

    def add(self, number, value):
        """A value that isn't there comes last."""
        self.values.setdefault(number, {})[self.conf.normal(number, value)] = value

    def remove(self, number, value):
        """Takes an equal value away, and the type with its last one."""
        del self.values[number][self.conf.normal(number, value)]
        if not self.values[number]:
            del self.values[number]

    def replace(self, number, values):
        """The new values stand where the old ones did. None take the type away."""
        if values:
            self.values[number] = {self.conf.normal(number, value): value for value in values}
        else:
            self.values.pop(number, None)

    def check(self):
        """What holds of each entry as a whole: it has a class, what its classes ask for, and one value of each type that takes
        no more."""
        if OBJECT_CLASS not in self.values:
            raise Refused(65, "the entry has no objectClass")
        if not self.conf.fits_classes(self.values[OBJECT_CLASS].values(), self.values.keys()):
            raise Refused(65, self.class_words())
        single = [number for number, values in self.values.items() if self.conf.types[number].is_single and len(values) > 1]
        if single:
            raise Refused(19, [f"{self.printed(number)} is SINGLE-VALUE, and the entry would have {sentences.grouped(len(self.values[number]))} values"
                               for number in single])

    def printed(self, number):
        return sentences.type_name(self.conf.types[number].printed())

    def named_types(self, numbers):
        """How types that a class requires are named: at most three by their names, and how many more there are."""
        more = f" and {sentences.grouped(len(numbers) - 3)} more" if len(numbers) > 3 else ""
        return ", ".join(self.printed(number) for number in numbers[:3]) + more

    def class_words(self):
        """Each way to say what is wrong with the classes of an entry, where several types or classes are."""
        conf, names = self.conf, list(self.values[OBJECT_CLASS].values())
        unknown = [self.said.get((OBJECT_CLASS, conf.normal(OBJECT_CLASS, name)), name) for name in names if conf.class_of(name) is None]
        if unknown:
            return [f"objectClass: {sentences.value(name)} is no object class of dir.conf" for name in unknown]
        lacked = []
        for named in map(conf.class_of, names):
            numbers = [number for number in conf.required_in_order(named) if number not in self.values]
            lacked += [f"{sentences.type_name(conf.printed_class(named))} requires {self.named_types(numbers)}"] * bool(numbers)
        if lacked:
            return lacked
        belongs = conf.with_superclasses([conf.class_of(name) for name in names])
        allowed = {number for one in belongs for number in conf.classes[one].must + conf.classes[one].may}
        return [f"none of its object classes allows {self.printed(number)}" for number in self.values
                if number != 0 and not conf.types[number].is_operational and number not in allowed]


class Directory:
    """Entries by their paths, each as its RDN and its attributes (RFC 4512, 2.2 to 2.4)."""

    def __init__(self, conf):
        self.conf, self.entries = conf, {}
        # the lines of records that were to add entries, by their paths
        self.refused = {}

    def located(self, dn, what="the name", part=None):
        """-> (the AVAs of a name, its RDNs as they compare, from the suffix down)"""
        name = schema.read_name(dn)
        if name is None:
            raise Refused(34, sentences.unreadable(what, dn), part)
        try:
            pairs = self.conf.pairs_of(name)
        except schema.BadName as bad:
            raise Refused(bad.args[0], self.ava_words(what, *bad.args), part) from None
        steps, suffix = self.conf.steps(pairs), self.conf.steps(self.conf.suffix)
        depth = len(steps) - len(suffix)
        if depth < 0 or steps[depth:] != suffix:
            above = sentences.name(self.conf.written_name(self.conf.suffix))
            shown = f" {sentences.name(dn)}" if dn else " is empty, and"
            raise Refused(32, f"{what}{shown} doesn't end with the suffix {above}", part)
        return pairs, tuple(tuple(step) for step in reversed(steps[:depth]))

    def ava_words(self, what, code, kind, value, flaw):
        name = sentences.type_name(kind)
        if flaw == "value":
            return f"{what}: {sentences.no_value(self.conf, self.conf.type_of(kind), value)}"
        return f"{what} has {name}" + {
            "type": ", which is no attribute type of dir.conf", "syntax": ", whose values are names themselves",
            "rule": ", which has no equality rule", "twice": " twice in one RDN"}[flaw]

    def no_entry(self, dn, path):
        """That no entry has this name, which leads to this path."""
        refused = f" (refused at line {self.refused[path]})" if path in self.refused else ""
        depth = next((n for n in range(len(path) - 1, -1, -1) if path[:n] in self.entries), None)
        nearest = ""
        if depth is not None and depth < len(path) - 1:
            nearest = f"; the nearest above it is {self.spelled(path[:depth])}"
        return f"no entry {sentences.name(dn)}{refused}{nearest}"

    def spelled(self, path):
        rdns = [self.entries[path[:depth]][0] for depth in range(len(path), 0, -1)] + self.conf.suffix
        return sentences.name(self.conf.written_name(rdns))

    def found(self, dn):
        """-> (the path of an entry that is there, its RDN, its attributes)"""
        path = self.located(dn)[1]
        if path not in self.entries:
            raise Refused(32, self.no_entry(dn, path))
        return path, *self.entries[path]

    def has_child(self, path):
        return any(other[:-1] == path for other in self.entries if other)

    def change(self, change):
        """Does what a change says, or changes nothing and raises the code of the first rule that it breaks. No control is
        known here (RFC 4511, 4.1.11)."""
        if change.critical is not None:
            number, oid = change.critical
            raise Refused(12, f"control {sentences.name(oid)} is critical, and no control is known", ("control", number))
        if change.kind == "add":
            self.add(change.dn, change.what, True)
        elif change.kind == "delete":
            self.delete(change.dn)
        elif change.kind == "modify":
            self.modify(change.dn, change.what)
        else:
            self.rename(change.dn, change.what)

    def add(self, dn, lines, by_user=False):
        """Adds an entry, or changes nothing and raises the code of the first rule that it breaks (RFC 4511, 4.7)."""
        pairs, path = self.located(dn)
        if path in self.entries:
            raise Refused(68, f"there already, as {self.spelled(path)}")
        if path and path[:-1] not in self.entries:
            raise Refused(32, self.no_entry(sentences.parent(dn), path[:-1]))
        attributes = self.attributes_of(lines, by_user)
        # the entry of the suffix is named as dir.conf writes it
        rdn = pairs[0] if path else self.conf.suffix[0]
        # what is wrong is told of what the record says
        attributes.said = {(number, self.conf.normal(number, value)): value
                           for number, value in pairs[0] if not attributes.has(number, value)}
        for pair in rdn:
            if not attributes.has(*pair):
                attributes.add(*pair)
        attributes.check()
        self.entries[path] = rdn, attributes

    def attributes_of(self, lines, by_user):
        """slapadd takes lines of types that users don't change, too: it loads what servers wrote."""
        attributes, places = Attributes(self.conf), {}
        for place, (name, value) in enumerate(lines):
            number, part = self.conf.type_of(name), ("attribute", place)
            if number is None:
                raise Refused(17, self.no_type(name), part)
            if by_user and self.conf.types[number].is_fixed:
                raise Refused(19, fixed(name), part)
            if not self.conf.is_valid(number, value):
                raise Refused(21, sentences.no_value(self.conf, number, value), part)
            key = number, self.conf.normal(number, value)
            if key in places:
                other = sentences.value(lines[places[key]][1])
                raise Refused(20, (f"{sentences.type_name(name)}: {sentences.value(value)} equals {other}", ("attribute", places[key])), part)
            attributes.add(number, value)
            places[key] = place
        return attributes

    @staticmethod
    def no_type(name):
        if name.lower() == b"dn":
            return "a dn: line within a record; an empty line is missing before it"
        if b";" in name:
            return f"{sentences.type_name(name)}: attribute options aren't kept"
        return f"{sentences.type_name(name)} is no attribute type of dir.conf"

    def delete(self, dn):
        """An entry with entries below it stays (RFC 4511, 4.8)."""
        path, _, _ = self.found(dn)
        if self.has_child(path):
            below = sum(other[:len(path)] == path for other in self.entries) - 1
            raise Refused(66, "an entry is below it: delete that first" if below == 1 else
                          f"{sentences.grouped(below)} entries are below it: delete those first")
        del self.entries[path]

    def modify(self, dn, blocks):
        """Each block sees what those before it made; the entry is looked at as a whole behind the last (RFC 4511, 4.6)."""
        path, rdn, attributes = self.found(dn)
        attributes = attributes.copy()
        for place, block in enumerate(blocks):
            self.modify_one(attributes, block, place, self.entries[path][1])
        gone = [pair for pair in rdn if not attributes.has(*pair)]
        if gone:
            raise Refused(67, [f"{attributes.printed(number)}: {sentences.value(value)} is in its RDN, so it has to stay"
                               for number, value in gone])
        attributes.check()
        self.entries[path] = rdn, attributes

    def modify_one(self, attributes, block, place=0, before=None):
        """`before` are the attributes of the entry as it is there."""
        before = attributes if before is None else before
        number, part, name = self.conf.type_of(block.name), ("block", place), sentences.type_name(block.name)
        if number is None:
            raise Refused(17, self.no_type(block.name), part)
        kind, is_there = self.conf.types[number], number in attributes.values
        if kind.is_fixed:
            raise Refused(19, fixed(block.name), part)
        if block.word == "add" and not block.values:
            raise Refused(2, f"add: {name} has no values to add", part)
        # without a rule no value can be looked for among those that are there (RFC 4512, 2.5.1)
        if kind.family is None and (block.word == "add" and is_there or block.word == "delete" and block.values):
            raise Refused(18, f"{block.word}: {name} has no equality rule, so its values can't be compared; replace them", part)
        if block.word == "delete" and not is_there:
            raise Refused(16, f"delete: the entry has no {name}", part)
        if block.word == "add":
            self.add_values(attributes, number, block, place, before)
        elif block.word == "delete" and block.values:
            self.delete_values(attributes, number, block, place)
        else:
            # a delete without values takes all of them
            self.add_values(Attributes(self.conf), number, block, place, before)
            attributes.replace(number, block.values)

    def add_values(self, attributes, number, block, place, before):
        name = sentences.type_name(block.name)
        for at, value in enumerate(block.values):
            if not self.conf.is_valid(number, value):
                raise Refused(21, sentences.no_value(self.conf, number, value), ("value", place, at))
            if attributes.has(number, value):
                # as the entry has it, or else the block
                there = before.values.get(number, {}).get(self.conf.normal(number, value))
                equal = "stands twice in the block" if there is None else f"is there already, as {sentences.value(there)}"
                raise Refused(20, f"{name}: {sentences.value(value)} {equal}", ("value", place, at))
            attributes.add(number, value)

    def delete_values(self, attributes, number, block, place):
        for at, value in enumerate(block.values):
            if not self.conf.is_valid(number, value):
                raise Refused(21, sentences.no_value(self.conf, number, value), ("value", place, at))
            if not attributes.has(number, value):
                raise Refused(16, f"{sentences.type_name(block.name)}: {sentences.value(value)} isn't there", ("value", place, at))
            attributes.remove(number, value)

    def rename(self, dn, rename):
        """Gives an entry another RDN, another parent, or both (RFC 4511, 4.9), with all that stands below it. Its new values come
        before the old ones go."""
        path, old, attributes = self.found(dn)
        if not path:
            raise Refused(53, "the entry of the suffix keeps its name and its place")
        new = self.read_rdn(rename.rdn)
        parent = path[:-1] if rename.superior is None else self.located(rename.superior, "newsuperior", ("newsuperior",))[1]
        if parent[:len(path)] == path:
            raise Refused(53, "it can't be moved below itself")
        if parent not in self.entries:
            raise Refused(32, self.no_entry(sentences.parent(dn) if rename.superior is None else rename.superior, parent))
        moved = parent + (tuple(self.conf.steps([new])[0]),)
        if moved != path and moved in self.entries:
            raise Refused(68, "another entry has the new name")
        attributes = attributes.copy()
        for pair in new:
            if not attributes.has(*pair):
                attributes.add(*pair)
        for pair in old if rename.deletes_old else ():
            # the last step of a path has the AVAs of its RDN as they compare
            if (pair[0], self.conf.normal(*pair)) not in moved[-1]:
                attributes.remove(*pair)
        attributes.check()
        along = [other for other in self.entries if other[:len(path)] == path]
        taken = {moved + other[len(path):]: self.entries.pop(other) for other in along}
        self.entries.update(taken)
        self.entries[moved] = new, attributes

    def read_rdn(self, text):
        """-> the AVAs of a name of one RDN"""
        name, part = schema.read_name(text), ("newrdn",)
        if name is None:
            raise Refused(34, sentences.unreadable("newrdn", text), part)
        if len(name) != 1:
            raise Refused(34, f"newrdn {sentences.value(text)} is not one RDN", part)
        try:
            return self.conf.pairs_of_rdn(name[0])
        except schema.BadName as bad:
            raise Refused(bad.args[0], self.ava_words("newrdn", *bad.args), part) from None

    def base(self, name):
        """The path of the entry with this name, by default of the suffix, where it is there."""
        path = () if name is None else self.located(name)[1]
        if path not in self.entries:
            raise Refused(32, "the directory has no entry" if name is None else self.no_entry(name, path))
        return path

    def matching(self, scope, base, steps, rows=None):
        """The paths in scope of those entries for which a prepared filter is True, in the order of paths; by the rows of an index text, of
        those alone of which it may be True by them."""
        may = range(len(self.entries)) if rows is None else indexes.candidates(steps, rows, len(self.entries))[0]
        return [path for rank, path in enumerate(sorted(self.entries))
                if rank in may and scope(path, base) and filters.truth(self.conf, steps, self.entries[path][1].values)]

    def dump(self):
        """Every entry as a content record, in the order of paths, which brings parents first."""
        return b"".join(self.printed(path) for path in sorted(self.entries))

    def printed(self, path, is_selected=lambda number: True, width=ldif.STANDARD_WIDTH):
        """An entry with the types that are selected, in the order in which it has them, in lines of a width."""
        rdns = [self.entries[path[:depth]][0] for depth in range(len(path), 0, -1)] + self.conf.suffix
        out = [ldif.written_line(b"dn", self.conf.written_name(rdns), width)]
        for number, values in self.entries[path][1].values.items():
            if is_selected(number):
                out += [ldif.written_line(self.conf.types[number].printed(), value, width) for value in values.values()]
        return b"".join(out) + b"\n"


def run(directory, text, go_on, changes=False, add_default=False, told=None):
    """Adds the records of the text, or carries them out where they are changes. -> the refused ones, as report lines. `told` gets a Told of
    each, and how many records were accepted."""
    report, accepted = [], 0
    for numbers, first, lines in ldif.numbered_records(text):
        change = None
        try:
            if changes:
                change = ldif.read_change(first, lines, add_default)
                if change is not None:
                    directory.change(change)
            else:
                content = ldif.read_content(first, lines)
                change = content and ldif.Change(content[0], None, "add", content[1])
                if content is not None:
                    directory.add(*content)
            accepted += change is not None
        except (ldif.Fault, Refused) as refusal:
            report.append(f"line {numbers[0]}: {refusal}\n")
            if told is not None:
                told.refusals.append((str(refusal), sentences_of(refusal, change, numbers, first, lines, changes)))
                if refusal.code != 68:
                    keep_refused(directory, change, numbers[0])
            if not go_on:
                break
    if told is not None:
        told.accepted = accepted
    return "".join(report)


class Told:
    """What is told with `-v` of a run: its refusals, each with what may stand behind it, and how many records were accepted."""

    def __init__(self):
        self.refusals, self.accepted = [], 0

    def messages(self, report, done, is_stored):
        """Each report line with the first sentence that may stand behind it, and the summary."""
        lines = [line + ways[0] for line, (_, ways) in zip(report.splitlines(keepends=True), self.refusals)]
        return "".join(lines) + sentences.summary(self.accepted, [refusal for refusal, _ in self.refusals], done, is_stored)


def sentences_of(refusal, change, numbers, first, lines, changes):
    """Each sentence that may be told: one, but where several types or classes are at fault."""
    if isinstance(refusal, ldif.Fault):
        return [sentences.of_fault(refusal, numbers, lines)]
    whys = refusal.why if isinstance(refusal.why, list) else [refusal.why]
    return [sentences.of_refusal(Refused(refusal.code, why, refusal.part), change.dn, numbers, first, lines, changes) for why in whys]


def keep_refused(directory, change, line):
    """A refused add of an entry that isn't there is remembered, by the path of its name."""
    if change is not None and change.kind == "add":
        try:
            directory.refused.setdefault(directory.located(change.dn)[1], line)
        except Refused:
            pass


def load(conf_text, data, folder):
    """The directory of a folder, where None stands for a file that isn't there."""
    if conf_text is None:
        raise Ended(3, f"{folder}/dir.conf: cannot read", "  no such file or folder\n")
    try:
        directory = Directory(schema.read_conf(conf_text))
    except schema.Fault as fault:
        raise Ended(2, fault, fault.why) from None
    told = Told()
    report = run(directory, data or b"", False, told=told)
    if report:
        raise Ended(3, "data.ldif " + report.rstrip("\n"), told.refusals[0][1][0])
    return directory


def run_and_store(conf_text, data, text, dry_run, folder, source, go_on, changes=False, add_default=False, verbose=False):
    """A text of None can't be read. -> (status, messages, {name: text} of the files as stored)"""
    try:
        directory = load(conf_text, data, folder)
        if text is None:
            raise Ended(3, f"{source}: cannot read", "  no such file or folder\n")
    except Ended as end:
        return end.status, end.told(verbose), {}
    told = Told()
    report = run(directory, text, go_on, changes, add_default, told)
    dump = directory.dump()
    stored = {"data.ldif": dump, "index.txt": indexes.index_text(directory.conf, dump)}
    messages = told.messages(report, "carried out" if changes else "added", not dry_run) if verbose else report
    return (1 if report else 0), messages.encode(), {} if dry_run else stored


def slapadd(conf_text, data, text, go_on, dry_run, folder, source, verbose=False):
    return run_and_store(conf_text, data, text, dry_run, folder, source, go_on, verbose=verbose)


def ldapmodify(conf_text, data, text, add_default, go_on, dry_run, folder, source, verbose=False):
    return run_and_store(conf_text, data, text, dry_run, folder, source, go_on, True, add_default, verbose)


def slapindex(conf_text, data, folder, verbose=False):
    """-> (status, messages, {name: text} of the files as stored)"""
    try:
        directory = load(conf_text, data, folder)
        return 0, b"", {"index.txt": indexes.index_text(directory.conf, directory.dump())}
    except Ended as end:
        return end.status, end.told(verbose), {}


def read_filter(text):
    try:
        return filters.read_filter(text)
    except filters.Fault as fault:
        raise Ended(2, f"filter: {fault}", sentences.of_filter(text, str(fault))) from None


def base_of(directory, name, command):
    try:
        return directory.base(name)
    except Refused as refused:
        raise Ended(1, f"{command}: {refused}", sentences.line(refused.why)) from None


def slapcat(conf_text, data, folder, filter_text=None, below=None, verbose=False, wrap=None):
    """All entries, or those for which a filter is True, or those at and below a name. -> (status, output, messages, or None where they are those
    of the library that reads words)"""
    width = width_of(wrap)
    if width is None:
        return bad_width(wrap)
    try:
        steps = read_filter(b"(&)" if filter_text is None else filter_text)
        directory = load(conf_text, data, folder)
        base = () if below is None else base_of(directory, below, "slapcat")
    except Ended as end:
        return end.status, b"", end.told(verbose)
    paths = directory.matching(SCOPES[b"sub"], base, filters.prepared(directory.conf, steps))
    return 0, b"".join(directory.printed(path, width=width) for path in paths), b""


def limit_of(text):
    """-> the limit that a word says, 0 for none, or None where it says no limit"""
    digits = text.lstrip(b"0") or text[-1:]
    # Python refuses to read thousands of digits
    return int(digits) if DIGITS.fullmatch(text) and len(digits) <= len(str(MOST_ENTRIES)) and int(digits) <= MOST_ENTRIES else None


# slapcat(8), ldapsearch(1): -o ldif-wrap=N|no

UNFOLDED = sys.maxsize      # no line is so long


def width_of(word):
    """How many bytes a printed line has at most, by a word behind -o. None where it doesn't say that."""
    if word is None or word == b"ldif-wrap=no":
        return ldif.STANDARD_WIDTH if word is None else UNFOLDED
    name, _, digits = word.partition(b"=")
    number = limit_of(digits) if name == b"ldif-wrap" else None
    return {0: ldif.STANDARD_WIDTH, 1: None}.get(number, number)


def bad_width(word):
    if word.startswith(b"-"):
        return 2, b"", None
    return bad_value(word, b"-o <ldif-wrap=N|no>", b"ldif-wrap=no, or ldif-wrap= and 0 or a number from 2 to %d" % MOST_ENTRIES)


def selection(conf, words):
    """Which types a list of attributes selects (RFC 4511, 4.5.1.8)."""
    if words == [b"1.1"]:
        return lambda number: False
    words = words or [b"*"]
    named = [conf.type_of(word) for word in words if conf.type_of(word) is not None]
    return lambda number: (b"+" if conf.types[number].is_operational else b"*") in words or \
        any(conf.is_subtype(number, above) for above in named)


def bad_option(scope, scope_word, limit_word):
    """The answer to a scope or a limit that is none. A word that begins with a hyphen looks like another option to the library that reads
    words, and the message is the library's."""
    if limit_word is not None and limit_word.startswith(b"-"):
        return 2, b"", None
    return bad_value(scope_word, b"-s <SCOPE>", b"one of base, one, sub and children") if scope is None else bad_number(limit_word, b"-z <N>")


def bad_number(word, option):
    return bad_value(word, option, b"a number from 0 to %d" % MOST_ENTRIES)


# values that OpenLDAP's ldapsearch takes for an option, and what is meant
MEANT = {b"-s onelevel": b"-s one", b"-s subtree": b"-s sub", b"-s subordinate": b"-s children", b"-z none": b"-z 0", b"-z max": b"-z 0"}


def bad_value(word, option, wanted):
    written = b"%s %s" % (option.split()[0], word)
    meant = b"  here %s is %s\n" % (written, MEANT[written]) if written in MEANT else b""
    return 2, b"", b"error: invalid value '%s' for '%s': it has to be %s\n%s" % (word, option, wanted, meant)


def index_rows(directory, index, verbose):
    """-> what index.txt says of a directory, None where it isn't used; and the lines that are said of it"""
    try:
        return (None if index is None else indexes.read(directory.conf, directory.dump(), index)), b""
    except indexes.Fault as fault:
        said = sentences.index_line(fault.number, fault.line, str(fault)) if verbose else ""
        return None, f"index.txt: {fault}\n{said}".encode()


def is_filter(word):
    return word.startswith(b"(") or b"=" in word


def search(conf_text, data, folder, words, name=None, scope_word=None, limit_word=None, index=None, verbose=False, counts=False, lines=None, wrap=None):
    """Of the words the first one may be a filter, the others are attributes. With `lines`, a Lines, there is a search for each of them. ->
    (status, output, messages, or None where they are those of the library that reads words)"""
    scope, limit = SCOPES.get(b"sub" if scope_word is None else scope_word), limit_of(b"0" if limit_word is None else limit_word)
    if scope is None or limit is None:
        return bad_option(scope, scope_word, limit_word)
    width = width_of(wrap)
    if width is None:
        return bad_width(wrap)
    pattern, names = (words[0], words[1:]) if words and is_filter(words[0]) else (None, words)
    if lines is not None and pattern is not None and has_stray_percent(pattern):
        return bad_pattern(pattern)
    text = b"(objectClass=*)" if pattern is None else pattern
    try:
        if lines is None:
            read_filter(text)
        directory = load(conf_text, data, folder)
        rows, warning = index_rows(directory, index, verbose)
    except Ended as end:
        return end.status, b"", end.told(verbose)
    try:
        finder = Finder(directory, rows, scope, base_of(directory, name, "search"), limit, selection(directory.conf, names), width)
        answer = search_once(finder, text, counts, verbose) if lines is None else search_lines(finder, pattern, lines, counts, verbose)
    except Ended as end:
        answer = end.status, b"", end.told(verbose)
    status, output, messages = answer
    return status, output, warning + messages


class Finder:
    """All of a search but its filter."""

    def __init__(self, directory, rows, scope, base, limit, is_selected, width):
        self.directory, self.rows, self.scope, self.base, self.limit = directory, rows, scope, base, limit
        self.is_selected, self.width = is_selected, width
        # many lines may be alike
        self.found = functools.lru_cache(1024)(self.found_anew)

    def found_anew(self, text):
        """What a filter's text finds. -> (how many entries are printed, their text, whether there are more)"""
        steps = filters.prepared(self.directory.conf, filters.read_filter(text))
        paths = self.directory.matching(self.scope, self.base, steps, self.rows)
        shown = paths[:self.limit] if self.limit else paths
        return len(shown), b"".join(self.directory.printed(path, self.is_selected, self.width) for path in shown), len(shown) < len(paths)

    def past_limit(self, where):
        return Ended(1, f"{where}: {Refused(4)}", f"  more than {self.limit} match, and no more are printed\n")


def search_once(finder, text, counts, verbose):
    number, entries, has_more = finder.found(text)
    output = b"%d\n" % number if counts else entries
    if not has_more:
        return 0, output, b""
    end = finder.past_limit("search")
    return end.status, output, end.told(verbose)


# a search for each line of a text

@dataclass
class Lines:
    """A text of lines, None where it can't be read; what it is called in a report; and whether a line that is refused ends the command."""
    text: Optional[bytes]
    source: str
    go_on: bool = False

    def split(self):
        """An LF ends a line, with a CR right before it. The last line may have no end: a CR there is one of its own bytes."""
        *ended, last = self.text.split(b"\n")
        return [line.removesuffix(b"\r") for line in ended] + [last] * (last != b"")


def has_stray_percent(pattern):
    """Whether there is a percent sign that isn't that of the first %s."""
    first = pattern.find(b"%s")
    return any(byte == ord("%") and at != first for at, byte in enumerate(pattern))


def bad_pattern(word):
    return 2, b"", (b"error: invalid value '" + word + b"' for '[WORD]...': with -f it may have one %s, which stands for a line; "
                    b"write another % as \\25\n")


def comment(text):
    """A line of LDIF that is a comment (RFC 2849): what would end it is written as in a filter (RFC 4515)."""
    return b"# filter: " + text.replace(b"\n", b"\\0A").replace(b"\r", b"\\0D") + b"\n"


def search_lines(finder, pattern, lines, counts, verbose):
    """The first %s of the pattern stands for each line in turn; without a pattern the line is the filter."""
    if lines.text is None:
        raise Ended(3, f"{lines.source}: cannot read", "  no such file or folder\n")
    status, output, messages = 0, [], []
    for number, line in enumerate(lines.split(), 1):
        text, end = line if pattern is None else pattern.replace(b"%s", line, 1), None
        try:
            found, entries, has_more = finder.found(text)
            output.append(b"%d\t%b\n" % (found, line) if counts else comment(text) + entries)
            end = finder.past_limit(f"filter line {number}") if has_more else None
        except filters.Fault as fault:
            end = Ended(2, f"filter line {number}: {fault}", sentences.of_filter(text, str(fault)))
        if end is not None:
            status = max(status, end.status)
            messages.append(end.told(verbose))
            if not lines.go_on:
                break
    return status, b"".join(output), b"".join(messages)
