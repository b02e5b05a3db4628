"""Random pairs of directories under one configuration, the same for the same seed, and what else ldifdiff takes.

The second directory comes of the first one by changes to a part of its entries: names, types and values in other words and orders, values,
types and entries more or less, and others of what users can't change. Either one may be empty.
"""
from dataclasses import dataclass
from typing import ClassVar, Optional

import model
import schema
from cases import alike, mutated
from configs import PLAIN_CONF, some
from searches import SearchConfig, Searches, sayable


@dataclass(frozen=True)
class Pair:
    """The files of a folder and a text of content records, None for one that isn't there, and the options of ldifdiff."""
    OPTIONS: ClassVar = (("by_file", False), ("verbose", False), ("unordered", False), ("filter", None), ("base", None))
    TEXTS: ClassVar = (("data", None), ("text", b""), ("conf", PLAIN_CONF))
    conf: Optional[bytes]
    data: Optional[bytes]
    text: Optional[bytes]
    unordered: bool = False
    filter: Optional[bytes] = None
    base: Optional[bytes] = None
    verbose: bool = False
    by_file: bool = True


class PairConfig(SearchConfig):
    """With more types that users can't change, of which not all are operational."""

    def define(self, name, plain, pair=None):
        super().define(name, plain, pair)
        kind = list(self.kinds.values())[-1]
        if b"NO-USER-MODIFICATION" not in kind.text and some(self.rng, .12):
            self.add_field(kind, b"NO-USER-MODIFICATION")
            if b"USAGE" not in kind.text.upper() and some(self.rng, .6):
                self.add_field(kind, b"USAGE directoryOperation")


class Pairs(Searches):
    """Makes the second directory of the first one, which is `directory` until then."""

    def second(self, before):
        """-> a directory that differs in some entries"""
        rng, directory = self.rng, model.Directory(before.conf)
        directory.entries = {path: (rdn, attributes.copy()) for path, (rdn, attributes) in before.entries.items()}
        self.directory = directory
        much = rng.choice([0, .3, .3, .7, .7, 1, 1])
        for path in sorted(directory.entries, reverse=True):
            if some(rng, much * .3):
                self.remove(path)
        for path in sorted(directory.entries):
            if some(rng, much):
                self.change_entry(path)
        self.names = [self.name_of(path) for path in directory.entries]
        if self.names or some(rng, .7):
            self.fill(rng.choice([0, 0, 1, 3, 5]))
        if some(rng, .2):
            self.text(rng.choice([1, 2, 4]))
        return directory

    def remove(self, path):
        """An entry goes, with all below it or where none is."""
        entries = self.directory.entries
        below = [other for other in entries if other[:len(path)] == path]
        if len(below) == 1 or some(self.rng, .4) and path:
            for other in below:
                del entries[other]

    def change_entry(self, path):
        """As much of a few changes as leaves an entry that can be there."""
        rng, entries = self.rng, self.directory.entries
        for _ in range(rng.choice([1, 1, 2, 4])):
            rdn, attributes = entries[path]
            rdn, attributes = rng.choice([self.respelled, self.with_other_classes] + [self.with_changed_values] * 4)(path, rdn, attributes.copy())
            for pair in rdn:
                if not attributes.has(*pair):
                    attributes.add(*pair)
            self.keep(path, rdn, attributes)

    def grow(self, path):
        """More values to some types, one at a time, where the entry can have them."""
        rng, entries = self.rng, self.directory.entries
        for number in rng.sample(list(entries[path][1].values), min(len(entries[path][1].values), rng.choice([0, 1, 2, 3]))):
            for text in [self.new_value(number) for _ in range(rng.choice([1, 2, 4, 8]))]:
                rdn, attributes = entries[path][0], entries[path][1].copy()
                if self.directory.conf.is_valid(number, text) and not attributes.has(number, text):
                    attributes.add(number, text)
                    self.keep(path, rdn, attributes)

    def keep(self, path, rdn, attributes):
        """The entry as it is now, where it can be so."""
        try:
            attributes.check()
        except model.Refused:
            return
        self.directory.entries[path] = rdn, attributes

    def respelled(self, path, rdn, attributes):
        """Other words and another order of its RDN, which stays the same."""
        if path == ():
            return rdn, attributes
        text = self.config.name_text(self.config.respelled_name([self.rdn_of(rdn)]))
        try:
            [other] = self.directory.conf.pairs_of(schema.read_name(text) or [])
        except (schema.BadName, ValueError):
            return rdn, attributes
        same = self.directory.conf.steps([other]) == self.directory.conf.steps([rdn])
        return (other if same else rdn), attributes

    def with_other_classes(self, _, rdn, attributes):
        """Of other classes, or fewer, and without what users can't change and what these classes don't allow; or as it is, where that is none."""
        rng, conf, names = self.rng, attributes.conf, list(attributes.values[model.OBJECT_CLASS].values())
        few = [[self.config.class_text(one)] for one in self.config.classes]
        for others in rng.sample([names[1:], names[:-1], self.several(model.OBJECT_CLASS), *few], 3 + len(few)):
            changed = self.of_classes(conf, others, attributes)
            types = [*changed.values, *(number for number, _ in rdn)]
            if changed.values.get(model.OBJECT_CLASS) and conf.fits_classes(others, dict.fromkeys(types).keys()):
                return rdn, changed
        return rdn, attributes

    @staticmethod
    def of_classes(conf, names, attributes):
        """What an entry of these classes may have of attributes that users can change."""
        classes = {conf.class_of(name) for name in names} - {None}
        allowed = {number for one in conf.with_superclasses(classes) for number in conf.classes[one].must + conf.classes[one].may}
        changed = model.Attributes(conf)
        for name in names:
            if conf.is_valid(model.OBJECT_CLASS, name) and not changed.has(model.OBJECT_CLASS, name):
                changed.add(model.OBJECT_CLASS, name)
        for number, texts in attributes.values.items():
            if number in allowed and number != model.OBJECT_CLASS and not conf.types[number].is_fixed:
                changed.replace(number, list(texts.values()))
        return changed

    def with_changed_values(self, _, rdn, attributes):
        rng = self.rng
        lists = {number: list(values.values()) for number, values in attributes.values.items()}
        for _ in range(rng.choice([1, 1, 2, 3])):
            kind = rng.randrange(12)
            if kind < 2 and lists:
                lists = self.in_other_order(lists)
            elif kind < 3:
                number = rng.randrange(len(self.directory.conf.types))
                lists[number] = self.several(number)
            elif kind < 4 and lists:
                lists.pop(rng.choice(list(lists)))
            elif lists:
                number = rng.choice(list(lists))
                lists[number] = self.changed_list(number, lists[number])
        conf = self.directory.conf
        changed = model.Attributes(conf)
        for number, texts in lists.items():
            for text in texts:
                # of equal values the first is kept
                if conf.is_valid(number, text) and not changed.has(number, text):
                    changed.add(number, text)
        return rdn, changed

    def several(self, number):
        return [self.new_value(number) for _ in range(self.rng.choice([1, 1, 2, 3, 6]))]

    def in_other_order(self, lists):
        rng, numbers = self.rng, list(lists)
        kind = rng.randrange(3)
        if kind == 0:
            rng.shuffle(numbers)
        elif kind == 1:
            numbers.append(numbers.pop(rng.randrange(len(numbers))))
        else:
            numbers.insert(0, numbers.pop(rng.randrange(len(numbers))))
        return {number: lists[number] for number in numbers}

    def changed_list(self, number, texts):
        rng, kind = self.rng, self.rng.randrange(7)
        if kind == 0:
            return texts[::-1]
        if kind == 1:
            return rng.sample(texts, len(texts))
        if kind == 2:
            return [text for text in texts if some(rng, .7)]
        if kind == 3:
            return texts + self.several(number)
        if kind == 4:
            return [alike(rng, text) if some(rng, .5) else text for text in texts]
        if kind == 5:
            place = rng.randrange(len(texts) + 1)
            return texts[:place] + self.several(number)[:1] + texts[place:]
        return [text for text in texts if some(rng, .8)] + self.several(number)


def directories(rng):
    """-> (what makes them, the first directory, the second one)"""
    config = PairConfig(rng)
    pairs = Pairs(rng, config, False)
    pairs.is_deep = some(rng, .35)
    wanted = rng.choice([0] + [1, 2, 4, 6, 9] * 4)
    for _ in range(3):
        pairs.fill(wanted - len(pairs.directory.entries))
    for path in pairs.directory.entries:
        pairs.grow(path)
    before = pairs.directory
    after = model.Directory(before.conf) if some(rng, .03) else pairs.second(before)
    return pairs, before, after


def some_filter(rng, pairs, before, after):
    """A filter for one of the two; many are of the RDN of one entry, most of them of one that comes or goes, and True or False for it alone."""
    pairs.directory = rng.choice([before, after])
    rdns = {path: rdn for path, (rdn, _) in pairs.directory.entries.items()}
    if not rdns or some(rng, .4):
        return pairs.text_of_filter() if some(rng, .15) else pairs.filter(rng.choice([0, 1, 2]))
    alone = [path for path in rdns if path not in before.entries or path not in after.entries]
    number, value = rng.choice(rdns[rng.choice(alone if alone and some(rng, .8) else list(rdns))])
    item = b"(" + pairs.config.type_text(pairs.directory.conf.types[number].printed()) + b"=" + pairs.escaped(alike(rng, value)) + b")"
    but = b"(!" + item + b")"
    return rng.choice([item, but, but, b"(|" + item + pairs.filter(1) + b")", b"(&" + pairs.filter(0) + but + b")"])


def pair_case(rng):
    """A pair that is mostly good, and perhaps a part of it; some texts break off, or can't be loaded."""
    pairs, before, after = directories(rng)
    conf, data, text = pairs.config.text, before.dump() or rng.choice([None, b""]), after.dump()
    options = {"unordered": some(rng, .4), "verbose": some(rng, .4), "by_file": some(rng, .7)}
    if some(rng, .3):
        options["filter"] = sayable(some_filter(rng, pairs, before, after))
    if some(rng, .2):
        pairs.directory = rng.choice([before, after])
        options["base"] = sayable(pairs.dn_of(pairs.some_path(.2), .1))
    kind = rng.randrange(100)
    if kind == 0:
        text = text[:rng.randrange(len(text) + 1)]
    elif kind == 1:
        text = mutated(rng, text or b"x")
    elif kind == 2:
        text, options["by_file"] = None, True
    elif kind == 3:
        data = rng.choice([None, mutated(rng, data or b"x")])
    elif kind == 4:
        conf = rng.choice([None, pairs.config.broken_text()])
    elif kind == 5:
        text = Pairs(rng, PairConfig(rng), False).good_text(3)
    return Pair(conf, data, text, **options)
