"""What ldifdiff prints: the changes that make one directory another one, as records of LDIF (RFC 2849) with a comment before each.

What users can't change (NO-USER-MODIFICATION, RFC 4512, 4.1.2) stays as it is: no change speaks of it.
"""
import filters
import ldif
import model
import schema
import sentences

REPLACE, ADD, DELETE = "replace", "add", "delete"


# where the changes lead

def goal(before, after, is_unordered=False, is_chosen=lambda path: True):
    """The directory that the changes lead to, but for what users can't change: at the chosen paths that of `after`, elsewhere that of `before`."""
    wanted = model.Directory(before.conf)
    for path in sorted(before.entries.keys() | after.entries.keys()):
        entry = old = before.entries.get(path)
        if is_chosen(path):
            entry = after.entries.get(path)
            if old is not None and entry is not None and is_unordered:
                entry = old[0], as_it_stands(old[1], entry[1])
        if entry is not None:
            wanted.entries[path] = entry
    return wanted


def as_it_stands(old, new):
    """The types and values of `new`, as sets, in the order and the spelling of `old`; what that hasn't stands behind."""
    wanted = model.Attributes(new.conf)
    shared = [number for number in old.values if number in new.values]
    for number in dict.fromkeys([*shared, *new.values]):
        there, coming = old.values.get(number, {}), new.values[number]
        stay = {form: value for form, value in there.items() if form in coming}
        wanted.values[number] = stay | {form: value for form, value in coming.items() if form not in there}
    return wanted


# the changes

def changes(before, after, wanted):
    """The changes that make the directory `before` the directory `wanted`, with the names that `after` has for what comes and is changed: children
    go before their parents, and come behind them."""
    found = [ldif.Change(name_of(before, path), None, "delete", None)
             for path in sorted(before.entries, reverse=True) if path not in wanted.entries]
    for path in sorted(wanted.entries):
        found += changes_at(before, after, wanted, path)
    return found


def name_of(directory, path):
    rdns = [directory.entries[path[:depth]][0] for depth in range(len(path), 0, -1)]
    return directory.conf.written_name(rdns + directory.conf.suffix)


def changes_at(before, after, wanted, path):
    """The changes at a path at which `wanted` has an entry: an add, or perhaps a modrdn, and perhaps a modify."""
    conf = before.conf
    rdn, attributes = wanted.entries[path]
    if path not in before.entries:
        lines = [(conf.types[number].printed(), value) for number, values in changeable(attributes) for value in values]
        return [ldif.Change(name_of(after, path), None, "add", lines)]
    old_rdn, old = before.entries[path]
    found = []
    if rdn != old_rdn:
        found.append(ldif.Change(name_of(before, path), None, "modrdn", ldif.Rename(conf.written_name([rdn]), False)))
    blocks = blocks_between(conf, changeable(old), changeable(attributes))
    if blocks:
        found.append(ldif.Change(name_of(after, path), None, "modify", blocks))
    return found


def changeable(attributes):
    """-> [(type, its values)] of those that users can change"""
    conf = attributes.conf
    return [(number, list(values.values())) for number, values in attributes.values.items() if not conf.types[number].is_fixed]


def blocks_between(conf, old, new):
    """The types of `new` that stand in `old` in this order stay in their places, from the first on; all others go, or come at the end."""
    blocks, at, coming = [], 0, 0
    places = {number: place for place, (number, _) in enumerate(old)}
    while at < len(old) and coming < len(new) and places.get(new[coming][0], -1) >= at:
        number, values = old[at]
        if number == new[coming][0]:
            gone, come = values_between(values, new[coming][1])
            blocks += value_blocks(conf, number, gone, come, new[coming][1])
            coming += 1
        else:
            blocks.append(block(conf, DELETE, number))
        at += 1
    blocks += [block(conf, DELETE, number) for number, _ in old[at:]]
    return blocks + [block(conf, ADD, number, values) for number, values in new[coming:]]


def values_between(old, new):
    """-> (values that go, values that come), byte for byte. Those that stay are a part of the old ones in their order, and the first of the new."""
    gone, at, coming = [], 0, 0
    places = {value: place for place, value in enumerate(old)}
    while at < len(old) and coming < len(new) and places.get(new[coming], -1) >= at:
        if old[at] == new[coming]:
            coming += 1
        else:
            gone.append(old[at])
        at += 1
    return gone + old[at:], new[coming:]


def value_blocks(conf, number, gone, come, new):
    """Names the values that go and come, where the type's values can be compared and these are fewer than all new ones."""
    if not gone and not come:
        return []
    if conf.types[number].family is None or len(gone) + len(come) >= len(new):
        return [block(conf, REPLACE, number, new)]
    named = [(DELETE, gone), (ADD, come)]
    return [block(conf, word, number, values) for word, values in named if values]


def block(conf, word, number, values=()):
    return ldif.Block(word, conf.types[number].printed(), list(values))


# as text

def printed(change):
    lines = [(b"# " + change.kind.encode(), comment(change).encode()), (b"dn", change.dn), (b"changetype", change.kind.encode())]
    if change.kind == "add":
        lines += change.what
    elif change.kind == "modrdn":
        lines += [(b"newrdn", change.what.rdn), (b"deleteoldrdn", b"0")]
    text = b"".join(ldif.written_line(*line) for line in lines)
    for one in change.what if change.kind == "modify" else ():
        text += ldif.written_line(one.word.encode(), one.name) + b"".join(ldif.written_line(one.name, value) for value in one.values) + b"-\n"
    return text + b"\n"


def comment(change):
    if change.kind == "modify":
        return ", ".join(words_of(one) for one in change.what)
    return {"delete": "an entry that is gone", "add": "a new entry", "modrdn": "another spelling of the RDN"}[change.kind]


def words_of(one):
    name, number = one.name.decode(), f"{len(one.values)} value{'s' * (len(one.values) != 1)}"
    if one.word == REPLACE:
        return f"{name} replaced by {number}"
    if one.word == ADD:
        return f"{number} of {name} added"
    return f"{number} of {name} deleted" if one.values else f"{name} deleted"


def counted(number, word):
    return f"{sentences.grouped(number)} {word}{'s' * (number != 1)}"


def summary(found):
    """What stands at the end with `-v`."""
    blocks = [one for change in found if change.kind == "modify" for one in change.what]
    kinds = [sum(change.kind == kind for change in found) for kind in ("add", "delete", "modrdn", "modify")]
    added, deleted, renamed, modified = map(sentences.grouped, kinds)
    new, old = (sum(len(one.values) for one in blocks if one.word == word) for word in (ADD, DELETE))
    whole, replaced = sum(one.word == DELETE and not one.values for one in blocks), sum(one.word == REPLACE for one in blocks)
    return (f"{counted(len(found), 'change')}: {added} added, {deleted} deleted, {renamed} renamed, {modified} modified; "
            f"{counted(new, 'value')} added, {sentences.grouped(old)} deleted; "
            f"{counted(whole, 'attribute')} deleted, {sentences.grouped(replaced)} replaced\n")


# what can't be carried out

ABOVE, BELOW = "no entry above it", "entries below it stay"


def warnings(before, after, wanted):
    """Of each entry that the changes can't make what it is to be, since a record of theirs is refused: the line about it. First those that go, and
    then the others, as the changes come, each in the order of paths. -> [(its path, the line)]"""
    above = {path[:depth] for path in wanted.entries for depth in range(len(path))}
    paths = sorted(before.entries.keys() | wanted.entries.keys(), key=lambda path: (path in wanted.entries, path))
    lines = ((path, warning(before, after, wanted, path, above)) for path in paths)
    return [(path, line) for path, line in lines if line]


def warning(before, after, wanted, path, above):
    """It comes, and nothing is to be above it (32); or it goes, and what is below it is to stay (66), so that it is one of those `above` an entry;
    or what users can't change breaks its classes (65)."""
    if path not in wanted.entries:
        return f"{sentences.name(name_of(before, path))}: {BELOW}\n" if path in above else ""
    if path not in before.entries and path != () and path[:-1] not in wanted.entries:
        return f"{sentences.name(name_of(after, path))}: {ABOVE}\n"
    return class_warning(before, after, wanted, path)


def class_warning(before, after, wanted, path):
    """Whether the changes leave an entry without what its classes ask for, or with what they don't allow."""
    conf, types = wanted.conf, left_types(before, wanted, path)
    names = list(wanted.entries[path][1].values[0].values())
    if conf.fits_classes(names, types):
        return ""
    named, name = [conf.class_of(one) for one in names], sentences.name(name_of(after, path))
    asked = [number for one in named for number in conf.required_in_order(one) if number not in types]
    if asked:
        return f"{name}: its classes ask for {sentences.type_name(conf.types[asked[0]].printed())} that users can't add\n"
    belongs = conf.with_superclasses(named)
    allowed = {number for one in belongs for number in conf.classes[one].must + conf.classes[one].may} | {0}
    barred = [number for number in types if number not in allowed and not conf.types[number].is_operational]
    return f"{name}: its classes don't allow {sentences.type_name(conf.types[barred[0]].printed())} that users can't delete\n"


def left_types(before, wanted, path):
    """The types of the entry behind the changes, as the keys of a dictionary."""
    conf = wanted.conf
    rdn, attributes = wanted.entries[path]
    fixed = before.entries[path][1].values if path in before.entries else [number for number, _ in rdn]
    stays = [number for number in fixed if conf.types[number].is_fixed]
    return dict.fromkeys(stays + [number for number, _ in changeable(attributes)]).keys()


# the command

def ldifdiff(conf_text, data, text, folder, source, filter_text=None, below=None, is_unordered=False, verbose=False):
    """Of the two directories of a folder and of a text, both under the folder's configuration; a text of None can't be read.
    -> (status, output, messages)"""
    try:
        steps = model.read_filter(b"(&)" if filter_text is None else filter_text)
        before = model.load(conf_text, data, folder)
        after = loaded(conf_text, text, source)
        is_chosen = choice(before, after, steps, below)
    except model.Ended as end:
        return end.status, b"", end.told(verbose)
    wanted = goal(before, after, is_unordered, is_chosen)
    found = changes(before, after, wanted)
    messages = "".join(line for _, line in warnings(before, after, wanted)) + summary(found) * verbose
    return (1 if found else 0), b"".join(map(printed, found)), messages.encode()


def loaded(conf_text, text, source):
    """The directory of a text, which is loaded as data.ldif is."""
    if text is None:
        raise model.Ended(3, f"{source}: cannot read", "  no such file or folder\n")
    directory, told = model.Directory(schema.read_conf(conf_text)), model.Told()
    report = model.run(directory, text, False, told=told)
    if report:
        raise model.Ended(3, f"{source} " + report.rstrip("\n"), told.refusals[0][1][0])
    return directory


def choice(before, after, steps, below):
    """Which paths are looked at: those at and below a name, of entries for which a filter is True in one of the two."""
    prepared, base = filters.prepared(before.conf, steps), ()
    if below is not None:
        base = base_of(before, after, below)
    return lambda path: path[:len(base)] == base and any(
        path in one.entries and filters.truth(one.conf, prepared, one.entries[path][1].values) for one in (before, after))


def base_of(before, after, name):
    try:
        path = before.located(name)[1]
        if path not in after.entries and path not in before.entries:
            raise model.Refused(32, before.no_entry(name, path))
    except model.Refused as refused:
        raise model.Ended(2, f"ldifdiff: {refused}", sentences.line(refused.why)) from None
    return path
