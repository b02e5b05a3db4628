"""What `slapcat --suffix NAME` prints: the directory under another suffix.

Each entry keeps its place, its types and its values. Values of DN syntax that name something at or below the old suffix name it below the new one,
and the suffix's entry has the new RDN, as by a modrdn that deletes the old one. What comes of that is added entry by entry to a directory under the
new suffix: so it is one, or the first entry that can't be added says why it is none.
"""
import re
from dataclasses import replace

import model
import schema
import sentences

# an escape, or a comma between RDNs
COMMA = re.compile(rb"\\.|(,)", re.DOTALL)


def slapcat(conf_text, data, folder, name, verbose=False, wrap=None):
    """-> (status, output, messages, or None where they are those of the library that reads words)"""
    width = model.width_of(wrap)
    if width is None:
        return model.bad_width(wrap)
    try:
        directory = model.load(conf_text, data, folder)
        moved = moved_to(directory, name)
    except model.Ended as end:
        return end.status, b"", end.told(verbose)
    return 0, b"".join(moved.printed(path, width=width) for path in sorted(moved.entries)), b""


def moved_to(directory, name):
    """The directory under another suffix."""
    moved = model.Directory(conf_of(directory.conf, name))
    for path in sorted(directory.entries):
        rdns = [directory.entries[path[:depth]][0] for depth in range(len(path), 0, -1)] + moved.conf.suffix
        dn = moved.conf.written_name(rdns)
        try:
            moved.add(dn, lines_of(directory, path, moved.conf, name))
        except model.Refused as refused:
            raise ended(refused, f"{sentences.name(dn)}: ") from None
    return moved


def ended(refused, where=""):
    why = refused.why[0] if isinstance(refused.why, list) else refused.why
    # an equal value stands on no line
    why = f"{why[0]} before it" if isinstance(why, tuple) else why
    return model.Ended(1, f"slapcat: {refused}", sentences.line(where + why))


def not_a_part(has_filter):
    """The answer where a filter or a base stands beside the new suffix."""
    other = "-a <FILTER>" if has_filter else "-s <NAME>"
    return 2, b"", f"error: the argument '--suffix <NAME>' cannot be used with '{other}': a part of the directory doesn't load by itself\n".encode()


def conf_of(conf, name):
    """The configuration with this suffix, which is looked at as that of a suffix line."""
    rdns = schema.read_name(name)
    if not rdns:
        shown = f" {sentences.name(name)}" if name else " is empty, and"
        raise ended(model.Refused(34, f"the name{shown} doesn't end with the suffix {sentences.name(conf.written_name(conf.suffix))}"))
    try:
        return replace(conf, suffix=conf.pairs_of(rdns))
    except schema.BadName as bad:
        raise ended(model.Refused(bad.args[0], model.Directory(conf).ava_words("the name", *bad.args))) from None


def lines_of(directory, path, conf, name):
    """What an entry is to have: its types and values in their order."""
    attributes = directory.entries[path][1].copy()
    if path == ():
        give_rdn(attributes, directory.conf.suffix[0], conf.suffix[0])
    return [(conf.types[number].printed(), value_under(directory.conf, number, value, name))
            for number, values in attributes.values.items() for value in values.values()]


def give_rdn(attributes, old, new):
    """The new values come before the old ones go (RFC 4511, 4.9)."""
    conf = attributes.conf
    for pair in new:
        if not attributes.has(*pair):
            attributes.add(*pair)
    stay = {(number, conf.normal(number, value)) for number, value in new}
    for number, value in old:
        if (number, conf.normal(number, value)) not in stay:
            attributes.remove(number, value)


def value_under(conf, number, value, name):
    """A value as it stands below the new suffix: of a name at or below the old one its bytes in front, and the new suffix as it is spelled."""
    if conf.types[number].kind != "name":
        return value
    rdns, depth = conf.avas_of(value), len(conf.suffix)
    above = len(rdns) - depth
    if above < 0 or conf.steps(rdns[above:]) != conf.steps(conf.suffix):
        return value
    if above == 0:
        return name
    commas = [found.start() for found in COMMA.finditer(value) if found[1]]
    return value[:commas[above - 1]] + b"," + name


def with_suffix_line(text, conf):
    """A dir.conf with the suffix of a configuration in place of its own."""
    lines, begins = text.split(b"\n"), schema.joined_lines(text)
    for (number, line), (behind, _) in zip(begins, begins[1:] + [(len(lines) + 1, b"")]):
        if re.match(rb"suffix[ \t]", line, re.IGNORECASE):
            lines[number - 1:behind - 1] = [b'suffix "%b"' % conf.written_name(conf.suffix)] + [b""] * (behind > len(lines))
            return b"\n".join(lines)
    return text
