#!/usr/bin/env python3
"""Whether what the crate refused_memory prints (its stdout) is what this second reading makes of the same texts, which it takes from
that crate's sources: answers.py. What texts are read as is written out here by hand."""
import collections
import pathlib
import re
import sys

import filters
import indexes
import ldif
import model
import schema

CRATE = pathlib.Path(__file__).resolve().parents[2] / "crates/refused_memory"

TEXTS = """\
modify cn=somebody,dc=ex {1.2.840.113556.1.4.805!=a value of many bytes} {1.2.3=a} (add tel <+1 206 555 0575 1> <+1 206 555 0575 2>) (replace info)
content cn=somebody,dc=ex [o=p] [info=Zoë and more than a few bytes]
modrdn cn=somebody,dc=ex to cn=somebody by another name 1 under ou=people,dc=example
(&(|(cn=Bob)(sn~=a name of more than a few bytes))(!(uidNumber>=7))(uidNumber<=70)(telephoneNumber;lang-en=*)(cn=an initial piece*of*many bytes*and a last piece)(cn=*piece*)(organizationalUnitName:dn:2.5.13.2:=Bob)(:caseExactMatch:=Bob))
fault at 49
fault at 3
cn=a\\, b+sn=a value of more than a few bytes+ou=c,o=an escaped \\, value of more than a few bytes,c=e+st=f,dc=ex
cn: a value of more than seventy-six bytes, which is folded behind its seven
 ty-sixth, as a line of an LDIF text is
cn:: IFpvw6s=
2 RDNs
cn=a value of more than a few bytes,cn=c+sn=b,dc=ex
words from 65 members on
"""


def strings(text):
    """The string literals of a text."""
    return [literal.replace("\\n", "\n").replace('\\"', '"').replace("\\\\", "\\") for literal in re.findall(r'"((?:\\.|[^"\\])*)"', text)]


def constant(file, name):
    text = (CRATE / "src" / file).read_text()
    return re.search(rf"const {name}\b[^=]*=(.*?)\n?;\n", text, re.S).group(1)


CONF = strings(constant("directories.rt", "CONF"))[0].encode()
PEOPLE = strings(constant("directories.rt", "PEOPLE"))[0].encode()


def loaded(data):
    directory = model.Directory(schema.read_conf(CONF))
    assert not model.run(directory, data, False)
    return directory


def shown(directory):
    dump = directory.dump()
    return (dump + indexes.index_text(directory.conf, dump)).decode()


def steps_of(directory, text):
    return filters.prepared(directory.conf, model.read_filter(text.encode()))


def found(directory, rows, text):
    steps = steps_of(directory, text)
    paths = directory.matching(lambda path, base: True, (), steps, rows)
    rdns = "".join(f" {value.decode()}," for path in paths for _, value in directory.entries[path][0])
    tested = len(directory.entries if rows is None else indexes.candidates(steps, rows, len(directory.entries))[0])
    return f"{text}:{rdns} tested {tested}\n"


def lies(directory, dump, text):
    literals = strings(constant("lies.rt", "LIES"))
    for row, other, asked in zip(*[iter(literals)] * 3):
        rows = indexes.read(directory.conf, dump, text.replace(row.encode(), other.encode(), 1))
        yield "by a lie, " + found(directory, rows, asked)


def side(ranks, entries):
    """Where the rank of no entry is among them, they are all but those of some entries."""
    is_all = entries in ranks
    return " ".join(["all but" if is_all else "only", *(str(rank) for rank in range(entries) if (rank in ranks) != is_all)])


def brackets(directory, rows):
    entries = len(directory.entries)
    for text in strings(constant("brackets.rt", "FILTERS")):
        may, may_not = indexes.candidates(steps_of(directory, text), rows, entries + 1)
        yield f"{text} may be True of {side(may, entries)}, False of {side(may_not, entries)}\n"


def searches():
    directory = loaded(PEOPLE)
    dump = directory.dump()
    text = indexes.index_text(directory.conf, dump)
    rows = indexes.read(directory.conf, dump, text)
    asked = strings(constant("searches.rt", "FILTERS"))
    for _ in "the kept index", "that in the order of a dump", "the index text", "that and the entries by their ranks":
        yield from (found(directory, rows, one) for one in asked)
    yield from lies(directory, dump, text)
    yield from brackets(directory, rows)
    yield from (found(directory, None, one) for one in asked)


def keys_by_entry(directory):
    """How often each set of keys of an entry is there."""
    return collections.Counter(frozenset(
        (slot, key) for slot in directory.conf.slots
        for key in indexes.keys_of(directory.conf, attributes.values, slot[0], indexes.KINDS[slot[1]])
    ) for _, attributes in directory.entries.values())


def edits(before, after):
    """How many keys come and go where at most one entry has others."""
    gone, came = list((before - after).elements()) or [frozenset()], list((after - before).elements()) or [frozenset()]
    assert len(gone) == len(came) == 1
    return len(gone[0] ^ came[0])


def changes():
    directory = loaded(PEOPLE)
    yield shown(directory)
    for text in strings(constant("changes.rt", "RECORDS")):
        before = keys_by_entry(directory)
        report = model.run(directory, text.encode(), False, True)
        yield report.split(": ", 1)[1] if report else f"{edits(before, keys_by_entry(directory))} keys edited\n"
    yield shown(directory)


def run(data, records, *how):
    directory = loaded(data)
    refused = model.run(directory, "".join(records).encode(), True, *how).count("\n")
    yield f"{len(records) - refused} accepted, {refused} refused\n"
    yield shown(directory)


def runs():
    start, *records = strings(constant("runs.rt", "CONTENT"))
    yield from run(start.encode(), records)
    yield from run(PEOPLE, strings(constant("runs.rt", "CHANGES")), True)


def counts(title, kinds):
    yield f"{title}:\n"
    yield from (f"{number} {kind}\n" for kind, number in sorted(collections.Counter(kinds).items()))


def load_kind(begun):
    directory = model.Directory(schema.read_conf(CONF))
    report = model.run(directory, begun, False)
    return "refused, " + report.split(": ", 1)[1].rstrip("\n") if report else f"loaded, {len(directory.entries)} entries"


def run_kind(start, begun, changes):
    directory = loaded(start)
    report = model.run(directory, begun, True, changes)
    accepted = len(ldif.records(begun)) - report.count("\n")
    refusal = ", " + report.split(": ", 1)[1].rstrip("\n") if report else ""
    return f"{accepted} accepted, a dump of {len(directory.dump())} bytes{refusal}"


def beginnings_of(text):
    return (text[:end] for end in range(len(text) + 1))


def beginnings():
    yield from counts("beginnings of a dump", map(load_kind, beginnings_of(PEOPLE)))
    for one in constant("beginnings.rt", "RUNS").split("Run {")[1:]:
        title, start, text = strings(one)
        changes = "Mode::Changes" in one
        yield from counts(title, (run_kind(start.encode(), begun, changes) for begun in beginnings_of(text.encode())))


def main():
    wanted = TEXTS + "".join([*searches(), *changes(), *runs(), *beginnings()])
    if wanted != (CRATE / "stdout").read_text():
        sys.stdout.write(wanted)
        sys.exit("answers: the stdout of refused_memory is another")
    print(f"{wanted.count(chr(10))} lines are as the second reading has them")


main()
