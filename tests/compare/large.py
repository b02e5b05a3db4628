#!/usr/bin/env python3
"""Runs what is large through a built program and through a second reading: large.py PROGRAM

Texts over 1 MiB, lines of 100,001 bytes, values over 64 KiB, names of 17 RDNs and more, RDNs of 9 AVAs and more, long filters, a long
dir.conf and long index texts, each whole and with a fault in its last part; lists of a million lines for search -f, and lines of 10 MB. Status, output, messages and the stored data.ldif and index.txt
must be the same, and none may be out of memory. Prints each difference and at the end the number of runs; the exit status is 0 where nothing differs, else 1.
"""
import base64
import hashlib
import itertools
import subprocess
import sys
import tempfile
from pathlib import Path

READING = Path(__file__).with_name("program.py")

TYPES = ["cn", "ou", "sn", "o", "l", "st", "title", "street", "uid", "mail", "dc"]

CONF = b'suffix "dc=ex"\n' + b"".join(
    b"attributetype ( 1.3.%d NAME '%s' EQUALITY caseIgnoreMatch SUBSTR caseIgnoreSubstringsMatch "
    b"SYNTAX 1.3.6.1.4.1.1466.115.121.1.15 )\n" % (number, name.encode()) for number, name in enumerate(TYPES)) \
    + b"attributetype ( 1.3.99 NAME 'photo' EQUALITY octetStringMatch SYNTAX 1.3.6.1.4.1.1466.115.121.1.40 )\n" \
    + b"index objectClass,photo eq\nindex cn,l eq,pres,sub\nindex sn sub,eq\n"

SUFFIX = b"dn: dc=ex\nobjectClass: top\ndc: ex\n"
PRINTED = SUFFIX + b"\n"


def entry(name, lines=b""):
    return b"dn: " + name + b"\nobjectClass: top\n" + lines


def texts(entries):
    return b"\n".join(entries)


def chain(length, parts=1):
    """the names of entries below each other, the last of this many RDNs below the suffix"""
    name = b"dc=ex"
    for level in range(length):
        rdn = b"+".join(b"%s=%d %d" % (TYPES[part].encode(), level, part) for part in range(parts))
        name = rdn + b"," + name
        yield name


def content():
    """-> (what it is, a text of content records)"""
    photo = bytes(range(256)) * 300
    coded = base64.b64encode(photo)
    for number in (17, 33, 200):
        names = list(chain(number))
        yield f"{number} RDNs", texts([SUFFIX] + [entry(name) for name in names])
        yield f"{number} RDNs and a fault", texts([SUFFIX] + [entry(name) for name in names] + [entry(b"cn=a\\g," + names[-1]), entry(b"cn=a,x=b" + names[-1])])
        yield f"{number} RDNs without the one above", texts([SUFFIX] + [entry(name) for name in names[:-2] + names[-1:]])
    for number in (9, 10, 11):
        yield f"{number} parts", texts([SUFFIX] + [entry(name) for name in chain(3, number)])
        rdn = b"+".join(b"%s=a" % name.encode() for name in TYPES[:number])
        yield f"{number} parts and a fault", texts([SUFFIX, entry(rdn + b"+x,dc=ex"), entry(rdn + b"+cn=b,dc=ex"), entry(rdn + b"+q=b,dc=ex"), entry(rdn + b",dc=ex")])
    for length in (100001, 1 << 20):
        line = b"l: " + b"x" * (length - 3) + b"\n"
        yield f"a line of {length} bytes", texts([SUFFIX, entry(b"cn=a,dc=ex", line)])
        yield f"a folded line of {length} bytes", texts([SUFFIX, entry(b"cn=a,dc=ex", line[:70] + b"".join(b"\n " + line[at:at + 70].rstrip(b"\n") for at in range(70, len(line), 70)) + b"\n")])
        yield f"a line of {length} bytes without a colon", texts([SUFFIX, entry(b"cn=a,dc=ex", line.replace(b":", b";"))])
        yield f"a comment of {length} bytes", texts([b"#" + line + SUFFIX, b"# " + line, entry(b"cn=a,dc=ex")])
        yield f"a name of {length} bytes", texts([SUFFIX, entry(b"cn=" + b"x" * length + b",dc=ex"), entry(b"cn=" + b"x" * length + b"\",dc=ex")])
        yield f"a name of {length} bytes in escapes", texts([SUFFIX, entry(b"cn=" + b"\\2Bx" * (length // 4) + b",dc=ex")])
    yield "values over 64 KiB", texts([SUFFIX, entry(b"cn=a,dc=ex", b"photo:: " + coded + b"\nphoto:: " + coded[4:] + b"\nl: " + b"y z " * 20000 + b".\n")])
    yield "a value over 64 KiB twice", texts([SUFFIX, entry(b"cn=a,dc=ex", (b"photo:: " + coded + b"\n") * 2), entry(b"cn=b,dc=ex")])
    yield "a value over 64 KiB with a fault at its end", texts([SUFFIX, entry(b"cn=a,dc=ex", b"photo:: " + coded[:-2] + b"*=\n")])
    yield "a text over 1 MiB", texts([SUFFIX] + [entry(b"cn=%d,dc=ex" % number, b"photo:: " + coded[number:number + 80000] + b"\n") for number in range(0, 80, 4)])
    yield "a text over 1 MiB with a fault at its end", texts([SUFFIX] + [entry(b"cn=%d,dc=ex" % number, b"sn: " + b"z" * 70000 + b"\n") for number in range(20)] + [b"dn: cn=x\n y\nfoo\n"])
    yield "an entry of 5,000 values", texts([SUFFIX, entry(b"cn=a,dc=ex", b"".join(b"sn: value %d\n" % number for number in range(5000)))])


def added(name):
    return b"dn: " + name + b"\nchangetype: add\nobjectClass: top\n"


def moved(name, rdn, superior):
    return b"dn: " + name + b"\nchangetype: modrdn\nnewrdn: " + rdn + b"\ndeleteoldrdn: 1\nnewsuperior: " + superior + b"\n"


def changes():
    """-> (what it is, a text of change records over the suffix's entry)"""
    names = list(chain(40))
    tree = [b"dn: " + name + b"\nchangetype: add\nobjectClass: top\n" for name in names]
    yield "renames below 40 RDNs", texts(tree + [b"dn: " + names[-1] + b"\nchangetype: modrdn\nnewrdn: cn=" + b"x" * 100001 + b"\ndeleteoldrdn: 1\n"])
    yield "a chain of 40 RDNs moves by its second", texts(tree + [moved(names[1], b"cn=moved", b"dc=ex"), moved(names[0], b"cn=up", b"cn=moved,dc=ex")])
    below = [added(b"cn=top,dc=ex"), added(b"cn=side,dc=ex")] + [added(b"cn=%d,cn=top,dc=ex" % number) for number in range(3000)]
    yield "3,000 entries move, and come back in another spelling", texts(below + [
        moved(b"cn=top,dc=ex", b"cn=a", b"cn=side,dc=ex"), moved(b"cn=side,dc=ex", b"cn=z", b"dc=ex"), moved(b"cn=z,dc=ex", b"cn=y", b"cn=a,cn=z,dc=ex"),
        moved(b"cn=A,cn=Z,dc=ex", b"cn=TOP", b"dc=ex"), moved(b"cn=7,cn=top,dc=ex", b"cn=seven", b"cn=8,cn=top,dc=ex")])
    yield "deletes from below", texts(tree + [b"dn: " + name + b"\nchangetype: delete\n" for name in reversed(names)])
    values = b"".join(b"sn: " + b"%d" % number * 9000 + b"\n" for number in range(100, 140))
    yield "values over 1 MiB in one record", texts([b"dn: dc=ex\nchangetype: modify\nadd: sn\n" + values + b"-\ndelete: sn\n" + values[:54010] + b"-\n"])
    yield "5,000 blocks", texts([b"dn: dc=ex\nchangetype: modify\n" + b"".join(b"add: sn\nsn: %d\n-\n" % number for number in range(5000))])
    yield "5,000 blocks and a fault", texts([b"dn: dc=ex\nchangetype: modify\n" + b"".join(b"add: sn\nsn: %d\n-\n" % (number % 4999) for number in range(5000))])


def confs():
    """-> (what it is, a dir.conf, the class of the suffix's entry)"""
    yield "a dir.conf over 1 MiB", b"# " + b"c" * (1 << 20) + b"\n" + CONF, b"top"
    yield "a dir.conf over 1 MiB with a fault at its end", CONF + b"\n" * (1 << 20) + b"suffix 'dc=ex'\n", b"top"
    yield "a line over 64 KiB", CONF + b"attributetype ( 1.4.1 NAME 'a' DESC '" + b"d" * 70000 + b"' SUP cn )\n", b"top"
    types = b"".join(b"attributetype ( 1.4.%d NAME 't%d' SUP cn )\n" % (number, number) for number in range(3000))
    yield "3,000 types", CONF + types, b"top"
    yield "3,000 types that are indexed", CONF + types + b"index " + b",".join(b"t%d" % number for number in range(3000)) + b" sub,eq,pres\n", b"top"
    yield "3,000 index lines", CONF + b"index dc,cn pres\nindex 1.3.0,DC eq,sub\n" * 1500, b"top"
    yield "3,000 index lines and a fault", CONF + b"index dc,cn pres\nindex 1.3.0,DC eq,sub\n" * 1500 + b"index dc sup\n", b"top"
    first = b"objectclass ( 1.5.0 NAME 'c0' SUP top MUST dc )\nobjectclass ( 1.5.1 NAME 'c1' SUP c0 MAY cn )\n"
    lattice = first + b"".join(
        b"objectclass ( 1.5.%d NAME 'c%d' SUP ( c%d $ c%d ) MAY ( cn $ sn ) )\n" % (number, number, number - 1, number - 2) for number in range(2, 10000))
    yield "10,000 classes, each below two", CONF + lattice, b"c9999"
    yield "10,000 classes, and one that isn't known", CONF + lattice, b"c10000"
    chain_of_types = first + b"".join(
        b"objectclass ( 1.5.%d NAME 'c%d' SUP c%d MAY t%d )\n" % (number, number, number - 1, number) for number in range(2, 3000))
    yield "3,000 classes below each other, each with a type of its own", CONF + types + chain_of_types, b"c2999"


def indexed():
    """-> (what it is, a data.ldif)"""
    yield "a key of 30,000 entries", texts([SUFFIX] + [entry(b"cn=%d,dc=ex" % number, b"l: all\n") for number in range(30000)])
    yield "a key of every third of 9,999 entries", texts([SUFFIX] + [entry(b"cn=%d,dc=ex" % number, b"l: all\n" * (number % 3 == 0)) for number in range(9999)])
    runs = bytes(byte for high in range(97, 123) for low in range(97, 123) for byte in (high, low, 48 + low % 10))
    yield "a value of 2,000 runs", texts([SUFFIX, entry(b"cn=a,dc=ex", b"l: " + runs + b"\n"), entry(b"cn=b,dc=ex", b"cn: " + runs.upper() + b"\n")])
    yield "a value of all runs of a few letters", texts([SUFFIX] + [entry(b"cn=%d,dc=ex" % number, b"sn: " + bytes(97 + number * at * at % 26 for at in range(9000)) + b"\n") for number in range(40)])
    yield "an index of a text with a fault at its end", texts([SUFFIX] + [entry(b"cn=%d,dc=ex" % number) for number in range(9000)] + [entry(b"cn=7,dc=ex")])


def index_texts():
    """-> (what it is, the files before, a filter for which the index text is looked into)"""
    types = b"".join(b"attributetype ( 1.4.%d NAME 't%d' SUP cn )\n" % (number, number) for number in range(32700))
    few = CONF.split(b"index")[0]
    many = few + types + b"".join(b"index t%d eq,pres\n" % number for number in range(32700))
    slots = b"".join(b"slot t%d %b\n" % (number, kind) for number in range(32700) for kind in (b"eq", b"pres"))
    yield "65,408 slots", files_of(many, PRINTED, slots), "(t9=a)"
    yield "65,408 slots, the last of which is missing", files_of(many, PRINTED, slots[:slots.rindex(b"slot")]), "(t9=a)"
    key = b"61" * 50_000_000
    few += b"index l eq\n"
    yield "a key of 100 MB", files_of(few, PRINTED, b"slot l eq\n" + key + b" 0\n"), "(l=a)"
    yield "a key of 100 MB and a digit", files_of(few, PRINTED, b"slot l eq\n" + key + b"6 0\n"), "(l=a)"
    ranks = b"".join(b" %d" % rank for rank in range(3000))
    data = texts([SUFFIX] + [entry(b"cn=%04d,dc=ex" % number, b"cn: %04d\n" % number) for number in range(2999)]) + b"\n"
    yield "a key of all ranks", files_of(few, data, b"slot l eq\n61" + ranks + b"\n"), "(l=a)"
    yield "a key of all ranks and one more", files_of(few, data, b"slot l eq\n61" + ranks + b" 3000\n"), "(!(l=a))"


def files_of(conf, dump, slots):
    """The files of a folder whose index text has these lines of slots."""
    stamp = hashlib.sha256(dump).hexdigest().encode()
    head = b"slapindex 1 %d %b\n" % (dump.count(b"dn: "), stamp)
    return {"dir.conf": conf, "data.ldif": dump, "index.txt": head + slots + b"end\n"}


def filters():
    """-> (what it is, a filter)"""
    yield "a value over 64 KiB", "(cn=" + "a" * 70000 + ")"
    yield "a value over 64 KiB in escapes", "(cn=" + "\\61" * 30000 + ")"
    yield "5,000 pieces", "(cn=" + "*".join("ab" * 4 for _ in range(5000)) + ")"
    yield "9,000 items", "(|" + "".join(f"(cn={number})" for number in range(9000)) + ")"
    yield "9,000 items and a fault", "(|" + "".join(f"(cn={number})" for number in range(9000)) + "(cn)"
    for depth in (511, 512, 513):
        yield f"{depth} deep", "(!" * (depth - 1) + "(cn=a)" + ")" * (depth - 1)


def with_lines(lines, data=SUFFIX):
    return {"dir.conf": CONF, "data.ldif": data, "in": lines}


def long_lines():
    """-> (what it is, the files before, the words of search)"""
    long = b"x" * 10_000_000
    data = texts([SUFFIX, entry(b"cn=a,dc=ex", b"l: " + long + b"\n"), entry(b"cn=b,dc=ex")])
    yield "a line of 10 MB that is there", with_lines(long + b"\n" + long[1:] + b"\r\n" + long, data), ["(l=%s)", "1.1"]
    yield "a line of 10 MB that isn't there", with_lines(b"a\n" + long + b"\r\nb", data), ["(cn=%s)", "1.1"]
    yield "a line of 10 MB with a fault at its end", with_lines(long + b"(\na\n", data), ["-c", "-v", "(cn=%s)", "1.1"]
    yield "a line of 10 MB with a fault at its beginning", with_lines(b"(" + long + b"\na\n", data), ["-c", "-v", "(cn=%s)", "1.1"]
    yield "a line of 10 MB that is the filter", with_lines(b"(l=" + long + b")", data), ["--count"]
    yield "a line of 10 MB without an equals sign", with_lines(long + b"\ncn=a\n", data), ["-c", "1.1"]
    yield "a line of 10 MB in CRs", with_lines(b"\r" * 10_000_000 + b"\n" + b"\r" * 10_000_000, data), ["(cn=%s)", "1.1"]
    yield "a line of 1 MB in pieces", with_lines(b"ab*" * 333_333 + b"\n*x*" + b"x*" * 500_000, data), ["(l=%s)", "1.1"]
    yield "a line of 1 MB in escapes", with_lines(b"\\78" * 333_333 + b"\n", data), ["(l=*%s*)", "1.1"]
    yield "a line of 100,000 items", with_lines(b"(cn=no)" * 100_000 + b"(cn=b)\n" + b"(cn=no)" * 100_000 + b"(cn)\n", data), ["(|%s)", "1.1"]


def many_lines():
    """-> (what it is, the files before, the words of search)"""
    numbers = range(1_000_000)
    some = b"".join(b"%d\n" % (number % 1000) for number in numbers)
    data = texts([SUFFIX] + [entry(b"cn=%d,dc=ex" % number) for number in range(10)])
    yield "a million lines", with_lines(some, data), ["--count", "(cn=%s)"]
    yield "a million lines, and their entries", with_lines(some, data), ["(cn=%s)", "1.1"]
    yield "a million lines that end with CR LF", with_lines(some.replace(b"\n", b"\r\n"), data), ["--count", "(cn=%s)"]
    yield "a million lines that are empty", with_lines(b"\n" * 1_000_000, data), ["--count", "(cn=%s)"]
    yield "a million lines and a fault at their end", with_lines(some + b"(", data), ["--count", "-v", "(cn=%s)"]
    yield "100,000 lines with a fault", with_lines(b"(\n" * 100_000, data), ["-c", "(cn=%s)"]
    yield "a million lines behind a fault", with_lines(b"(\n" + some, data), ["(cn=%s)"]
    few, ranks = CONF.split(b"index")[0] + b"index cn eq\n", range(1, 3000)
    dump = texts([SUFFIX] + [entry(b"cn=%04d,dc=ex" % rank, b"cn: %04d\n" % rank) for rank in ranks]) + b"\n"
    keys = b"".join(b"%b %d\n" % ((b"%04d" % rank).hex().encode(), rank) for rank in ranks)
    padded = b"".join(b"%04d\n" % (number % 1000 * 4) for number in numbers)
    yield "a million lines by an index", {**files_of(few, dump, b"slot cn eq\n" + keys), "in": padded}, ["--count", "(cn=%s)"]
    lies = keys.replace(b" 4\n", b" 5\n")
    yield "a million lines by an index that lies", {**files_of(few, dump, b"slot cn eq\n" + lies), "in": padded}, ["--count", "(cn=%s)"]
    data = texts([SUFFIX] + [entry(b"cn=%d,dc=ex" % number, b"l: all\n") for number in range(5000)])
    for what, options in [("", []), (" but one", ["-c", "-z", "5000"]), (", of which one is printed", ["-c", "-z", "1"]),
                          (", of which one is counted", ["-c", "-z", "1", "--count"]), (" but one, which ends the command", ["-z", "5000"])]:
        yield f"lines that find 5,001 entries{what}", with_lines(b"dc=ex\nl=all\nl=*\n&\n" * 5, data), [*options, "(|(objectClass=*)(%s))"]


def differing():
    """-> (what it is, two texts of content records)"""
    sn = [b"sn: value %d\n" % number for number in range(10000)]
    members = [b"l: member %d\n" % number for number in range(10000)]
    both = [
        ("10,000 values in reverse order", sn, sn[::-1]), ("the first of 10,000 values goes to the end", sn, sn[1:] + sn[:1]),
        ("the last of 10,000 values goes to the front", sn, sn[-1:] + sn[:-1]), ("10,000 values in another case", sn, [line.replace(b"v", b"V") for line in sn]),
        ("10 of 10,000 values change", members, members[:5000] + members[5005:] + [b"l: new %d\n" % number for number in range(5)]),
        ("half of 10,000 values go", sn, sn[::2]), ("one more than half of 10,001 values stay", sn + [b"sn: more\n"], sn[::2] + [b"sn: more\n"]),
        ("a value over 64 KiB changes at its end", [b"sn: " + b"z" * 70000 + b"a\n"], [b"sn: " + b"z" * 70000 + b"b\n"]),
        ("a value over 64 KiB in another case", [b"sn: " + b"z" * 70000 + b"\nsn: a\nsn: b\n"], [b"sn: a\nsn: b\nsn: " + b"Z" * 70000 + b"\n"])]
    for what, one, other in both:
        yield what, *(texts([SUFFIX, entry(b"cn=a,dc=ex", b"".join(lines))]) for lines in (one, other))
    few, all_of_them = [SUFFIX], [SUFFIX] + [entry(b"cn=%d,dc=ex" % number) for number in range(5000)]
    some = [entry(b"cn=%d,dc=ex" % number, b"sn: s\n" * (number % 3 == 0)) for number in range(5000) if number % 7]
    yield "5,000 entries come", texts(few), texts(all_of_them)
    yield "5,000 entries go", texts(all_of_them), texts(few)
    yield "of 5,000 entries some go and some change", texts(all_of_them), texts([SUFFIX] + some)
    names = list(chain(40, 3))
    respelled = [b"dc=ex"]
    for name in names:
        rdn = name.partition(b",")[0].split(b"+")
        respelled.append(b"+".join(rdn[::-1]) + b"," + respelled[-1])
    yield "40 RDNs in another order", *(texts([SUFFIX] + [entry(name) for name in some_names]) for some_names in (names, respelled[1:]))
    long = b"x" * 70000
    yield "an RDN over 64 KiB in another case", *(texts([SUFFIX, entry(b"cn=" + name + b",dc=ex")]) for name in (long, long.upper()))
    big = texts([SUFFIX] + [entry(b"cn=%d,dc=ex" % number, b"sn: " + b"z" * 70000 + b"\n") for number in range(20)])
    yield "a text over 1 MiB with a fault at its end", texts(few), big + b"\nfoo\n"
    yield "a text over 1 MiB that breaks off", big, big[:-35000]


def parts():
    """-> (what it is, two texts of content records, the options of a part)"""
    names = list(chain(40))
    tree, top = texts([SUFFIX] + [entry(name) for name in names]), texts([SUFFIX])
    yield "a branch of 20 RDNs comes without what is above it", top, tree, ["-b", names[20]]
    yield "a branch of 20 RDNs goes", tree, top, ["-b", names[20]]
    yield "40 RDNs go but for the last one", tree, top, ["-a", b"(!(" + names[-1].partition(b",")[0] + b"))"]
    numbers = range(5000)
    old, new = (texts([SUFFIX] + [entry(b"cn=%d,dc=ex" % number, b"sn: %d\n" % (number % most)) for number in numbers]) for most in (7, 5))
    yield "one of 5,000 entries", old, new, ["-b", "cn=4999,dc=ex"]
    yield "a part of 5,000 entries", old, new, ["-a", "(sn=6)"]
    yield "a part of 5,000 entries, as sets", old, new, ["-a", "(!(sn=4))", "--unordered"]
    yield "a name over 64 KiB", old, new, ["-b", b"cn=" + b"x" * 70000 + b",dc=ex"]


def types_that_differ():
    """-> (what it is, a dir.conf, two texts): entries of 3,000 types, so that comments are long"""
    numbers = range(3000)
    conf = CONF + b"".join(b"attributetype ( 1.4.%d NAME 't%d' SUP cn )\n" % (number, number) for number in numbers)
    lines = [b"t%d: v\n" % number for number in numbers]
    for what, one, other in [
            ("3,000 types in reverse order", lines, lines[::-1]), ("3,000 types go", lines, []), ("3,000 types come", [], lines),
            ("every second of 3,000 types goes", lines, lines[::2]), ("3,000 types get a value", lines, [line + line.replace(b"v", b"w") for line in lines])]:
        yield what, conf, *(texts([SUFFIX, entry(b"cn=a,dc=ex", b"".join(some))]) for some in (one, other))


def checked():
    """-> (what it is, the files before, the options of check)"""
    conf = CONF + b"attributetype ( 1.3.98 NAME 'member' EQUALITY distinguishedNameMatch SYNTAX 1.3.6.1.4.1.1466.115.121.1.12 )\n"
    numbers = range(10000)
    people = [entry(b"cn=%d,dc=ex" % number, b"l: %d\nsn: %d\nmember: cn=%d,dc=ex\n" % (number, number % 700, number * 3)) for number in numbers]
    some = {"dir.conf": conf, "data.ldif": texts([SUFFIX] + people)}
    yield "10,000 entries that share values, and of which two thirds name no entry", some, ["--unique", "sn,objectClass,l"]
    yield "10,000 references, of which none is meant", some, ["--references", "sn", "--unique", "l"]
    yield "the same types 5,000 times", some, ["--unique", "l,sn," * 5000 + "l"]
    long, names = b"x" * 100001, list(chain(40, 3))
    for what, lines in [("over 64 KiB", b"l: " + long + b"\nmember: cn=" + long + b",dc=ex\n"),
                        ("over 64 KiB in base64", b"photo:: " + base64.b64encode(long + b"\n") + b"\nmember:: " + base64.b64encode(b"cn=\n" + long + b",dc=ex") + b"\n"),
                        ("of 5,000 parts", b"".join(b"l: %d\nmember: cn=%d,dc=ex\n" % (number, number) for number in range(5000))),
                        ("of 40 RDNs", b"".join(b"member: " + name + b"\n" for name in names))]:
        both = texts([SUFFIX, entry(b"cn=a,dc=ex", lines), entry(b"cn=b,cn=a,dc=ex", lines.replace(b"l: x", b"l: X"))])
        yield f"values {what}", {"dir.conf": conf, "data.ldif": both}, ["--unique", "photo,l,member"]
    yield "a name over 64 KiB", {"dir.conf": conf, "data.ldif": texts([SUFFIX, entry(b"cn=" + long + b",dc=ex", b"member: cn=b,dc=ex\n")])}, ["--unique", "objectClass"]
    yield "10,000 records that are refused", {"dir.conf": conf, "data.ldif": texts(people)}, ["--unique", "sn"]
    yield "1,000 faults of a dir.conf", {"dir.conf": b"overlay x\n" * 500 + conf + b"index none eq\n" * 500, "data.ldif": SUFFIX}, []


def turned(text):
    """A text whose last record comes first."""
    return b"\n\n".join(text.rstrip(b"\n").split(b"\n\n")[::-1]) + b"\n"


def unsorted():
    """-> (what it is, a text)"""
    for what, text in content():
        yield what, text
        yield f"{what}, turned around", turned(text)
    numbers, names = range(5000), list(chain(300))
    few = [entry(b"cn=%d,dc=ex" % number) for number in numbers]
    yield "5,000 records above which one comes last", texts(few + [SUFFIX])
    yield "one above 5,000 records, and as many of its name, by turns", texts([record for one in few for record in (one, SUFFIX)])
    yield "5,000 pairs, the lower one first", texts([record for number in numbers for record in (entry(b"cn=x,cn=%d" % number), entry(b"cn=%d" % number))])
    yield "a chain of 300 RDNs by turns from both ends", texts([entry(name) for pair in zip(names, names[::-1]) for name in pair])
    yield "5,000 records of one name in other words", texts([entry(b"cn=%ba%b, DC = ex" % (b" " * number, b"\\20" * (number % 7))) for number in numbers] + [SUFFIX])
    yield "comments and empty lines over 1 MiB", b"# a\n\n" * 300000 + entry(b"cn=a,dc=ex") + b"\n" * (1 << 20) + SUFFIX + b"\n# b" * 300000
    yield "a version behind comments over 1 MiB", b"# a\n\n" * 300000 + b"ver\n sion:\n" + b"  \n" * 1000 + b" 1\n" + b"\n" * (1 << 20) + turned(texts([SUFFIX] + few))


def runs():
    """-> (what it is, the files before, the words behind the folder's option)"""
    for what, text in unsorted():
        yield what, {"in": text}, "sort", ["-l", "db/in"]
    for what, text in content():
        yield what, {"dir.conf": CONF, "in": text}, "slapadd", ["-c", "-l", "db/in"]
    for what, text in changes():
        yield what, {"dir.conf": CONF, "data.ldif": SUFFIX, "in": text}, "ldapmodify", ["-c", "-f", "db/in"]
    for what, conf, name in confs():
        for command in ("slapcat", "slapindex"):
            yield what, {"dir.conf": conf, "data.ldif": SUFFIX.replace(b"top", name)}, command, []
    for what, text in indexed():
        yield what, {"dir.conf": CONF, "data.ldif": text, "index.txt": b"old"}, "slapindex", []
    for what, files, text in index_texts():
        yield what, files, "search", [text, "1.1"]
    for what, files, words in itertools.chain(long_lines(), many_lines()):
        yield what, files, "search", ["-f", "db/in", *words]
    for what, conf, one, other in [(what, CONF, *both) for what, *both in differing()] + list(types_that_differ()):
        for options in ([], ["--unordered"]):
            yield what, {"dir.conf": conf, "data.ldif": one, "in": other}, "ldifdiff", ["-v", "-l", "db/in", *options]
    for what, one, other, options in parts():
        yield what, {"dir.conf": CONF, "data.ldif": one, "in": other}, "ldifdiff", ["-v", "-l", "db/in", *options]
    for what, text in content():
        yield what, {"dir.conf": CONF, "data.ldif": text}, "check", ["--unique", "photo,sn,l"]
    for what, conf, name in confs():
        yield what, {"dir.conf": conf, "data.ldif": SUFFIX.replace(b"top", name)}, "check", []
    for what, files, _ in index_texts():
        # the second reading makes one of 100 MB in minutes
        if len(files["index.txt"]) < 1 << 24:
            yield what, files, "check", []
    for what, files, options in checked():
        yield what, files, "check", options
    data = texts([SUFFIX] + [entry(b"cn=%d,dc=ex" % number) for number in range(50)] + [entry(b"cn=" + b"a" * 70000 + b",dc=ex")])
    for what, text in filters():
        yield what, {"dir.conf": CONF, "data.ldif": data}, "slapcat", ["-a", text]
        yield what, {"dir.conf": CONF, "data.ldif": data}, "search", [text]
        yield what, {"dir.conf": CONF, "data.ldif": data, "in": SUFFIX}, "ldifdiff", ["-l", "db/in", "-a", text]


def outcome(program, home, files, command, words):
    """-> (status, output, messages, the files afterwards) of a run over a new folder db"""
    with tempfile.TemporaryDirectory(dir=home) as work:
        db = Path(work) / "db"
        db.mkdir()
        for name, text in files.items():
            (db / name).write_bytes(text)
        folder = [] if command == "sort" else ["--db", "db"]
        done = subprocess.run([program, command, *folder, *words], cwd=work, capture_output=True, timeout=300)
        return done.returncode, done.stdout, done.stderr, {path.name: path.read_bytes() for path in db.iterdir()}


def main():
    program = Path(sys.argv[1]).resolve()
    count = differences = 0
    with tempfile.TemporaryDirectory() as home:
        for what, files, command, words in runs():
            count += 1
            both = [outcome(run, home, files, command, words) for run in (program, READING)]
            if both[0] != both[1] or b"memory" in both[0][2]:
                differences += 1
                print(f"{command}, {what}:", *(summary(*each) for each in both), sep="\n  ")
    print(f"{count} large runs, {differences} different")
    return 1 if differences else 0


def summary(status, output, messages, files):
    sizes = ", ".join(f"{name} {len(text)}" for name, text in sorted(files.items()))
    return f"status {status}, {len(output)} bytes, {messages[:200]}; {sizes}"


if __name__ == "__main__":
    sys.exit(main())
