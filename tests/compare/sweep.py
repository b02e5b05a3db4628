#!/usr/bin/env python3
"""Reads a dir.conf, a dump, an index text, records, a text to sort and a filter that have all forms, broken at each byte, by a built program and by a
second reading: sweep.py PROGRAM [--all]

Each beginning of a text, and each single byte changed into others (with --all: into all that it may be), is a dir.conf of its own, with no data.ldif;
a data.ldif of its own; an index.txt of its own, by which a few entries are searched; an input of slapadd, ldapmodify or ldifdiff of its own, over a
few entries; a file of a folder that check looks at; an input of sort; or a filter of its own over a few entries. What the commands answer, print, say
and store must be what `model.py` says, byte for byte: a configuration, a directory and its index, or numbered faults with their lines; entries or a
fault at a place. Prints each difference and at the end the number of texts; the exit status is 0 where nothing differs, else 1.
"""
import argparse
import collections
import concurrent.futures
import functools
import os
import subprocess
import sys
import tempfile
from pathlib import Path

import checks
import differences
import model
import sorting

CONF = b"""\
# all fields
suffix "ou=a\\2Cb+cn=c,dc=ex"
attributetype ( 2.5.4.41 NAME 'name' DESC 'text' EQUALITY caseIgnoreMatch ORDERING caseIgnoreOrderingMatch
\tSUBSTR caseIgnoreSubstringsMatch SYNTAX 1.3.6.1.4.1.1466.115.121.1.15{32768} X-ORIGIN ( 'a' 'b' ) )
attributetype ( 2.5.4.3 NAME ( 'cn' 'commonName' ) SUP name )
attributetype ( 2.5.4.11 NAME 'ou' SUP 'name' OBSOLETE )
attributetype ( 1.3.1 NAME 'dc' EQUALITY caseIgnoreIA5Match SYNTAX '1.3.6.1.4.1.1466.115.121.1.26' SINGLE-VALUE )

attributetype ( 1.3.2 NAME 'n' EQUALITY integerMatch ORDERING integerOrderingMatch SYNTAX 1.3.6.1.4.1.1466.115.121.1.27
  NO-USER-MODIFICATION USAGE dSAOperation )
attributetype ( 1.3.3 NAME 'm' EQUALITY distinguishedNameMatch SYNTAX 1.3.6.1.4.1.1466.115.121.1.12 )
objectclass ( 1.4.1 NAME 'one' DESC 'c' SUP top STRUCTURAL MUST cn MAY ( ou $ n $ 1.3.1 ) X-A 'x' )
objectclass ( 1.4.2 NAME ( 'two' 'zwei' ) OBSOLETE SUP ( one $ 'top' ) AUXILIARY MUST ( cn $ m ) )
index cn,2.5.4.11 eq,pres,sub
INDEX m eq
"""

OTHERS = b"\0\t\n\r \"#$'(),09;=Az{}\x80\xff"

FILTER = rb"(&(|(cn=ab)(!(cn:caseExactMatch:=x\2a\28y))(cn=*) (commonName=a*b**c\2A*))(n>=-12)(n<=7)(!(2.5.4.41~=B))" \
    rb"(|(:dn:=z)(ou:dn:2.5.13.2:=q)(cn;lang-de=x)(dc:=ex)(n=5)(|))(m=cn=x\5c,y,dc=ex)(objectClass=*)(|(!(ou=))(cn=a*)(&)" \
    rb"(:caseIgnoreMatch:=a)(cn=*b)(cn=\c3\a4*)(ou=*r\20*)(&(n=5)(!(n=6)))(1.3.2=5)(!(x<=1))(x>=)(!(m:=,))))"

FILTER_OTHERS = [bytes([b]) for b in b"\t\n !#&()*+,-.0:;<=>A\\a|~\x7f"] + ["\u00e9".encode(), "\U0001f600".encode()]

FILTER_CONF = b"\n".join(line for line in CONF.splitlines() if not line.upper().startswith(b"INDEX")).replace(b"ou=a\\2Cb+cn=c,dc=ex", b"dc=ex")

FILTER_DATA = b"dn: dc=ex\nobjectClass: one\ncn: ab\n\n" + b"".join(
    b"dn: cn=%s,dc=ex\nobjectClass: two\nn: %d\nm: cn=x\\2Cy,dc=ex\nou: q r\n\n" % (name, n)
    for name, n in [(b"ab", 5), (b"a b c*", 7), (b"\xc3\xa4", -12), (b"x*(y", 6)])


RECORD_OTHERS = b"\0\n\r #+,-:;<=0Aa\\\x80"

ENTRIES_CONF = b"""\
suffix "dc=ex"
attributetype ( 0.9.2342.19200300.100.1.25 NAME 'dc' EQUALITY caseIgnoreMatch SYNTAX 1.3.6.1.4.1.1466.115.121.1.15 SINGLE-VALUE )
attributetype ( 2.5.4.3 NAME ( 'cn' 'commonName' ) EQUALITY caseIgnoreMatch SUBSTR caseIgnoreSubstringsMatch
  SYNTAX 1.3.6.1.4.1.1466.115.121.1.15 )
attributetype ( 2.5.4.13 NAME 'description' EQUALITY caseIgnoreMatch SYNTAX 1.3.6.1.4.1.1466.115.121.1.15 )
attributetype ( 1.3.6.1.1.1.1.0 NAME 'uidNumber' EQUALITY integerMatch SYNTAX 1.3.6.1.4.1.1466.115.121.1.27 SINGLE-VALUE )
attributetype ( 2.5.4.49 NAME 'member' EQUALITY distinguishedNameMatch SYNTAX 1.3.6.1.4.1.1466.115.121.1.12 )
objectclass ( 0.9.2342.19200300.100.4.13 NAME 'domain' SUP top STRUCTURAL MUST dc )
objectclass ( 2.5.6.6 NAME 'person' SUP top STRUCTURAL MUST cn MAY ( description $ uidNumber $ member ) )
index cn eq,pres,sub
index member eq
"""

DUMP = b"""\
dn: dc=ex
objectClass: domain
dc: ex

dn: cn=aba,dc=ex
objectClass: person
cn: aba
description:: w6Qg
description: fol
 ded

dn: cn=Bob\\, B,dc=ex
objectClass: person
uidNumber: 7
member: cn=aba,dc=ex
cn: Bob, B

dn: cn=x,cn=aba,dc=ex
objectClass: person
cn: x

"""

ADDED = b"""\
version: 1

dn: cn=a,dc=ex
# note
 more
cn: a
description: fol
 ded
objectClass: person

dn:: Y249YixjbjE9YQ==
objectClass: person

dn: cn=b,cn=a,dc=ex
changetype: add
objectClass: person
cn:: YiA=
uidNumber: -7
"""

CHANGED = b"""\
dn: cn=aba,dc=ex
changetype: modify
add: description
description: x
-
delete: description
description: folded
-
replace: uidNumber
uidNumber: 8
-

dn: cn=x,cn=aba,dc=ex
changetype: modrdn
newrdn: cn=y
deleteoldrdn: 1
newsuperior: dc=ex

dn: cn=Bob\\2C B,dc=ex
control: 1.2.3 false: a
changetype: delete

dn: cn=n,dc=ex
changetype: add
objectClass: person
member: cn=a,dc=ex
"""

OTHER = b"""\
version: 1

dn: dc=ex
objectClass: domain
dc: ex

dn: cn=ABA,dc=ex
# note
objectClass: person
cn: aba
description: folded
description:: w6Qg
uidNumber: 8

dn: cn=n\\2C,cn=aba,dc=ex
objectClass: person
member: cn=x,cn=a
 ba,dc=ex
cn: n,
"""


UNSORTED = b"""\
# note
version: 1

dn: cn=b+ou=X,ou=a,dc=ex
# note
 more
cn: b


dn:: b3U9YSxkYz1leA==
cn:: YiA=

dn: cn=a,OU = x + cn=\\42,ou=
  A,dc=ex
objectClass: x

dn: cn=n,dc=ex
changetype: add

# last

dn: DC=ex
description: fol
 ded"""

# in a dir.conf of which each fault is told
FAULT_OTHERS = b"\n #()'ax"

INDEX = model.slapindex(ENTRIES_CONF, DUMP, "")[2]["index.txt"]

INDEX_OTHERS = b"\0\n\r -0129:Aafg\x80\xff"

INDEX_FILTER = b"(|(&(cn=*ba*)(!(cn=Bob, B)))(member=cn=a,dc=ex)(!(cn=*)))"


def broken(text, others):
    """each beginning of a text, and the text with each byte changed"""
    for end in range(len(text) + 1):
        yield text[:end]
    for at, old in enumerate(text):
        for new in others:
            if new != bytes([old]):
                yield text[:at] + new + text[at + 1:]


def conf_answers(program, home, text):
    """-> (what the program answers to a dir.conf, what the second reading answers)"""
    db = home / str(os.getpid())
    db.mkdir(exist_ok=True)
    (db / "dir.conf").write_bytes(text)
    done = subprocess.run([program, "slapindex", "--db", db], capture_output=True, timeout=10)
    stored = {path.name: path.read_bytes() for path in db.iterdir() if path.name != "dir.conf"}
    for name in stored:
        (db / name).unlink()
    status, messages, wanted = model.slapindex(text, None, db)
    return (done.returncode, done.stdout, done.stderr, stored), (status, b"", messages, wanted)


def dump_answers(program, home, text):
    """-> (what the program answers to a data.ldif, what the second reading answers)"""
    db = home / f"dump{os.getpid()}"
    db.mkdir(exist_ok=True)
    (db / "dir.conf").write_bytes(ENTRIES_CONF)
    (db / "data.ldif").write_bytes(text)
    done = subprocess.run([program, "slapcat", "--db", db], capture_output=True, timeout=10)
    return (done.returncode, done.stdout, done.stderr), model.slapcat(ENTRIES_CONF, text, db)


def index_answers(program, home, text):
    """-> (what a search answers by an index.txt, what the second reading answers)"""
    db = home / f"index{os.getpid()}"
    db.mkdir(exist_ok=True)
    for name, content in [("dir.conf", ENTRIES_CONF), ("data.ldif", DUMP), ("index.txt", text)]:
        (db / name).write_bytes(content)
    done = subprocess.run([program, "search", "--db", db, INDEX_FILTER], capture_output=True, timeout=10)
    return (done.returncode, done.stdout, done.stderr), model.search(ENTRIES_CONF, DUMP, db, [INDEX_FILTER], index=text)


def record_answers(command, second, program, home, text):
    """-> (what the program answers to records, and stores, what the second reading answers)"""
    db = home / f"records{os.getpid()}"
    db.mkdir(exist_ok=True)
    before = {"dir.conf": ENTRIES_CONF, "data.ldif": DUMP}
    for name, content in before.items():
        (db / name).write_bytes(content)
    done = subprocess.run([program, command, "--db", db, "-c"], input=text, capture_output=True, timeout=10)
    stored = {path.name: path.read_bytes() for path in db.iterdir()}
    (db / "index.txt").unlink(missing_ok=True)
    status, messages, wanted = second(ENTRIES_CONF, DUMP, text, go_on=True, dry_run=False, folder=db, source="input")
    return (done.returncode, done.stdout, done.stderr, stored), (status, b"", messages, {**before, **wanted})


ADD_ANSWERS = functools.partial(record_answers, "slapadd", model.slapadd)
CHANGE_ANSWERS = functools.partial(record_answers, "ldapmodify", functools.partial(model.ldapmodify, add_default=False))


def other_answers(program, home, text):
    """-> (what ldifdiff answers to content records, what the second reading answers)"""
    db = home / f"other{os.getpid()}"
    db.mkdir(exist_ok=True)
    (db / "dir.conf").write_bytes(ENTRIES_CONF)
    (db / "data.ldif").write_bytes(DUMP)
    done = subprocess.run([program, "ldifdiff", "--db", db], input=text, capture_output=True, timeout=10)
    return (done.returncode, done.stdout, done.stderr), differences.ldifdiff(ENTRIES_CONF, DUMP, text, db, "input")


def check_answers(name, program, home, text):
    """-> (what check reports where a file of this name has this text, what the second reading does)"""
    db = home / f"check{os.getpid()}"
    db.mkdir(exist_ok=True)
    files = {"dir.conf": ENTRIES_CONF, "data.ldif": DUMP, "index.txt": INDEX, name: text}
    for one, content in files.items():
        (db / one).write_bytes(content)
    done = subprocess.run([program, "check", "--db", db, "--unique", "objectClass,description"], capture_output=True, timeout=10)
    return (done.returncode, done.stdout, done.stderr), checks.check(*files.values(), db, b"objectClass,description")


def sort_answers(program, home, text):
    """-> (what sort answers to a text, what the second reading answers), and the laws that don't hold of it"""
    done = subprocess.run([program, "sort"], input=text, capture_output=True, timeout=10)
    return (done.returncode, done.stdout, done.stderr, sorting.broken_laws(text, done.stdout)), (*sorting.sort(text, "input"), [])


def filter_answers(program, home, text):
    """-> (what the program answers to a filter, what the second reading answers)"""
    db = home / f"filter{os.getpid()}"
    db.mkdir(exist_ok=True)
    (db / "dir.conf").write_bytes(FILTER_CONF)
    (db / "data.ldif").write_bytes(FILTER_DATA)
    # a hyphen in front would be an option
    text = text.replace(b"-", b" -", 1) if text.startswith(b"-") else text
    done = subprocess.run([program, "slapcat", "--db", db, "-a", text], capture_output=True, timeout=10)
    return (done.returncode, done.stdout, done.stderr), model.slapcat(FILTER_CONF, FILTER_DATA, db, text)


def compared(work):
    """a batch of texts -> (how many are told to be what, the texts that differ)"""
    answers, program, home, batch = work
    told, different = collections.Counter(), []
    for text in batch:
        seen, wanted = answers(program, home, text)
        status, output, said, *stored = seen
        what = said.split(b":")[1].strip().split(b" at ")[0] if status == 2 else b"%d, with%s output" % (status, b"" if output else b"out")
        what += b", %s" % said.split(b": ")[1].strip() if status == 0 and said else b""
        what += b", %d slots" % stored[0]["index.txt"].count(b"\nslot ") if stored and "index.txt" in stored[0] else b""
        told[what] += 1
        if seen != wanted:
            different.append((text, seen, wanted))
    return told, different


def main():
    words = argparse.ArgumentParser(description=__doc__.splitlines()[0])
    words.add_argument("program", type=Path)
    words.add_argument("--all", action="store_true")
    words = words.parse_args()
    all_bytes = [bytes([b]) for b in range(256)]
    sweeps = [
        (conf_answers, list(broken(CONF, all_bytes if words.all else [bytes([b]) for b in OTHERS]))),
        *((answers, list(broken(text, all_bytes if words.all else [bytes([b]) for b in RECORD_OTHERS])))
          for answers, text in [(dump_answers, DUMP), (ADD_ANSWERS, ADDED), (CHANGE_ANSWERS, CHANGED), (other_answers, OTHER), (sort_answers, UNSORTED)]),
        (index_answers, list(broken(INDEX, all_bytes if words.all else [bytes([b]) for b in INDEX_OTHERS]))),
        *((functools.partial(check_answers, name), list(broken(text, all_bytes if words.all else [bytes([b]) for b in others])))
          for name, text, others in [("dir.conf", ENTRIES_CONF, FAULT_OTHERS), ("data.ldif", DUMP, RECORD_OTHERS), ("index.txt", INDEX, INDEX_OTHERS)]),
        (filter_answers, list(broken(FILTER, all_bytes[1:128] + FILTER_OTHERS[-2:] if words.all else FILTER_OTHERS))),
    ]
    told, different = collections.Counter(), []
    with tempfile.TemporaryDirectory() as home, concurrent.futures.ProcessPoolExecutor() as pool:
        batches = [(answers, words.program.resolve(), Path(home), every[at:at + 500]) for answers, every in sweeps for at in range(0, len(every), 500)]
        for part, others in pool.map(compared, batches):
            told.update(part)
            different += others
    for text, seen, wanted in different[:3]:
        print(f"{text!r}\n  seen   {seen}\n  wanted {wanted}")
    for what, count in sorted(told.items()):
        print(f"{count:7} {what.decode(errors='replace')}")
    print(f"{sum(len(every) for _, every in sweeps)} texts, {len(different)} with a difference")
    return 1 if different else 0


if __name__ == "__main__":
    sys.exit(main())
