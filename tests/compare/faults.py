#!/usr/bin/env python3
"""Each fault of dir.conf alone, and each two together, by a built program: faults.py PROGRAM

Alone: at the first line, at the last, and with its line continued at each blank. Together: on two lines in both orders, and on one
line where one can have both. What must be reported follows from the order of faults alone: lines answer in their order, those of the
suffix and of indexes after all others; a definition C2, C10, C3, C9, C4, C5, C6; an index line C2, C4, C8. The second reading must say
the same. slapcat and slapindex are asked in turn, and check, which reports every line at fault, and that the suffix is missing where no line
has a good one; none may make a file. Prints each difference and at the end the number of texts; the exit status is 0 where nothing differs, else 1.
"""
import concurrent.futures
import itertools
import os
import subprocess
import sys
import tempfile
from pathlib import Path

import model
from schema import FAULTS, MOST_TYPES

STRING = b"SYNTAX 1.3.6.1.4.1.1466.115.121.1.15"

# good lines, among which a fault stands
GOOD = [
    b"# a small directory",
    b'suffix "o=ex"',
    b"attributetype ( 1.1 NAME 'o' EQUALITY caseIgnoreMatch " + STRING + b" )",
    b"objectclass ( 1.2 NAME 'organization' SUP top MUST o )",
    b"index o eq",
]

# lines that have one fault and no other, wherever they stand
ALONE = {
    "C1": [b"overlay x", b"attributetypes ( 1.9 " + STRING + b" )", b"Suffixes o=ex"],
    "C2": [
        b"attributetype ( 1.9 NAME 'z' )", b"attributetype 1.9", b"attributetype ( 1.9 NAME '9' " + STRING + b" )",
        b"attributetype ( 1.9 NAME 'dn' " + STRING + b" )", b"objectclass ( 1.9 MUST )", b"objectclass ( 1.9 ABSTRACT AUXILIARY )",
        b"attributetype ( 1.9 SUP 'a b' )", b"objectclass ( 1.9 SUP ( top $ '' ) )",
        b"index objectClass", b"index objectClass eq x", b"index objectClass, eq",
    ],
    "C3": [
        b"attributetype ( 1.9 NAME 'objectClass' " + STRING + b" )", b"attributetype ( 1.9 NAME ( 'z' 'Z' ) " + STRING + b" )",
        b"objectclass ( 1.9 NAME 'TOP' )", b"objectclass ( 1.9 NAME ( 'z' 'y' 'z' ) )",
    ],
    "C4": [
        b"attributetype ( 1.9 SUP none )", b"objectclass ( 1.9 SUP none )", b"objectclass ( 1.9 MUST none )",
        b"objectclass ( 1.9 MAY ( objectClass $ none ) )", b"index none eq", b"index objectClass,none eq,pres",
    ],
    "C5": [
        b"attributetype ( 1.9 SUP objectClass " + STRING + b" )", b"attributetype ( 1.9 SUP objectClass EQUALITY integerMatch )",
    ],
    "C6": [b"attributetype ( 1.9 EQUALITY %s %s )" % (rule, STRING) for rule in (b"integerMatch", b"distinguishedNameMatch")],
    "C7": [b"suffix", b"suffix none=ex", b"suffix objectClass", b'suffix ""', b"suffix objectClass=\xff"],
    "C8": [b"index objectClass sub", b"index objectClass eq,approx", b"index objectClass EQ"],
    "C9": [b"attributetype ( 1.9 " + STRING + b" COLLECTIVE )"],
}

# one line with two faults -> which of them answers
OF_DEFINITIONS = {"C3": b"NAME 'objectClass'", "C9": b"COLLECTIVE", "C4": b"SUP none", "C5": b"SUP objectClass", "C6": b"EQUALITY integerMatch"}
ORDER = ["C2", "C10", "C3", "C9", "C4", "C5", "C6"]
OF_INDEXES = [
    (b"index none eq,", "C2"), (b"index none, eq", "C2"), (b"index none eq x", "C2"), (b"index objectClass, sub", "C2"),
    (b"index objectClass approx,", "C2"), (b"index objectClass approx x", "C2"), (b"index none approx", "C4"), (b"index objectClass,none sub", "C4"),
    (b"index none,objectClass sub", "C4"), (b"index o,none pres,approx", "C4"),
]


def is_later(line):
    """Lines of the suffix and of indexes are looked at after all others."""
    return line.split(b" ")[0] in (b"suffix", b"index")


def told(lines, faulty):
    """lines, [(which line, its fault)] -> (the text, [(which line must be reported, with which fault)])"""
    faults = []
    for at, fault in sorted(faulty, key=lambda pair: (is_later(lines[pair[0]]), pair[0])):
        before = b"".join(line + b"\n" for line in lines[:at])
        faults.append((before.count(b"\n") + 1, fault))
    return b"".join(line + b"\n" for line in lines), faults + [(0, "C7")] * (GOOD[1] not in lines)


def definitions():
    """Lines of a type with two of its faults or three -> (line, the one that answers). None has both C4 and C5."""
    for count in (2, 3):
        for faults in itertools.combinations(ORDER, count):
            if {"C4", "C5"} <= set(faults):
                continue
            fields = [OF_DEFINITIONS[fault] for fault in faults if fault in OF_DEFINITIONS]
            form = b"OBSOLETE OBSOLETE" if "C2" in faults else b""
            yield faults, b" ".join([b"attributetype ( 1.9", *fields, form, STRING, b")"]), faults[0]


def texts():
    """-> (the text, [(which line must be reported, with which fault)])"""
    alone = [(line, fault) for fault, lines in ALONE.items() for line in lines]
    for line, fault in alone:
        without = [good for good in GOOD if fault != "C7" or not good.startswith(b"suffix")]
        for at in range(len(without) + 1):
            yield told(without[:at] + [line] + without[at:], [(at, fault)])
        blanks = [at for at, byte in enumerate(line) if byte == 32]
        for at in blanks:
            for end in (b"\n ", b"\n\t", b"\r\n  "):
                yield told(without + [line[:at] + end + line[at + 1:]], [(len(without), fault)])
    yield told(GOOD + [b"suffix o=ex"], [(len(GOOD), "C7")])
    for (one, its), (other, others) in itertools.permutations(alone, 2):
        yield told(GOOD[2:4] + [one, other], [(2, its), (3, others)])
        yield told([one, *GOOD[2:4], other], [(0, its), (3, others)])
    for faults, line, fault in definitions():
        if "C10" not in faults:
            yield told(GOOD + [line], [(len(GOOD), fault)])
    for line, fault in OF_INDEXES:
        yield told(GOOD + [line], [(len(GOOD), fault)])


def full_texts():
    """The same where there are as many types as there may be."""
    # objectClass is a type, too
    full = [b"attributetype ( 2.%d %s )" % (number, STRING) for number in range(MOST_TYPES - 1)]
    last = len(full)
    yield told(full + [b"attributetype ( 1.9 " + STRING + b" )"], [(last, "C10")])
    for faults, line, fault in definitions():
        if "C10" in faults:
            yield told(full + [line], [(last, fault)])
    full_fault = b"attributetype ( 1.8 " + STRING + b" )"
    for fault, lines in ALONE.items():
        # a type's other faults than its form come after C10
        line = lines[0] if fault not in ("C3", "C4", "C5", "C6", "C9") else lines[-1]
        own = fault if not line.startswith(b"attributetype") or fault == "C2" else "C10"
        yield told(full + [line, full_fault], [(last, own), (last + 1, "C10")])
        yield told(full + [full_fault, line], [(last, "C10"), (last + 1, own)])


def differences(work):
    """-> what differs: (the text's last lines, who answers, what was seen, what is wanted)"""
    program, home, batch = work
    with tempfile.TemporaryDirectory(dir=home) as db:
        for number, (text, faults) in enumerate(batch):
            Path(db, "dir.conf").write_bytes(text)
            first, *_ = lines = [f"line {line}: {fault} {FAULTS[fault]}\n" for line, fault in faults]
            wanted = 2, b"", f"dir.conf {first}".encode()
            every = 1, "".join(f"faulty\tdir.conf\t{line}" for line in lines).encode(), b""
            for who, seen, due in [("program", answer(program, ("slapcat", "slapindex")[number % 2], db), wanted),
                                   ("second reading", model.slapcat(text, None, db), wanted), ("check", answer(program, "check", db), every)]:
                if seen != due or os.listdir(db) != ["dir.conf"]:
                    return [(text[-300:], who, seen, due)]
    return []


def answer(program, command, db):
    done = subprocess.run([program, command, "--db", db], capture_output=True, timeout=60)
    return done.returncode, done.stdout, done.stderr


def main():
    program = Path(sys.argv[1]).resolve()
    every = list(texts())
    with tempfile.TemporaryDirectory() as home, concurrent.futures.ProcessPoolExecutor() as pool:
        batches = [(program, home, every[at:at + 100]) for at in range(0, len(every), 100)]
        batches += [(program, home, [text]) for text in full_texts()]
        different = [one for part in pool.map(differences, batches) for one in part]
    for text, who, seen, wanted in different[:5]:
        print(f"{text!r}\n  {who}\n  seen   {seen}\n  wanted {wanted}")
    print(f"{sum(len(batch) for _, _, batch in batches)} texts, {len(different)} batches with a difference")
    return 1 if different else 0


if __name__ == "__main__":
    sys.exit(main())
