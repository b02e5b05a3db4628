#!/usr/bin/env python3
"""Times what object classes cost: classes.py PROGRAM [DIR.CONF]

slapadd of 100,000 people (people.py) under DIR.CONF, by default dir.conf and classes.conf, and under its lines without those of
object classes and indexes, seven rounds in turn: the best of each, and the first in times of the second, 1.08 at most. And the seconds
in which a dir.conf of 10,000 classes is read, each but the first two with two superclasses: 1 at most. The status is 1 where one is over.
"""
import subprocess
import sys
import tempfile
import time
from pathlib import Path

HERE = Path(__file__).resolve().parent
program = Path(sys.argv[1]).resolve()
conf = Path(sys.argv[2]).read_text() if len(sys.argv) > 2 else (HERE / "dir.conf").read_text() + (HERE / "classes.conf").read_text()


def without(text, *words):
    """The lines of a configuration but those of these first words, and those that go on from them."""
    kept, keep = [], True
    for line in text.splitlines(True):
        if line[:1] not in " \t":
            keep = not line.lower().startswith(words)
        if keep:
            kept.append(line)
    return "".join(kept)


def seconds(folder, *words):
    start = time.monotonic()
    run = subprocess.run([program, words[0], "--db", folder, *words[1:]], stdin=subprocess.DEVNULL, capture_output=True)
    if run.returncode != 0:
        sys.exit(f"status {run.returncode}: {run.stderr[:200]}")
    return time.monotonic() - start


def lattice(count):
    """Classes in a ladder: each but the first two stands below the two before it."""
    yield 'suffix "dc=ex"\nattributetype ( 0.9.2342.19200300.100.1.25 NAME \'dc\' EQUALITY caseIgnoreMatch SYNTAX 1.3.6.1.4.1.1466.115.121.1.15 )\n'
    for n in range(count):
        above = f"SUP ( c{n - 1} $ c{n - 2} ) " if n > 1 else ""
        yield f"objectclass ( 1.1.{n} NAME 'c{n}' {above}STRUCTURAL MUST dc )\n"


with tempfile.TemporaryDirectory() as work:
    people = Path(work, "people.ldif")
    with people.open("wb") as out:
        subprocess.run(["python3", HERE / "people.py", "100000"], stdout=out, check=True)
    folders = [Path(work, name) for name in ("classes", "none")]
    for folder, text in zip(folders, (without(conf, "index"), without(conf, "index", "objectclass"))):
        folder.mkdir()
        (folder / "dir.conf").write_text(text)
    rounds = []
    for _ in range(7):
        times = []
        for folder in folders:
            (folder / "data.ldif").unlink(missing_ok=True)
            times.append(seconds(folder, "slapadd", "-l", people))
        rounds.append(times)
    checked, unchecked = (min(times[i] for times in rounds) for i in range(2))
    print(f"100,000 people: {checked:.3f} s with classes, {unchecked:.3f} s without, {checked / unchecked:.3f} times")
    ladder = Path(work, "ladder")
    ladder.mkdir()
    (ladder / "dir.conf").write_text("".join(lattice(10000)))
    read = min(seconds(ladder, "slapcat") for _ in range(3))
    print(f"10,000 classes: {read:.3f} s")
    sys.exit(checked / unchecked > 1.08 or read > 1)
