#!/usr/bin/env python3
"""Times checks of a directory: checks.py PROGRAM [PEOPLE]

People (people.py, 100,000 by default) under the dir.conf and the index lines of indexes.py, with a group of 100 members for each 100 of them. For each
line below the best seconds of five rounds, in which the commands take turns, and those in times of the other command; then the peak memory (GNU time)
of check in times of that of slapindex. That nothing is wrong is looked at. The status is 1 where something takes more than we want.

  check                           beside slapindex
  what --unique of three types adds    beside slapcat
"""
import random
import shutil
import subprocess
import sys
import tempfile
from pathlib import Path

from indexes import HERE, indexed, measured

ROUNDS = 5
MEMBERS = 100
MEMBER = "attributetype ( 2.5.4.31 NAME 'member' EQUALITY distinguishedNameMatch SYNTAX 1.3.6.1.4.1.1466.115.121.1.12 )\n"
UNIQUE = "uid,mail,employeeNumber"
# At most so many times the other command.
MOST_CHECK, MOST_UNIQUE, MOST_MEMORY = 1.6, 0.4, 1.3


def with_groups(people):
    """The records of people, and of groups of them behind."""
    names = [line.removeprefix(b"dn: ") for line in people.split(b"\n") if line.startswith(b"dn: uid=")]
    chosen = random.Random(1)
    yield people
    for number in range(len(names) // MEMBERS):
        yield b"dn: cn=group%d,dc=example,dc=com\nobjectClass: groupOfNames\ncn: group%d\n" % (number, number)
        yield b"".join(b"member: %s\n" % name for name in chosen.sample(names, MEMBERS))
        yield b"\n"


def main(program, people="100000"):
    with tempfile.TemporaryDirectory() as work:
        folder, peak = Path(work) / "db", Path(work) / "peak"
        folder.mkdir()
        (folder / "dir.conf").write_text(indexed((HERE / "dir.conf").read_text().rstrip("\n") + "\n" + MEMBER))
        text = subprocess.run([sys.executable, HERE / "people.py", people], stdout=subprocess.PIPE, check=True).stdout
        (Path(work) / "all.ldif").write_bytes(b"".join(with_groups(text)))
        subprocess.run([program, "slapadd", "--db", folder, "-l", Path(work) / "all.ldif"], check=True)
        commands = {"slapindex": ["slapindex"], "slapcat": ["slapcat", "-l", Path(work) / "dump"], "check": ["check"], "unique": ["check", "--unique", UNIQUE]}
        best = {}
        for _ in range(ROUNDS):
            for name, (command, *options) in commands.items():
                seconds, memory = measured([program, command, "--db", folder, *options], peak)
                best[name] = min(best.get(name, (seconds, memory)), (seconds, memory))
        check = best["check"][0] / best["slapindex"][0]
        unique = (best["unique"][0] - best["check"][0]) / best["slapcat"][0]
        memory = best["check"][1] / best["slapindex"][1]
        print(f"check: {best['check'][0]:.2f} s, {check:.2f}x slapindex")
        print(f"--unique {UNIQUE}: {best['unique'][0] - best['check'][0]:.2f} s more, {unique:.2f}x slapcat")
        print(f"memory: {best['check'][1]} KB, {memory:.2f}x slapindex")
        return 1 if check > MOST_CHECK or unique > MOST_UNIQUE or memory > MOST_MEMORY else 0


if __name__ == "__main__":
    if shutil.which("time") is None:
        sys.exit("checks.py needs GNU time")
    sys.exit(main(*sys.argv[1:]))
