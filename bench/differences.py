#!/usr/bin/env python3
"""Times ldifdiff beside slapcat: differences.py PROGRAM [PEOPLE]

Of 100,000 people (people.py) against the same with one in a hundred changed (changes.py mixed), and against themselves; of 20 groups of 10,000
members against the same with 10 members of each changed; all with --unordered, too, and then against groups in reverse order; and of the people of
one unit (-b), and those with one title (-a). For each a line: the seconds of slapcat of the folder and of ldifdiff, the second in times of the first
and the most that it may be, and so for the peak memory in KB: the best of five rounds, in turn. What ldifdiff prints is looked at, too: alike
directories have no changes, each changed member is one line, and ldapmodify with the changes leads to the other directory. The status is 1 where
something is otherwise, or over a bar.
"""
import os
import shutil
import subprocess
import sys
import tempfile
from pathlib import Path

HERE = Path(__file__).resolve().parent
ROUNDS = 5
GROUPS, MEMBERS, CHANGED = 20, 10_000, 5    # members that go, and as many that come
MEMBER = "attributetype ( 2.5.4.31 NAME 'member' EQUALITY distinguishedNameMatch SYNTAX 1.3.6.1.4.1.1466.115.121.1.12 )\n"
WAYS = [], ["--unordered"]
PARTS = ["-b", "ou=Sales,ou=People,dc=example,dc=com"], ["-a", "(title=Clerk)"]
# times of slapcat's seconds, and of its memory
BARS, ALIKE = (2.2, 2.1), (2.05, 2.1)
# of large groups as sets, whose values are looked up in one another
SETS = (4.2, 2.1)


def ran(words, status, output=None, text=None):
    with open(output or os.devnull, "wb") as out:
        done = subprocess.run(words, stdin=text or subprocess.DEVNULL, stdout=out, stderr=subprocess.PIPE)
    if done.returncode != status:
        sys.exit(f"status {done.returncode}: {words} {done.stderr[:200]}")


# a small process, since the peak of one that runs another begins with its own
MEASURE = """
import resource, subprocess, sys, time
with open(sys.argv[1], "wb") as out:
    start = time.monotonic()
    status = subprocess.run(sys.argv[2:], stdin=subprocess.DEVNULL, stdout=out).returncode
    print(status, time.monotonic() - start, resource.getrusage(resource.RUSAGE_CHILDREN).ru_maxrss)
"""


def measured(words, status, output):
    """-> seconds, and the peak memory in KB"""
    found = subprocess.run([sys.executable, "-c", MEASURE, output, *words], capture_output=True, text=True, check=True).stdout.split()
    if int(found[0]) != status:
        sys.exit(f"status {found[0]}: {words}")
    return float(found[1]), int(found[2])


def groups(is_changed=False, is_reversed=False):
    """LDIF of groups. Of those that are changed five members in the middle are gone, and five are new."""
    yield "dn: dc=example,dc=com\nobjectClass: domain\ndc: example\n\n"
    for number in range(GROUPS):
        gone = range(1000 + number, 1000 + number + CHANGED) if is_changed else ()
        members = [member for member in range(MEMBERS + CHANGED * is_changed) if member not in gone]
        lines = [f"member: uid=u{member},ou=People,dc=example,dc=com\n" for member in members]
        yield f"dn: cn=g{number:02},dc=example,dc=com\nobjectClass: groupOfNames\ncn: g{number:02}\n"
        yield "".join(lines[::-1] if is_reversed else lines) + "\n"


class Bench:
    def __init__(self, program, work):
        self.program, self.work, self.is_right = program, work, True

    def folder(self, name, text, more=""):
        """A folder with the entries of a file."""
        db = self.work / name
        db.mkdir()
        (db / "dir.conf").write_text((HERE / "dir.conf").read_text() + more)
        ran([self.program, "slapadd", "--db", db, "-l", text], 0)
        return db

    def compare(self, what, db, other, options, bars, status=1):
        """Measures both in turn. -> the lines that ldifdiff prints"""
        out, dump = self.work / "out", self.work / "dump"
        words = [self.program, "ldifdiff", "--db", db, "-l", other, *options]
        rounds = [(measured([self.program, "slapcat", "--db", db], 0, dump), measured(words, status, out)) for _ in range(ROUNDS)]
        seconds = [min(both[at][0] for both in rounds) for at in range(2)]
        memory = [min(both[at][1] for both in rounds) for at in range(2)]
        times = seconds[1] / seconds[0], memory[1] / memory[0]
        lines = out.read_bytes().splitlines()
        print(f"{what:40}{seconds[0]:8.3f} s{seconds[1]:8.3f} s{times[0]:6.2f}{bars[0]:6}{memory[0]:9} KB{memory[1]:9} KB{times[1]:6.2f}{bars[1]:6}"
              f"{len(lines):8} lines", flush=True)
        self.is_right &= all(one <= bar for one, bar in zip(times, bars))
        return lines

    def leads(self, what, db, other, options):
        """Carries the changes out, and asks what is left to change."""
        left = self.work / "left"
        shutil.rmtree(left, ignore_errors=True)
        shutil.copytree(db, left)
        ran([self.program, "ldifdiff", "--db", left, "-l", other, *options], 1, self.work / "changes")
        ran([self.program, "ldapmodify", "--db", left, "-f", self.work / "changes"], 0)
        ran([self.program, "ldifdiff", "--db", left, "-l", other, *options], 0)
        if not options and (left / "data.ldif").read_bytes() != other.read_bytes():
            print(f"{what}: the changes lead elsewhere")
            self.is_right = False

    def people(self, count):
        text, changed = self.work / "people.ldif", self.work / "changed.ldif"
        ran(["python3", HERE / "people.py", count], 0, text)
        db = self.folder("people", text)
        with open(text, "rb") as people:
            ran(["python3", HERE / "changes.py", "mixed", str(int(count) // 100)], 0, self.work / "mixed", people)
        other = self.work / "other"
        shutil.copytree(db, other)
        ran([self.program, "ldapmodify", "--db", other, "-f", self.work / "mixed"], 0)
        shutil.copy(other / "data.ldif", changed)
        for options in [*WAYS, *PARTS]:
            self.compare(f"people, 1 % changed {options[0] if options else ''}".strip(), db, changed, options, BARS)
            self.leads("people", db, changed, options)
        for options in WAYS:
            self.alike(f"people, alike {' '.join(options)}".strip(), db, db / "data.ldif", options)

    def alike(self, what, db, other, options, bars=ALIKE):
        if self.compare(what, db, other, options, bars, 0):
            print(f"{what}: they have changes")
            self.is_right = False

    def groups(self):
        texts = [self.work / f"groups{at}.ldif" for at in range(4)]
        for at, text in enumerate(texts):
            text.write_text("".join(groups(at % 2 == 1, at > 1)))
        db = self.folder("groups", texts[0], MEMBER)
        runs = [("groups, 10 changed", texts[1], options) for options in WAYS] + [("groups, 10 changed, turned", texts[3], WAYS[1])]
        for what, other, options in runs:
            lines = self.compare(f"{what} {' '.join(options)}".strip(), db, other, options, SETS if options else BARS)
            named = sum(line.startswith(b"member: ") for line in lines)
            if named != GROUPS * 2 * CHANGED:
                print(f"groups: {named} lines of values, and not {GROUPS * 2 * CHANGED}")
                self.is_right = False
            self.leads("groups", db, other, options)
        self.alike("groups, turned --unordered", db, texts[2], WAYS[1], SETS)


def main(program, count="100000"):
    with tempfile.TemporaryDirectory() as work:
        bench = Bench(Path(program).resolve(), Path(work))
        print(f"{'':40}{'slapcat':>10}{'ldifdiff':>10}{'times':>6}{'bar':>6}{'slapcat':>12}{'ldifdiff':>12}{'times':>6}{'bar':>6}")
        bench.people(count)
        bench.groups()
    return 0 if bench.is_right else 1


if __name__ == "__main__":
    sys.exit(main(*sys.argv[1:]) if len(sys.argv) > 1 else __doc__)
