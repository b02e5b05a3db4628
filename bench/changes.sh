#!/bin/sh
# Times ldapmodify: changes.sh PROGRAM
#
# On 100,000 people: 10,000 and 100,000 mixed changes, 10,000 renames, and 1 and 100 moves of a unit with 12,500 people below it. On a
# group of 100,000 members: 50,000 of them added, deleted and replaced in one block, 5,000 in blocks of one value, 1,000 in records of one
# value. For each a line with its seconds, those of no change on the same folder, and the first in times of the second: the best of three
# rounds, in turn. Nothing is stored. The status is 1 where a record is refused, or where it takes more times than the last column says.
set -eu
program=$(realpath "$1")
here=$(dirname "$(realpath "$0")")
work=$(mktemp -d)
trap 'rm -rf "$work"' EXIT

mkdir "$work/people" "$work/group"
cp "$here/dir.conf" "$work/people"
(cat "$here/dir.conf"; echo "attributetype ( 2.5.4.31 NAME 'member' EQUALITY distinguishedNameMatch SYNTAX 1.3.6.1.4.1.1466.115.121.1.12 )") > "$work/group/dir.conf"
python3 "$here/people.py" 100000 > "$work/people.ldif"
python3 "$here/changes.py" group > "$work/group.ldif"
"$program" slapadd --db "$work/people" -l "$work/people.ldif"
"$program" slapadd --db "$work/group" -l "$work/group.ldif"
: > "$work/nothing"

python3 - "$program" "$here/changes.py" "$work" <<'PYTHON'
import subprocess, sys, time

program, changes, work = sys.argv[1:]

def seconds(folder, text):
    start = time.monotonic()
    done = subprocess.run([program, "ldapmodify", "--db", f"{work}/{folder}", "-n", "-f", f"{work}/{text}"], capture_output=True)
    if done.returncode != 0:
        sys.exit(f"{text}: status {done.returncode}: {done.stderr[:200]}")
    return time.monotonic() - start

missed = 0
for folder, kind, bar in [("people", "mixed 10000", 1.3), ("people", "mixed 100000", 3), ("people", "leaves 10000", 1.15),
                          ("people", "moves 1", 1.15), ("people", "moves 100", 7), ("group", "add", 3), ("group", "delete", 3),
                          ("group", "replace", 3), ("group", "blocks", 10), ("group", "records", 50)]:
    with open(f"{work}/text", "wb") as out, open(f"{work}/people.ldif", "rb") as people:
        subprocess.run(["python3", changes, *kind.split()], stdin=people, stdout=out, check=True)
    rounds = [(seconds(folder, "text"), seconds(folder, "nothing")) for _ in range(3)]
    changed, nothing = min(r[0] for r in rounds), min(r[1] for r in rounds)
    print(f"{folder:8}{kind:14}{changed:8.3f} s{nothing:8.3f} s{changed / nothing:7.2f}{bar:7}")
    missed |= changed / nothing > bar
sys.exit(missed)
PYTHON
