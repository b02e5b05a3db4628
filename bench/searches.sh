#!/bin/sh
# Times search: searches.sh PROGRAM
#
# On 100,000 people without an index.txt, each in times of another command on the same folder: a filter of five items that finds none, and
# all entries printed, in times of slapcat; the base alone, and the entries right below it, in times of loading (ldapmodify of an empty
# text, which stores nothing). For each a line with its seconds, those of the other, and the first in times of the second: the best of five
# rounds, in turn. The status is 1 where a search takes more times than the last column says. Where there is an index.txt, each search
# takes the stamp of the directory on top, which indexed_searches.py times.
set -eu
program=$(realpath "$1")
here=$(dirname "$(realpath "$0")")
work=$(mktemp -d)
trap 'rm -rf "$work"' EXIT

mkdir "$work/people"
cp "$here/dir.conf" "$work/people"
python3 "$here/people.py" 100000 > "$work/people.ldif"
"$program" slapadd --db "$work/people" -l "$work/people.ldif"
rm "$work/people/index.txt"
: > "$work/nothing"

python3 - "$program" "$work" <<'PYTHON'
import subprocess, sys, time

program, work = sys.argv[1:]
SLAPCAT = ["slapcat"]
LOADING = ["ldapmodify", "-n", "-f", f"{work}/nothing"]
NONE = "(&(objectClass=person)(|(sn=zzz)(cn=*zzz*))(!(mail=*@x*))(uid>=u))"

def seconds(words):
    start = time.monotonic()
    done = subprocess.run([program, words[0], "--db", f"{work}/people", *words[1:]], stdout=subprocess.DEVNULL, stderr=subprocess.PIPE)
    if done.returncode != 0:
        sys.exit(f"{words}: status {done.returncode}: {done.stderr[:200]}")
    return time.monotonic() - start

missed = 0
for label, words, other, bar in [("none is found", ["search", NONE], SLAPCAT, 1.0), ("all are printed", ["search", "(objectClass=*)", "*", "+"], SLAPCAT, 1.2),
                                 ("the base", ["search", "-s", "base", "(objectClass=*)"], LOADING, 1.1),
                                 ("right below it", ["search", "-s", "one", "(objectClass=*)"], LOADING, 1.1)]:
    rounds = [(seconds(words), seconds(other)) for _ in range(5)]
    search, beside = min(r[0] for r in rounds), min(r[1] for r in rounds)
    print(f"{label:17}{search:8.3f} s{beside:8.3f} s{search / beside:7.2f}{bar:7}")
    missed |= search / beside > bar
sys.exit(missed)
PYTHON
