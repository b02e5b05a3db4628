#!/bin/sh
# Times slapadd, slapcat and sha256sum over made-up people: bench.sh PROGRAM [COUNT ..]
#
# For each count one line, with the best of five rounds: people, bytes of LDIF, seconds of slapadd into an empty directory, of
# slapcat and of sha256sum over the dump, the first two in times of the third, the peak memory of slapadd in KB and in times of
# the LDIF, and that of slapcat in KB.
set -eu
program=$(realpath "$1")
shift
[ $# -gt 0 ] || set -- 1000 10000 100000
here=$(dirname "$(realpath "$0")")
work=$(mktemp -d)
trap 'rm -rf "$work"' EXIT

# runs a command with its output going to $work/out; prints its seconds and its peak memory in KB
measured() {
    python3 - "$work/out" "$@" <<'PYTHON'
import resource, subprocess, sys, time
with open(sys.argv[1], "wb") as out:
    start = time.monotonic()
    status = subprocess.run(sys.argv[2:], stdout=out).returncode
    seconds = time.monotonic() - start
if status != 0:
    sys.exit(f"status {status}: {' '.join(sys.argv[2:])}")
print(f"{seconds:.3f} {resource.getrusage(resource.RUSAGE_CHILDREN).ru_maxrss}")
PYTHON
}

best() {
    sort -n "$1" | head -n 1
}

ratio() {
    python3 -c "print(f'{$1 / $2:.1f}')"
}

printf '%8s %10s %8s %8s %9s %5s %5s %8s %5s %8s\n' \
    people bytes slapadd slapcat sha256sum add cat 'add KB' LDIF 'cat KB'
for count in "$@"; do
    db=$work/$count
    mkdir "$db"
    cp "$here/dir.conf" "$db"
    python3 "$here/people.py" "$count" > "$work/people.ldif"
    bytes=$(wc -c < "$work/people.ldif")
    rm -f "$work/added" "$work/printed" "$work/summed"
    for _ in 1 2 3 4 5; do
        rm -f "$db/data.ldif"
        measured "$program" slapadd --db "$db" -l "$work/people.ldif" >> "$work/added"
        measured "$program" slapcat --db "$db" >> "$work/printed"
        cmp "$work/out" "$db/data.ldif"
        measured sha256sum "$db/data.ldif" >> "$work/summed"
    done
    added=$(best "$work/added")
    printed=$(best "$work/printed")
    summed=$(best "$work/summed")
    summed=${summed% *}
    printf '%8s %10s %8s %8s %9s %5s %5s %8s %5s %8s\n' "$count" "$bytes" "${added% *}" "${printed% *}" "$summed" \
        "$(ratio "${added% *}" "$summed")" "$(ratio "${printed% *}" "$summed")" \
        "${added#* }" "$(ratio "${added#* } * 1024" "$bytes")" "${printed#* }"
done
