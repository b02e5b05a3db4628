#!/usr/bin/env python3
"""Times searches by an index: indexed_searches.py SLAPTOOLS SEARCH_BENCH [PEOPLE]

SLAPTOOLS is the program, SEARCH_BENCH that of the crate search_bench. People (people.py, 100,000 by default) lie in a folder under the
dir.conf and the index lines of indexes.py. For each line below the best of five rounds, in which the two take turns: its seconds, those
of the other command, the first in times of the second, and how many times we want at most. Then the peak memory of a search in times of
the LDIF (GNU time), and from SEARCH_BENCH what a search takes as a call of the library, in times of one that tests all entries, of a
directory as it stands and of one that is put in order once for many searches. The status is 1 where something takes more than we want.

  one uid                       beside slapcat
  one uid, without index.txt    beside slapindex
  1,000 items                   beside a filter of one item: both by slots
  10,000 lines, one uid each    beside one uid: one load, and one index for all lines
  10,000 lines, substrings      beside one uid: each finds some twenty
"""
import re
import shutil
import subprocess
import sys
import tempfile
import time
from pathlib import Path

from indexes import HERE, indexed

ROUNDS = 5


def seconds(words):
    start = time.monotonic()
    done = subprocess.run(list(map(str, words)), stdout=subprocess.DEVNULL, stderr=subprocess.PIPE)
    if done.returncode != 0:
        sys.exit(f"status {done.returncode}: {done.stderr[:200]}")
    return time.monotonic() - start


def peak_kb(words, out):
    subprocess.run([shutil.which("time"), "-f", "%M", "-o", out, *map(str, words)], stdout=subprocess.DEVNULL, check=True)
    return int(out.read_text())


def main(program, bench, people="100000"):
    missed = False
    with tempfile.TemporaryDirectory() as work:
        work = Path(work)
        db = work / "db"
        db.mkdir()
        text = subprocess.run(["python3", HERE / "people.py", people], stdout=subprocess.PIPE, check=True).stdout
        (work / "people.ldif").write_bytes(text)
        (db / "dir.conf").write_text(indexed((HERE / "dir.conf").read_text()))
        seconds([program, "slapadd", "--db", db, "-l", work / "people.ldif"])
        uids = re.findall(r"^uid: (\S+)$", text.decode(), re.M)
        one = f"(uid={uids[len(uids) // 2]})"
        many = "(|" + "".join(f"(uid={uid})" for uid in uids[:1000]) + ")"
        search = [program, "search", "--db", db]

        def without():
            (db / "index.txt").rename(work / "index.txt")
            try:
                return seconds([*search, one])
            finally:
                (work / "index.txt").rename(db / "index.txt")

        def compare(label, first, second, bar):
            rounds = [(first(), second()) for _ in range(ROUNDS)]
            took, beside = (min(round[n] for round in rounds) for n in (0, 1))
            print(f"{label:30}{took:8.3f} s{beside:8.3f} s{took / beside:7.2f}{bar:7}", flush=True)
            return took / beside > bar

        missed |= compare("one uid", lambda: seconds([*search, one]), lambda: seconds([program, "slapcat", "--db", db]), 1.45)
        missed |= compare("one uid, without index.txt", without, lambda: seconds([program, "slapindex", "--db", db]), 1.0)
        missed |= compare("1,000 items", lambda: seconds([*search, many]), lambda: seconds([*search, one]), 1.3)
        lines = work / "lines"
        lines.write_text("".join(f"{uid}\n" for uid in uids[:10000]))
        missed |= compare("10,000 lines, one uid each", lambda: seconds([*search, "-f", lines, "(uid=%s)", "1.1"]), lambda: seconds([*search, one]), 1.15)
        pieces = work / "pieces"
        pieces.write_text("".join(f"{n:04}\n" for n in range(10000)))
        missed |= compare("10,000 lines, substrings", lambda: seconds([*search, "-f", pieces, "(uid=*%s*)", "1.1"]), lambda: seconds([*search, one]), 2.0)
        times = peak_kb([*search, one], work / "peak") * 1024 / len(text)
        print(f"{'peak memory of the LDIF':48}{times:9.2f}{5.5:7}")
        missed |= times > 5.5
        rows = subprocess.run([bench, db / "dir.conf", work / "people.ldif", one], stdout=subprocess.PIPE, check=True).stdout.decode()
        print(rows, end="")
        by_index, by_scan, in_order, tested = map(int, rows.splitlines()[1].split()[:4])
        for label, took, bar in ("a call of the library, of a scan", by_index, 0.2), ("the same in order", in_order, 0.001):
            print(f"{label:48}{took / by_scan:9.6f}{bar:7}")
            missed |= took / by_scan > bar
        missed |= tested != 1
    sys.exit(missed)


if __name__ == "__main__":
    if len(sys.argv) < 3 or not shutil.which("time"):
        sys.exit(__doc__ if shutil.which("time") else "GNU time isn't there")
    main(Path(sys.argv[1]).resolve(), Path(sys.argv[2]).resolve(), *sys.argv[3:])
