#!/usr/bin/env python3
"""Times what index lines cost: indexes.py PROGRAM [PEOPLE]

People (people.py, 100,000 by default) under dir.conf without index lines, and under the same with equality of objectClass, and equality,
presence and substrings of cn, sn, uid and mail. For each the best seconds of three rounds, in which the two take turns, and the peak memory
in KB (GNU time), of slapadd into an empty directory, of slapindex, and of ldapmodify of one change, which stores both files; then the
bytes of data.ldif and of index.txt. That slapindex stores what the others did is looked at.
"""
import shutil
import subprocess
import sys
import tempfile
import time
from pathlib import Path

HERE = Path(__file__).resolve().parent
INDEXED = ["cn", "sn", "uid", "mail"]
ROUNDS = 3
CHANGE = b"dn: dc=example,dc=com\nchangetype: modify\nreplace: description\ndescription: %d\n"


def indexed(conf):
    """The configuration with a substring rule for some types, and with index lines."""
    for name in INDEXED:
        conf = conf.replace(f"NAME '{name}' EQUALITY caseIgnoreMatch", f"NAME '{name}' EQUALITY caseIgnoreMatch SUBSTR caseIgnoreSubstringsMatch")
    return f"{conf}index objectClass eq\nindex {','.join(INDEXED)} eq,pres,sub\n"


def measured(words, peak):
    """Seconds and KB; GNU time writes the second into a file."""
    start = time.monotonic()
    run = subprocess.run([shutil.which("time"), "-f", "%M", "-o", peak, *map(str, words)], stdin=subprocess.DEVNULL)
    seconds = time.monotonic() - start
    if run.returncode != 0:
        sys.exit(f"status {run.returncode}: {words}")
    return seconds, int(peak.read_text())


def main(program, people="100000"):
    with tempfile.TemporaryDirectory() as work:
        work = Path(work)
        with open(work / "people.ldif", "wb") as out:
            subprocess.run(["python3", HERE / "people.py", people], stdout=out, check=True)
        conf = (HERE / "dir.conf").read_text()
        folders = {"without": conf, "with index lines": indexed(conf)}
        measures = {}
        for number in range(ROUNDS):
            (work / "change.ldif").write_bytes(CHANGE % number)
            for name, text in folders.items():
                db = work / name
                shutil.rmtree(db, ignore_errors=True)
                db.mkdir()
                (db / "dir.conf").write_text(text)
                for words in (["slapadd", "-l", work / "people.ldif"], ["slapindex"], ["ldapmodify", "-f", work / "change.ldif"]):
                    before = (db / "index.txt").read_bytes() if words == ["slapindex"] else None
                    measures.setdefault((words[0], name), []).append(measured([program, words[0], "--db", db, *words[1:]], work / "peak"))
                    if before not in (None, (db / "index.txt").read_bytes()):
                        sys.exit(f"{name}: slapindex stores another index")
        for (command, name), of in measures.items():
            print(f"{command:12}{name:18}{min(seconds for seconds, _ in of):8.3f} s{max(kb for _, kb in of):10} KB")
        for name in folders:
            sizes = [(work / name / file).stat().st_size for file in ("data.ldif", "index.txt")]
            print(f"{'bytes':12}{name:18}{sizes[0]:10} of data.ldif{sizes[1]:12} of index.txt")


if __name__ == "__main__":
    if len(sys.argv) < 2 or not shutil.which("time"):
        sys.exit(__doc__ if shutil.which("time") else "GNU time isn't there")
    main(Path(sys.argv[1]).resolve(), *sys.argv[2:])
