#!/usr/bin/env python3
"""Times OpenLDAP's tools beside this program: peers.py PROGRAM [PEOPLE]

People (people.py, 100,000 by default) under dir.conf without index lines, and under that of indexes.py with them; OpenLDAP has the same
suffix, its own schema files, an mdb database, the same index lines, and -q where it has it. For slapadd into an empty directory, slapcat and
slapindex one line each: the best seconds of three rounds, in which the two take turns, in times of sha256sum of the LDIF, and the peak memory
in KB (GNU time) and in times of the LDIF.
"""
import shutil
import subprocess
import sys
import tempfile
import time
from pathlib import Path

from indexes import HERE, INDEXED, indexed, measured

ROUNDS = 3
PEER = """{schemas}modulepath /usr/lib/ldap
moduleload back_mdb
database mdb
maxsize 8589934592
suffix "dc=example,dc=com"
directory {folder}
{indexes}"""


def peers_conf(folder, with_indexes):
    schemas = "".join(f"include /etc/ldap/schema/{name}.schema\n" for name in ["core", "cosine", "inetorgperson"])
    return PEER.format(schemas=schemas, folder=folder, indexes=f"index objectClass eq\nindex {','.join(INDEXED)} eq,pres,sub\n" if with_indexes else "")


def emptied(folder, keep=()):
    for file in folder.iterdir():
        if file.name not in keep:
            file.unlink()


def summed(text):
    seconds = []
    for _ in range(ROUNDS):
        start = time.monotonic()
        subprocess.run(["sha256sum", text], stdout=subprocess.DEVNULL, check=True)
        seconds.append(time.monotonic() - start)
    return min(seconds)


def main(program, people="100000"):
    with tempfile.TemporaryDirectory() as work:
        work = Path(work)
        text = work / "people.ldif"
        with open(text, "wb") as out:
            subprocess.run(["python3", HERE / "people.py", people], stdout=out, check=True)
        size, sha, peak, printed = text.stat().st_size, summed(text), work / "peak", work / "printed"
        print(f"{'command':38}{'seconds':>9}{'sha':>7}{'KB':>10}{'LDIF':>6}")
        for with_indexes in [False, True]:
            ours, theirs, conf = work / f"ours{with_indexes}", work / f"theirs{with_indexes}", work / f"slapd{with_indexes}.conf"
            ours.mkdir()
            theirs.mkdir()
            plain = (HERE / "dir.conf").read_text()
            (ours / "dir.conf").write_text(indexed(plain) if with_indexes else plain)
            conf.write_text(peers_conf(theirs, with_indexes))
            commands = [("slapadd", [program, "slapadd", "--db", ours, "-l", text], ["slapadd", "-q", "-f", conf, "-l", text])]
            commands += [("slapindex", [program, "slapindex", "--db", ours], ["slapindex", "-q", "-f", conf])] if with_indexes else []
            commands += [("slapcat", [program, "slapcat", "--db", ours, "-l", printed], ["slapcat", "-f", conf, "-l", printed])]
            for name, ourselves, peer in commands:
                rounds = {"": [], " (OpenLDAP)": []}
                for _ in range(ROUNDS):
                    if name == "slapadd":
                        emptied(ours, ["dir.conf"])
                        emptied(theirs)
                    rounds[""].append(measured(ourselves, peak))
                    rounds[" (OpenLDAP)"].append(measured(peer, peak))
                for who, took in rounds.items():
                    seconds, kb = min(s for s, _ in took), max(k for _, k in took)
                    label = name + (", index lines" if with_indexes else "") + who
                    print(f"{label:38}{seconds:>9.2f}{seconds / sha:>7.1f}{kb:>10}{kb * 1024 / size:>6.1f}")


if __name__ == "__main__":
    if len(sys.argv) < 2 or not all(map(shutil.which, ["time", "slapadd", "slapcat", "slapindex"])):
        sys.exit(__doc__)
    main(str(Path(sys.argv[1]).resolve()), *sys.argv[2:])
