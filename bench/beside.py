#!/usr/bin/env python3
"""Times two programs beside each other: beside.py PROGRAM OTHER [PEOPLE]

Two texts: people (people.py, 100,000 by default), which slapadd adds to an empty directory; and 60 MB of changes to ten entries,
which ldapmodify carries out and doesn't store. For each a line for both programs and one for sha256sum of the text: the best seconds of
five rounds, in which the three take turns, in times of sha256sum, and the peak memory in KB (GNU time) and in times of the text.
"""
import shutil
import subprocess
import sys
import tempfile
import time
from pathlib import Path

HERE = Path(__file__).resolve().parent
ROUNDS = 5
programs = [Path(word).resolve() for word in sys.argv[1:3]]
count = sys.argv[3] if len(sys.argv) > 3 else "100000"
if len(programs) < 2 or not shutil.which("time"):
    sys.exit(__doc__ if shutil.which("time") else "GNU time isn't there")


def changes():
    """Changes to ten people of a text, over and over."""
    block = "".join(f"dn: uid=u{i % 10},dc=example,dc=com\nchangetype: modify\nreplace: description\ndescription: note {i} of a text that changes ten entries\n-\n\n"
                    for i in range(9000)).encode()
    return block * (60_000_000 // len(block))


def measured(words, peak):
    """Seconds and KB; GNU time writes the second into a file."""
    start = time.monotonic()
    run = subprocess.run([shutil.which("time"), "-f", "%M", "-o", peak, *map(str, words)], stdin=subprocess.DEVNULL, stdout=subprocess.DEVNULL)
    seconds = time.monotonic() - start
    if run.returncode != 0:
        sys.exit(f"status {run.returncode}: {words}")
    return seconds, int(peak.read_text())


def compare(label, text, folder, words):
    size = text.stat().st_size
    data = folder / "data.ldif"
    before = data.read_bytes() if data.exists() else None
    commands = [(program, [program, words[0], "--db", folder, *words[1:], text]) for program in programs] + [("sha256sum", ["sha256sum", text])]
    rounds = [[] for _ in commands]
    for _ in range(ROUNDS):
        for measures, (_, command) in zip(rounds, commands):
            if before is None:
                data.unlink(missing_ok=True)
            measures.append(measured(command, folder.parent / "peak"))
    summed = min(seconds for seconds, _ in rounds[-1])
    for measures, (name, _) in zip(rounds, commands):
        seconds, kb = min(seconds for seconds, _ in measures), max(kb for _, kb in measures)
        print(f"{label:8}{size:>10}  {seconds:8.3f} s{seconds / summed:7.2f}{kb:>10} KB{kb * 1024 / size:7.2f}  {name}")


def main():
    with tempfile.TemporaryDirectory() as work:
        work = Path(work)
        added, changed = work / "added", work / "changed"
        for folder in [added, changed]:
            folder.mkdir()
            shutil.copy(HERE / "dir.conf", folder)
        with open(work / "people.ldif", "wb") as out:
            subprocess.run(["python3", HERE / "people.py", count], stdout=out, check=True)
        (work / "changes.ldif").write_bytes(changes())
        (changed / "data.ldif").write_text("dn: dc=example,dc=com\nobjectClass: domain\n\n" + "".join(
            f"dn: uid=u{i},dc=example,dc=com\nobjectClass: person\n\n" for i in range(10)))
        print(f"{'text':8}{'bytes':>10}{'time':>12}{'times':>7}{'peak':>13}{'times':>7}")
        compare("people", work / "people.ldif", added, ["slapadd", "-l"])
        compare("changes", work / "changes.ldif", changed, ["ldapmodify", "-n", "-f"])


main()
