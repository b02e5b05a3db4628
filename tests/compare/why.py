#!/usr/bin/env python3
"""Compares what `-v` says with the second reading: why.py PROGRAM COUNT SEED ..

For each SEED, COUNT random folders and texts go through slapadd and as many through ldapmodify, with `-v`. Behind each report line one of the
sentences of `sentences.py` has to stand, worked out by `model.py` alone, and at the end of a run the summary; the report lines are what they are
without `-v`. A difference is printed; at the end stands how often each sentence came up, by its words. The exit status is 0 where nothing differs,
else 1."""
import collections
import os
import random
import re
import shutil
import subprocess
import sys
import tempfile
from pathlib import Path

import cases
import model
import sentences

SECONDS = 10
MOST_SHOWN = 5


def expected(case):
    """-> [(what stands in a line of standard error, as a set of texts; None for any sentence)], or None where the directory doesn't load"""
    directory = model.load(case.conf, None, "db")
    lines, data = [], model.Told()
    if model.run(directory, case.data or b"", False, told=data):
        report = model.run(model.load(case.conf, None, "db"), case.data, False)
        return [{f"data.ldif {report}"}, set(data.refusals[0][1])]
    told = model.Told()
    how = (case.go_on, True, case.add_default) if case.changes else (case.go_on,)
    report = model.run(directory, case.input, *how, told=told).splitlines(keepends=True)
    for line, (_, ways) in zip(report, told.refusals):
        lines += [{line}, set(ways)]
    done = "carried out" if case.changes else "added"
    return lines + [{sentences.summary(told.accepted, [refusal for refusal, _ in told.refusals], done, not case.dry_run)}]


def seen_lines(program, db, case):
    shutil.rmtree(db, ignore_errors=True)
    db.mkdir()
    (db / "dir.conf").write_bytes(case.conf)
    if case.data is not None:
        (db / "data.ldif").write_bytes(case.data)
    words = ["ldapmodify" if case.changes else "slapadd", "-v", "--db", db]
    words += ["-c"] * case.go_on + ["-n" if case.changes else "-u"] * case.dry_run + ["-a"] * case.add_default
    done = subprocess.run([program, *words], input=case.input, capture_output=True, timeout=SECONDS)
    return done.stderr.decode().splitlines(keepends=True)


def kind_of(sentence):
    """A sentence by its words alone."""
    text = re.sub(r'"[^"]*"', '"V"', sentence.strip())
    text = re.sub(r"^(behind )?line \d+(, |: )", "", text)
    return re.sub(r"\d+", "N", text.split(": ", 1)[-1])[:50]


def differs(seen, wanted):
    return len(seen) != len(wanted) or any(line not in texts for line, texts in zip(seen, wanted))


def main(words):
    program, count, seeds = shutil.which(words[0]), int(words[1]), [int(word) for word in words[2:]]
    program = os.path.abspath(program)
    counts, run, wrong = collections.Counter(), 0, 0
    memory = "/dev/shm" if os.access("/dev/shm", os.W_OK) else None
    with tempfile.TemporaryDirectory(prefix="why.", dir=memory) as home:
        for seed in seeds:
            for draw, of_seed in (cases.case, seed), (cases.change_case, f"{seed} changes"):
                rng = random.Random(of_seed)
                for serial in range(count):
                    case = draw(rng)
                    if case.conf is None or case.input is None:
                        continue
                    try:
                        wanted = expected(case)
                    except model.Ended:
                        continue
                    seen = seen_lines(program, Path(home) / "db", case)
                    run += 1
                    counts.update(kind_of(line) for line in seen if line.startswith("  "))
                    if differs(seen, wanted):
                        wrong += 1
                        if wrong <= MOST_SHOWN:
                            print(f"seed {of_seed}, case {serial}: {case.input!r}")
                            for line, texts in zip(seen + [""] * (len(wanted) - len(seen)), wanted + [set()] * (len(seen) - len(wanted))):
                                if line not in texts:
                                    print(f"    seen   {line!r}\n    wanted {' or '.join(map(repr, sorted(texts)))}")
    for kind, number in sorted(counts.items()):
        print(f"{number:7} {kind}")
    print(f"{run} cases, {wrong} with a difference")
    return 1 if wrong or not run else 0


sys.exit(main(sys.argv[1:]))
