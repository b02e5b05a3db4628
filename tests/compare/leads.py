#!/usr/bin/env python3
"""Sees that the changes of ldifdiff lead where they are to lead: leads.py PROGRAM COUNT SEED .. [--unordered] [--parts] [--warnings]

For each SEED, COUNT random pairs of directories. What the second reading prints (`differences.py`) is carried out by its own ldapmodify
(`model.py`): a record is refused only where a warning says so, and for the reason that it says, or it is of an entry below one that was refused;
each other entry is left as it is to be, and behind changes of which none is refused nothing is left to do. PROGRAM prints the same, byte for byte;
its own ldapmodify carries that out with the same answers, with -c and without, and its slapcat prints what is left. With --unordered and --parts
(-b and -a) some pairs have that, too; with --warnings, those with a warning aren't left out. With - as PROGRAM only the second reading is looked at.
Prints what differs, and at the end how often what came up; the exit status is 0 where nothing differs, else 1."""
import argparse
import collections
import os
import random
import shutil
import subprocess
import sys
import tempfile
from dataclasses import replace
from pathlib import Path

import differences
import ldif
import model
import pairs
import values

SECONDS = 20
MOST_SHOWN = 3


class Wrong(Exception):
    pass


def copied(directory):
    copy = model.Directory(directory.conf)
    copy.entries = dict(directory.entries)
    return copy


def parted(attributes):
    """-> (what users can change, what they can't), each as [(type, its values)]"""
    lists = [(number, list(texts.values())) for number, texts in attributes.values.items()]
    fixed = [attributes.conf.types[number].is_fixed for number, _ in lists]
    return [one for one, is_fixed in zip(lists, fixed) if not is_fixed], [one for one, is_fixed in zip(lists, fixed) if is_fixed]


def as_sets(conf, lists):
    return {number: {conf.normal(number, text) for text in texts} for number, texts in lists}


def check_goal(before, after, wanted, is_unordered, is_chosen):
    """Whether the changes are to lead to what the second directory has, where it is chosen: in its words and its order, or as sets in the words
    and the order of the first one."""
    conf = before.conf
    for path in before.entries.keys() | after.entries.keys():
        there, old, new = (one.entries.get(path) for one in (wanted, before, after))
        if not is_chosen(path):
            is_right = there is old
        elif old is None or new is None or not is_unordered:
            is_right = there is new
        else:
            (users, _), (olds, _), (news, _) = parted(there[1]), parted(old[1]), parted(new[1])
            is_right = there[0] == old[0] and as_sets(conf, users) == as_sets(conf, news) and keeps_words(conf, olds, users)
        if not is_right:
            raise Wrong(f"to lead to {there} at {path}, from {old} to {new}")


def keeps_words(conf, old, wanted):
    """Whether what both have begins `wanted`, as `old` has it: the types, and the values of each."""
    olds, wanteds = dict(old), dict(wanted)
    stay = [number for number, _ in old if number in wanteds]
    if list(wanteds)[:len(stay)] != stay:
        return False
    forms = as_sets(conf, wanted)
    kept = [[text for text in olds[number] if conf.normal(number, text) in forms[number]] for number in stay]
    return all(wanteds[number][:len(texts)] == texts for number, texts in zip(stay, kept))


def is_left_right(before, wanted, left, path):
    """Whether the changes leave at a path what they are to leave there, where none is refused."""
    there, old, entry = (one.entries.get(path) for one in (left, before, wanted))
    if entry is None or there is None:
        return entry is there
    (users, fixed), (wanted_users, wanted_fixed) = parted(there[1]), parted(entry[1])
    if old is not None:
        wanted_fixed = parted(old[1])[1]
    else:
        wanted_fixed = [(number, [text]) for number, text in entry[0] if left.conf.types[number].is_fixed]
    return there[0] == entry[0] and users == wanted_users and fixed == wanted_fixed


def refused_paths(left, text):
    """-> {the path of a record that is refused: the codes}, as the lines of a run with -c tell it"""
    found, told = collections.defaultdict(list), model.Told()
    lines = {numbers[0]: (first, texts) for numbers, first, texts in ldif.numbered_records(text)}
    report = model.run(left, text, True, True, told=told)
    for line in report.splitlines():
        where, code = line.removeprefix("line ").split(": ")
        change = ldif.read_change(*lines[int(where)], False)
        found[left.located(change.dn)[1]].append(int(code.split(" ")[0]))
    return found


CODES = {differences.ABOVE: 32, differences.BELOW: 66}      # of what a warning ends with; else 65


def check_refusals(before, warned, refused):
    """Whether each refusal is one that a line warns of, or below an entry that was to come and was refused; and each line warns of one."""
    codes = {path: CODES.get(line.rpartition(": ")[2].rstrip("\n"), 65) for path, line in warned.items()}
    for path, found in refused.items():
        is_below = path not in before.entries and path != () and path[:-1] in refused and path[:-1] not in before.entries
        if found != [codes.get(path)] and not (is_below and found == [32]):
            raise Wrong(f"refused {found} at {path}, warned of {warned}")
    if warned.keys() - refused.keys():
        raise Wrong(f"refused {dict(refused)}, warned of {warned}")


def check_reading(before, after, case, is_chosen, counts):
    """The changes of the second reading, carried out by its own ldapmodify."""
    wanted = differences.goal(before, after, case.unordered, is_chosen)
    check_goal(before, after, wanted, case.unordered, is_chosen)
    found = differences.changes(before, after, wanted)
    text = b"".join(map(differences.printed, found))
    read = [ldif.read_change(first, lines, False) for _, first, lines in ldif.records(text)]
    if read != found:
        raise Wrong(f"read back as {read}, was {found}")
    warned, left = dict(differences.warnings(before, after, wanted)), copied(before)
    refused = refused_paths(left, text)
    check_refusals(before, warned, refused)
    for path in before.entries.keys() | after.entries.keys():
        if path not in refused and not is_left_right(before, wanted, left, path):
            raise Wrong(f"at {path} {left.entries.get(path)}, wanted {wanted.entries.get(path)}")
    if not refused:
        check_rest(before, after, left, case, is_chosen, counts)
    if differences.changes(before, before, differences.goal(before, before, case.unordered)):
        raise Wrong("changes between alike ones")
    count(counts, case, found, refused, warned)
    return text, left


def check_rest(before, after, left, case, is_chosen, counts):
    """Behind changes of which none was refused nothing is left to do, in the same part, and in what is that part by now."""
    choices = [is_chosen]
    try:
        choices.append(differences.choice(left, after, model.read_filter(b"(&)" if case.filter is None else case.filter), case.base))
    except model.Ended:
        counts["whose base is gone"] += 1
    for chosen in choices:
        if differences.changes(left, after, differences.goal(left, after, case.unordered, chosen)):
            raise Wrong("something is left to do")
    is_whole = case.filter is None and case.base is None
    if not case.unordered and is_whole and not any(kind.is_fixed for kind in before.conf.types):
        if left.dump() != after.dump():
            raise Wrong("another dump is left")
        counts["the very dump"] += 1


def count(counts, case, found, refused, warned):
    counts["pairs that are alike" if not found else "pairs that differ"] += 1
    counts["with -a"] += case.filter is not None
    counts["with -b"] += case.base is not None
    counts["with --unordered"] += case.unordered
    counts["with warnings"] += bool(warned)
    for line in warned.values():
        counts[f"warnings: {[word for word in (*CODES, 'ask for', 'allow') if word in line][-1]}"] += 1
    counts["refused below one that is refused"] += len(refused.keys() - warned.keys())
    for change in found:
        counts[f"records: {change.kind}"] += 1
        for one in change.what if change.kind == "modify" else ():
            counts[f"blocks: {one.word}{' whole' if one.word == 'delete' and not one.values else ''}"] += 1


class Runner:
    """Runs the program, each pair in a fresh folder."""

    def __init__(self, program, home):
        self.program, self.db, self.file = program, home / "db", home / "file"

    def run(self, *words, text=b""):
        """-> (status, output, messages)"""
        done = subprocess.run([self.program, *words], input=text, capture_output=True, timeout=SECONDS)
        return done.returncode, done.stdout, done.stderr

    def folder(self, case):
        shutil.rmtree(self.db, ignore_errors=True)
        self.db.mkdir()
        for name, text in (("dir.conf", case.conf), ("data.ldif", case.data)):
            if text is not None:
                (self.db / name).write_bytes(text)

    def words(self, case):
        options = [("-l", self.file if case.by_file else None), ("-a", case.filter), ("-b", case.base)]
        words = ["ldifdiff", "--db", self.db, *(word for option in options if option[1] is not None for word in option)]
        return words + ["--unordered"] * case.unordered + ["-v"] * case.verbose

    def ldifdiff(self, case):
        """-> (seen, wanted), each (status, output, messages)"""
        self.folder(case)
        self.file.unlink(missing_ok=True)
        if case.text is not None:
            self.file.write_bytes(case.text)
        seen = self.run(*self.words(case), text=b"" if case.by_file else case.text)
        if sorted(path.name for path in self.db.iterdir()) != sorted(
                name for name, text in (("dir.conf", case.conf), ("data.ldif", case.data)) if text is not None):
            raise Wrong("a file was written")
        return seen, self.wanted(case)

    def wanted(self, case):
        if not all(values.is_utf8(text) for text in (case.filter, case.base) if text is not None):
            return 2, b"", b"command line: not UTF-8\n"
        source = self.file if case.by_file else "input"
        return differences.ldifdiff(case.conf, case.data, case.text, self.db, source, case.filter, case.base, case.unordered, case.verbose)

    def carry_out(self, case, text):
        """The changes, by the program, with -c and without; and what slapcat prints then."""
        for go_on in (False, True):
            self.folder(case)
            seen = self.run("ldapmodify", "--db", self.db, *["-c"] * go_on, text=text)
            status, messages, stored = model.ldapmodify(case.conf, case.data, text, False, go_on, False, self.db, "input")
            if seen != (status, b"", messages):
                raise Wrong(f"ldapmodify: program {seen}\n  reading {(status, b'', messages)}")
            dumped, dump = self.run("slapcat", "--db", self.db), (0, stored["data.ldif"], b"")
            if dumped != dump:
                raise Wrong(f"slapcat: program {dumped}\n  reading {dump}")


def directories(case):
    """-> the two directories, and what is chosen of them; or None where ldifdiff ends before"""
    try:
        before, after = model.load(case.conf, case.data, ""), differences.loaded(case.conf, case.text, "")
        steps = model.read_filter(b"(&)" if case.filter is None else case.filter)
        return before, after, differences.choice(before, after, steps, case.base)
    except model.Ended:
        return None


def refusals(case, runner):
    """All that may be said with -v of the first record that is refused, in data.ldif or else in the text; nothing where dir.conf is at fault."""
    try:
        model.load(case.conf, None, "")
    except model.Ended:
        return set()
    source = runner.file if case.by_file else "input"
    for name, text in (("data.ldif", case.data), (source, case.text)):
        told = model.Told()
        report = model.run(model.load(case.conf, None, ""), text or b"", False, told=told)
        if report:
            return {f"{name} {report}{way}".encode() for way in told.refusals[0][1]}
    return set()


def check(case, runner, warnings, counts):
    found, text = directories(case), None
    if found is None:
        counts["pairs at fault"] += 1
    else:
        before, after, is_chosen = found
        if not warnings and differences.warnings(before, after, differences.goal(before, after, case.unordered, is_chosen)):
            return
        text, _ = check_reading(before, after, case, is_chosen, counts)
    if runner is not None:
        seen, wanted = runner.ldifdiff(case)
        counts[f"status {wanted[0]}"] += 1
        if seen != wanted and not (case.verbose and seen[:2] == wanted[:2] and seen[2] in refusals(case, runner)):
            raise Wrong(f"ldifdiff: program {seen}\n  reading {wanted}")
        if text:
            runner.carry_out(case, text)


def cases(words):
    for seed in words.seeds:
        rng = random.Random(f"{seed} pairs")
        for serial in range(words.count):
            case = pairs.pair_case(rng)
            case = case if words.parts else replace(case, filter=None, base=None)
            yield f"seed {seed}, pair {serial}", case if words.unordered else replace(case, unordered=False)


def main():
    parser = argparse.ArgumentParser(description=__doc__.splitlines()[0])
    parser.add_argument("program")
    parser.add_argument("count", type=int)
    parser.add_argument("seeds", metavar="seed", type=int, nargs="+")
    for option in ("--unordered", "--parts", "--warnings"):
        parser.add_argument(option, action="store_true")
    words = parser.parse_args()
    counts, run, wrong = collections.Counter(), 0, 0
    memory = "/dev/shm" if os.access("/dev/shm", os.W_OK) else None
    with tempfile.TemporaryDirectory(prefix="leads.", dir=memory) as home:
        runner = None if words.program == "-" else Runner(os.path.abspath(shutil.which(words.program)), Path(home))
        for where, case in cases(words):
            run += 1
            try:
                check(case, runner, words.warnings, counts)
            except Wrong as what:
                wrong += 1
                if wrong <= MOST_SHOWN:
                    print(f"{where}: {what}\n  {case}", flush=True)
    for what, times in sorted(counts.items()):
        print(f"{times:8} {what}")
    print(f"{run} pairs, {wrong} with a difference")
    return 1 if wrong or not run else 0


if __name__ == "__main__":
    sys.exit(main())
