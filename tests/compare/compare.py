#!/usr/bin/env python3
"""Compares a built program with a second reading of the rules: compare.py PROGRAM COUNT SEED .. [--changes] [--searches] [--lists] [--checks]
[--sorts] [--schemas] [--suffixes] [--only]

The second reading is `model.py` with `schema.py`, `values.py`, `ldif.py`, `filters.py`, `indexes.py`, `sorting.py`, `schemas.py` and `suffixes.py`.
It was written apart from the program and shares no code with it, so that a rule that one of the two reads wrongly shows as a difference. For each
SEED, COUNT random folders and inputs go through slapadd, slapcat and slapindex, and some through slapindex before all of them; statuses, outputs,
messages and all files are compared byte for byte. Some print lines of another width than 76; slapadd makes the same directory of what slapcat prints
so. With --changes as many more go through ldapmodify in place of slapadd, with --searches as many through search or through slapcat with a filter or
a name, with --lists as many through search -f, with --checks as many through check, with --sorts as many texts through sort, of which the laws of its
order have to hold, too, with --schemas as many through schema, whose lines a dir.conf has to take, and with --suffixes as many through slapcat
--suffix: what that prints loads under a dir.conf of the new suffix, and slapcat prints it again. With --only slapadd is left out. A case that differs
is cut down and printed; at the end stands how often each status, code and fault came up, and how many slots of the index texts had keys. The exit
status is 0 where nothing differs, else 1.
"""
import argparse
import collections
import functools
import os
import random
import re
import shutil
import subprocess
import sys
import tempfile
from dataclasses import fields, replace
from pathlib import Path

import cases
import checks
import drawn_schemas
import drawn_suffixes
import folders
import lists
import model
import searches
import schema
import schemas
import sorting
import suffixes
import trees
import values

FILES = ("dir.conf", "data.ldif", "index.txt")
SECONDS = 10        # for one run of the program
MOST_SHOWN = 3      # differences that are cut down and printed
MOST_TRIES = 2000   # cases that are tried to cut down one of them
# what a case is called, what it is drawn from beside its seed, and how
KINDS = [("case", "", cases.case), ("change", "{} changes", cases.change_case), ("search", "{} searches", searches.search_case),
         ("list", "{} lists", lists.list_case), ("check", "{} checks", folders.check_case),
         ("sort", "{} sorts", trees.sort_case), ("schema", "{} schemas", drawn_schemas.schema_case),
         ("suffix", "{} suffixes", drawn_suffixes.suffix_case)]


def read(path):
    return path.read_bytes() if path.exists() else None


def write(path, text):
    if text is not None:
        path.write_bytes(text)


class Runner:
    """Runs cases, each in a fresh folder. What is seen and what is wanted are dictionaries with the same keys."""

    def __init__(self, program, home):
        self.program, self.db = program, home / "db"
        self.input, self.output, self.missing, self.copy = home / "input", home / "output", home / "missing", home / "copy"

    def run(self, *words, text=b""):
        """-> (status, output, messages)"""
        try:
            done = subprocess.run([self.program, *words], input=text, capture_output=True, timeout=SECONDS)
        except subprocess.TimeoutExpired:
            return "too late", b"", b""
        return done.returncode, done.stdout, done.stderr

    def case(self, case):
        """-> (seen, wanted)"""
        shutil.rmtree(self.db, ignore_errors=True)
        self.db.mkdir()
        seen, wanted = {}, {}
        if isinstance(case, trees.Sort):
            self.sort(case, seen, wanted)
            return seen, wanted
        if isinstance(case, drawn_schemas.Schema):
            self.schema(case, seen, wanted)
            return seen, wanted
        for name, text in zip(FILES, (case.conf, case.data, case.index)):
            write(self.db / name, text)
        if isinstance(case, searches.Search):
            self.search(case, seen, wanted)
            return seen, wanted
        if isinstance(case, lists.SearchList):
            self.search_list(case, seen, wanted)
            return seen, wanted
        if isinstance(case, folders.Check):
            self.check(case, seen, wanted)
            return seen, wanted
        if isinstance(case, drawn_suffixes.Suffix):
            self.suffix(case, seen, wanted)
            return seen, wanted
        if case.index_first:
            self.slapindex(case, "first slapindex", seen, wanted)
        self.change(case, seen, wanted)
        self.slapcat(case, seen, wanted)
        self.slapindex(case, "slapindex", seen, wanted)
        return seen, wanted

    def files(self):
        return {path.name: path.read_bytes() for path in sorted(self.db.iterdir())}

    def change(self, case, seen, wanted):
        """slapadd or ldapmodify"""
        before = self.files()
        command, file, dry_run = ("ldapmodify", "-f", "-n") if case.changes else ("slapadd", "-l", "-u")
        words, text, source = [command, "--db", self.db], b"", "input"
        if case.input is None:
            words, source = words + [file, self.missing], self.missing
        elif case.by_file:
            write(self.input, case.input)
            words += [file, self.input]
        else:
            text = case.input
        words += ["-c"] * case.go_on + [dry_run] * case.dry_run + ["-a"] * case.add_default
        seen["status"], seen["output"], seen["messages"] = self.run(*words, text=text)
        read_by = model.slapadd
        if case.changes:
            read_by = functools.partial(model.ldapmodify, add_default=case.add_default)
        wanted["status"], wanted["messages"], stored = read_by(
            case.conf, case.data, case.input, go_on=case.go_on, dry_run=case.dry_run, folder=self.db, source=source)
        wanted["output"] = b""
        self.compare_files("", {**before, **stored}, seen, wanted)

    def compare_files(self, behind, files, seen, wanted):
        """Each file that is wanted in the folder, and their names."""
        there = self.files()
        for name in FILES:
            seen[name + behind], wanted[name + behind] = there.get(name), files.get(name)
        seen["files" + behind], wanted["files" + behind] = sorted(there), sorted(files)

    def slapcat(self, case, seen, wanted):
        """Prints the folder as it was left."""
        before = self.files()
        self.output.unlink(missing_ok=True)
        words = ["-l", self.output] if case.to_file else []
        words += ["-o", case.wrap] if case.wrap is not None else []
        status, output, messages = self.run("slapcat", "--db", self.db, *words)
        seen.update({"slapcat status": status, "slapcat output": output, "slapcat messages": messages,
                     "slapcat file": read(self.output)})
        printed = seen["slapcat file"] or output
        status, output, messages = model.slapcat(case.conf, before.get("data.ldif"), self.db, wrap=case.wrap)
        to_file = case.to_file and status == 0
        wanted.update({"slapcat status": status, "slapcat output": b"" if to_file else output,
                       "slapcat messages": messages, "slapcat file": output if to_file else None})
        self.compare_files(" behind slapcat", before, seen, wanted)
        if case.wrap is not None and seen["slapcat status"] == status == 0:
            self.load(case, printed, seen, wanted)

    def load(self, case, printed, seen, wanted):
        """What slapcat printed in lines of a width, loaded into a folder of its own: the same directory is stored, in lines of 76 bytes."""
        stored = model.slapcat(case.conf, self.files().get("data.ldif"), self.db)[1]
        shutil.rmtree(self.copy, ignore_errors=True)
        self.copy.mkdir()
        write(self.copy / "dir.conf", case.conf)
        seen["loaded"] = *self.run("slapadd", "--db", self.copy, text=printed), read(self.copy / "data.ldif")
        wanted["loaded"] = 0, b"", b"", stored

    def slapindex(self, case, called, seen, wanted):
        """Stores the index of the folder as it is. Behind a change that was stored it is there already."""
        before = self.files()
        status, output, messages = self.run("slapindex", "--db", self.db)
        seen.update({f"{called} status": status, f"{called} output": output, f"{called} messages": messages})
        status, messages, stored = model.slapindex(case.conf, before.get("data.ldif"), self.db)
        wanted.update({f"{called} status": status, f"{called} output": b"", f"{called} messages": messages})
        self.compare_files(f" behind {called}", {**before, **stored}, seen, wanted)

    def search(self, case, seen, wanted):
        """search, or slapcat for a part of the entries"""
        before = self.files()
        self.output.unlink(missing_ok=True)
        seen["status"], seen["output"], seen["messages"] = self.run(*case.command(self.db, self.output))
        seen["file"] = read(self.output)
        files = case.conf, case.data, self.db
        if not all(values.is_utf8(text) for text in case.texts()):
            answer = 2, b"", b"command line: not UTF-8\n"
        elif case.is_slapcat:
            answer = model.slapcat(*files, case.filter, case.base, wrap=case.wrap)
        else:
            answer = model.search(*files, case.asked(), case.base, case.scope, case.limit, case.index, wrap=case.wrap)
        wanted["status"], wanted["output"], wanted["messages"] = answer
        if wanted["messages"] is None:
            # a text of the library that reads the words
            wanted["messages"] = seen["messages"] or b"a message"
        wanted["file"] = None
        if case.to_file and wanted["status"] == 0:
            wanted["output"], wanted["file"] = b"", wanted["output"]
        self.compare_files("", before, seen, wanted)

    def search_list(self, case, seen, wanted):
        """search -f, of a file or of its input"""
        before, file = self.files(), self.missing if case.lines is None else self.input
        if not case.by_input:
            write(self.input, case.lines)
        words = case.command(self.db, "-" if case.by_input else file)
        seen["status"], seen["output"], seen["messages"] = self.run(*words, text=case.lines if case.by_input else b"")
        lines = model.Lines(case.lines, "input" if case.by_input else file, case.go_on)
        if all(values.is_utf8(text) for text in case.texts()):
            answer = model.search(case.conf, case.data, self.db, case.asked(), case.base, case.scope, case.limit, case.index, case.verbose, case.counts, lines,
                                  case.wrap)
        else:
            answer = 2, b"", b"command line: not UTF-8\n"
        wanted["status"], wanted["output"], wanted["messages"] = answer
        if wanted["messages"] is None:
            # a text of the library that reads the words
            wanted["messages"] = seen["messages"] or b"a message"
        self.compare_files("", before, seen, wanted)


    def check(self, case, seen, wanted):
        before = self.files()
        file, text = {"file": (self.input, b""), "input": ("-", case.over), "nowhere": (self.missing, b"")}[case.over_from]
        write(self.input, case.over)
        seen["status"], seen["output"], seen["messages"] = self.run(*case.command(self.db, file), text=text or b"")
        files, over = (case.conf, case.data, case.index, self.db), None
        if case.over is not None:
            over = checks.Over(None if case.over_from == "nowhere" else case.over, "input" if case.over_from == "input" else str(file))
        if all(values.is_utf8(text) for text in case.texts()):
            wanted["status"], wanted["output"], wanted["messages"] = checks.check(*files, case.unique, case.references, case.verbose, over)
            if case.verbose:
                checked, last = checks.Checked(), b""
                try:
                    checks.check_files(checked, *files, case.unique, case.references, over)
                except model.Ended as end:
                    last = end.told(True)
                wanted["messages"] = sentences_as(seen["messages"], checked.said, checked.is_of_conf) + last
        else:
            wanted["status"], wanted["output"], wanted["messages"] = 2, b"", b"command line: not UTF-8\n"
        self.compare_files("", before, seen, wanted)

    def sort(self, case, seen, wanted):
        """sort, of a file or of its input"""
        file = self.missing if case.text is None else self.input
        if case.by_file and case.text is not None:
            write(self.input, case.text)
        words, text, source = (["-l", file], b"", file) if case.by_file else ([], case.text, "input")
        seen["status"], seen["output"], seen["messages"] = self.run("sort", *words, text=text)
        wanted["status"], wanted["output"], wanted["messages"] = sorting.sort(case.text, source)
        seen["broken laws"] = [] if case.text is None else sorting.broken_laws(case.text, seen["output"])
        wanted["broken laws"] = []
        seen["file"], wanted["file"] = read(file) if case.by_file else None, case.text if case.by_file else None


    def schema(self, case, seen, wanted):
        """schema, of a file or of its input, without a dir.conf or for one"""
        file = self.missing if case.text is None else self.input
        if case.by_file and case.text is not None:
            write(self.input, case.text)
        words, text, source = (["-l", file], b"", file) if case.by_file else ([], case.text, "input")
        if case.conf is not None:
            write(self.db / "dir.conf", case.conf)
            words = [*words, "--db", self.db]
        seen["status"], seen["output"], seen["messages"] = self.run("schema", *words, text=text)
        seen["output"] = schemas.without_details(seen["output"])
        wanted["status"], wanted["output"], wanted["messages"] = schemas.schema_of(case.text, case.conf or b"", source)
        wanted["dir.conf"], seen["dir.conf"] = case.conf, read(self.db / "dir.conf")
        wanted["it is read"], seen["it is read"] = True, wanted["status"] > 1 or schemas.is_read((case.conf or b"") + seen["output"])

    def suffix(self, case, seen, wanted):
        """slapcat --suffix. What it prints is loaded into a folder of its own under the new suffix."""
        before = self.files()
        self.output.unlink(missing_ok=True)
        seen["status"], seen["output"], seen["messages"] = self.run(*case.command(self.db, self.output))
        seen["file"], wanted["file"] = read(self.output), None
        if not all(values.is_utf8(text) for text in case.texts()):
            answer = 2, b"", b"command line: not UTF-8\n"
        elif case.filter is not None or case.base is not None:
            answer = suffixes.not_a_part(case.filter is not None) if model.width_of(case.wrap) is not None else (2, b"", None)
        else:
            answer = suffixes.slapcat(case.conf, case.data, self.db, case.name, wrap=case.wrap)
        wanted["status"], wanted["output"], wanted["messages"] = answer
        if wanted["messages"] is None:
            # a text of the library that reads the words
            wanted["messages"] = seen["messages"] or b"a message"
        if case.to_file and wanted["status"] == 0:
            wanted["output"], wanted["file"] = b"", wanted["output"]
        self.compare_files("", before, seen, wanted)
        if seen["status"] == wanted["status"] == 0:
            self.load_moved(case, seen["file"] or seen["output"], seen, wanted)

    def load_moved(self, case, printed, seen, wanted):
        """The copy under the new suffix: slapadd takes all of it, and slapcat prints it again."""
        shutil.rmtree(self.copy, ignore_errors=True)
        self.copy.mkdir()
        write(self.copy / "dir.conf", suffixes.with_suffix_line(case.conf, suffixes.conf_of(schema.read_conf(case.conf), case.name)))
        wrap = ["-o", case.wrap] if case.wrap is not None else []
        seen["loaded"] = self.run("slapadd", "--db", self.copy, text=printed)
        seen["printed again"] = self.run("slapcat", "--db", self.copy, *wrap)
        wanted["loaded"], wanted["printed again"] = (0, b"", b""), (0, printed, b"")


def sentences_as(seen, said, is_loose):
    """Of each of the sentences that may be told the one that was, or the first one. A line of dir.conf may be wrong in several ways, of which the
    second reading knows one: then any line will do that has two spaces in front."""
    lines = [line + "\n" for line in seen.decode(errors="replace").split("\n")] + [""] * len(said)
    return "".join(line if line in ways or is_loose and line.startswith("  ") else ways[0] for line, ways in zip(lines, said)).encode()


def differences(seen, wanted):
    return [key for key in wanted if seen[key] != wanted[key]]


class Shrinker:
    """Cuts a case down as long as the same thing differs first, with the same statuses."""

    def __init__(self, runner, case, found):
        self.runner, self.small, self.found, self.tries = runner, case, found, 0
        self.kind = self.kind_of(found)

    @staticmethod
    def kind_of(found):
        seen, wanted = found
        return differences(seen, wanted)[:1], seen["status"], wanted["status"]

    def takes(self, **changes):
        """Is the case with these changes still of the kind? Then it is the small one."""
        case = replace(self.small, **changes)
        if case == self.small or self.tries == MOST_TRIES:
            return False
        self.tries += 1
        found = self.runner.case(case)
        if self.kind_of(found) != self.kind:
            return False
        self.small, self.found = case, found
        return True

    def cut(self, field, pieces):
        """Takes pieces of a text away, halves of it first and single ones last."""
        size = max(1, len(pieces) // 2)
        while size and self.tries < MOST_TRIES:
            at = 0
            while at < len(pieces):
                fewer = pieces[:at] + pieces[at + size:]
                if self.takes(**{field: b"".join(fewer)}):
                    pieces = fewer
                else:
                    at += size
            size //= 2

    def shrink(self):
        before = None
        while self.small != before:
            before = self.small
            for option, plain in before.OPTIONS:
                self.takes(**{option: plain})
            for field, plain in before.TEXTS:
                if len(getattr(self.small, field) or b"") > len(plain or b""):
                    self.takes(**{field: plain})
            for pieces_of in (lambda text: text.splitlines(True), lambda text: [bytes([byte]) for byte in text]):
                for field, _ in before.TEXTS:
                    self.cut(field, pieces_of(getattr(self.small, field) or b""))


def show(case, found):
    for field in fields(case):
        print(f"  {field.name} = {getattr(case, field.name)!r}")
    seen, wanted = found
    for key in differences(seen, wanted):
        print(f"  {key}: program {seen[key]!r}")
        print(f"  {' ' * len(key)}  model   {wanted[key]!r}", flush=True)


def count(counts, case, wanted):
    if isinstance(case, folders.Check):
        count_check(counts, case, wanted)
        return
    if isinstance(case, trees.Sort):
        count_sort(counts, case, wanted)
        return
    if isinstance(case, drawn_schemas.Schema):
        count_schema(counts, wanted)
        return
    if isinstance(case, drawn_suffixes.Suffix):
        count_suffix(counts, case, wanted)
        return
    count_width(counts, case, wanted)
    if isinstance(case, searches.Search):
        count_search(counts, case, wanted)
        return
    if isinstance(case, lists.SearchList):
        count_list(counts, case, wanted)
        return
    counts[f"{'ldapmodify' if case.changes else 'slapadd'}: status {wanted['status']}"] += 1
    counts[f"slapcat: status {wanted['slapcat status']}"] += 1
    for called in ("first slapindex", "slapindex"):
        if f"{called} status" in wanted:
            counts[f"{called}: status {wanted[f'{called} status']}"] += 1
            count_messages(counts, called, wanted[f"{called} messages"])
    if wanted["slapindex status"] == 0:
        count_index(counts, case, wanted)
    count_messages(counts, "changes" if case.changes else "input", wanted["messages"])


def count_width(counts, case, wanted):
    """The width that is asked for, of what is printed."""
    printed = wanted.get("slapcat file") or wanted.get("slapcat output") or wanted.get("file") or wanted["output"]
    if case.wrap is not None and printed:
        folded = "folded" if re.search(rb"^ ", printed, re.MULTILINE) else "not folded"
        width = model.width_of(case.wrap)
        kind = "no" if width == model.UNFOLDED else "to 9" if width < 10 else "to 75" if width < 76 else "76" if width == 76 else "more than 76"
        counts[f"widths: {kind}, {folded}"] += 1
        counts["widths: loaded again"] += "loaded" in wanted
    elif case.wrap is not None and model.width_of(case.wrap) is None:
        counts["widths: a word that is none"] += 1


def count_index(counts, case, wanted):
    """What was there before slapindex ran, and which slots it has."""
    text = wanted["index.txt behind slapindex"]
    before = wanted["index.txt"]
    counts[f"index.txt: {'missing' if before is None else 'right' if before == text else 'wrong'} before the last slapindex"] += 1
    slots = re.findall(rb"slot (.+) (eq|pres|sub)\n((?:[-0-9a-f]+ .*\n)*)", text)
    for name, kind, keys in slots:
        lines = keys.count(b"\n")
        named = "" if re.search(rb"[a-z]", name) else " of an OID"
        counts[f"slots: {kind.decode()}{named}, {lines if lines < 2 else 'more'} {'key' if lines == 1 else 'keys'}"] += 1
    if not slots:
        counts["slots: none"] += 1


def count_search(counts, case, wanted):
    counts[f"{'slapcat of a part' if case.is_slapcat else 'search'}: status {wanted['status']}"] += 1
    if not case.is_slapcat and wanted["status"] < 2:
        fault = re.search(rb"^index.txt: (.*)$", wanted["messages"], re.MULTILINE)
        counts[f"searches: index.txt {'missing' if case.index is None else fault[1].decode() if fault else 'read'}"] += 1
    if wanted["status"] == 0:
        found = (wanted["file"] or wanted["output"]).count(b"\n\n")
        counts[f"searches: {min(found, 3)} {'entries or more' if found > 2 else 'entry' if found == 1 else 'entries'}"] += 1
    elif case.conf is not None and case.data is not None:
        count_messages(counts, "searches", wanted["messages"])


def count_list(counts, case, wanted):
    counts[f"search -f: status {wanted['status']}"] += 1
    fault = re.search(rb"^index.txt: (.*)$", wanted["messages"], re.MULTILINE)
    counts[f"lists: index.txt {'missing' if case.index is None else fault[1].decode() if fault else 'read'}"] += 1
    searched = wanted["output"].count(b"\n" if case.counts else b"# filter: ")
    counts[f"lists: {min(searched, 3)} {'lines or more' if searched > 2 else 'line' if searched == 1 else 'lines'} with an answer"] += 1
    for line in wanted["messages"].decode().splitlines():
        if line.startswith(("filter line ", "error: ", "search: ")):
            counts[f"lists: {re.sub(r'[0-9]+', 'N', re.sub(r'^(error: invalid value).*: ', r'error: ', line))}"[:70]] += 1
        elif line.endswith(": cannot read"):
            counts["lists: a file: cannot read"] += 1


def count_check(counts, case, wanted):
    counts[f"check: status {wanted['status']}"] += 1
    kinds = collections.Counter()
    # a value may have a tab, and other ends of lines
    for line in wanted["output"].decode(errors="replace").split("\n")[:-1]:
        kind, where, what = line.split("\t", 2)
        if kind in ("faulty", "refused"):
            where = where if where in ("dir.conf", "data.ldif", "index.txt") else "FILE"
            counts[f"checks: {where}: {re.sub('^line [0-9]+: | [(].*', '', what)}"] += 1
        elif kind == "warning":
            field = re.search("'s ([A-Z]+): .* isn't known( [(])?", what)
            counts[f"checks: warning: {'skipped' if field is None else field[1] + (' and a near one' if field[2] else '')}"] += 1
        kinds[f"{kind} {where}" if kind == "faulty" else kind] += 1
    for kind, number in kinds.items():
        counts[f"checks: {kind}: {min(number, 3)} {'lines or more' if number > 2 else 'line' if number == 1 else 'lines'}"] += 1
    if case.verbose and wanted["status"] == 1:
        counts["checks: with sentences"] += 1
    if case.over is not None and wanted["status"] < 2:
        counts[f"checks: over data.ldif: {case.over_from}"] += 1
    if case.index is not None and wanted["status"] < 2 and not any(kind.startswith("faulty") for kind in kinds):
        counts["checks: index.txt: right"] += 1
    if wanted["status"] > 1:
        what, _, _ = wanted["messages"].decode().split(": ")[-1].partition("\n")
        counts[f"checks: {what}"] += 1


def count_sort(counts, case, wanted):
    counts[f"sort: status {wanted['status']}"] += 1
    if case.text is None:
        return
    head, pieces = sorting.cut(case.text)
    named = sum(sorting.name_of(piece) != () for piece in pieces)
    counts[f"sorts: {min(len(pieces), 3)} {'pieces or more' if len(pieces) > 2 else 'piece' if len(pieces) == 1 else 'pieces'}"] += 1
    counts[f"sorts: {'printed as it is' if wanted['output'] == case.text else 'in another order'}, {'with' if head else 'without'} a head"] += 1
    counts["sorts: pieces with a name"] += named
    counts["sorts: pieces without a name"] += len(pieces) - named
    counts["sorts: a version comes first now"] += sorting.comes_first_now(case.text, wanted["output"])
    parted = sorting.ended(head) if head else b""
    counts["sorts: a version is parted from what comes behind it now"] += parted != head and wanted["output"].startswith(parted + b" ")
    counts["sorts: a CR that ended the text stands before another piece"] += case.text.endswith(b"\r") and b"\r\r\n\n" in wanted["output"]


def count_schema(counts, wanted):
    counts[f"schema: status {wanted['status']}"] += 1
    for line in wanted["output"].decode(errors="replace").splitlines():
        found = re.match(r"# (?:left out: )?(?:(C\d+ [a-z ]*|built in|no definition)|[^:]*: (the name|EQUALITY|MAY)\b)|(attributetype|objectclass) ", line)
        counts[f"schemas: {next(filter(None, found.groups())) if found else 'another line'}"] += 1


def count_suffix(counts, case, wanted):
    counts[f"slapcat --suffix: status {wanted['status']}"] += 1
    if wanted["status"] != 0:
        if case.conf is not None:
            count_messages(counts, "suffixes", wanted["messages"])
        return
    there = model.load(case.conf, case.data, "")
    if not there.entries:
        counts["suffixes: no entry"] += 1
        return
    moved = suffixes.conf_of(there.conf, case.name)
    old, new = there.conf.steps(there.conf.suffix), there.conf.steps(moved.suffix)
    depth = "the same" if len(old) == len(new) else "less" if len(new) < len(old) else "more"
    place = "it equals the old one" if old == new else "below the old one" if new[-len(old):] == old else \
        "above the old one" if old[-len(new):] == new else f"elsewhere, of {depth} depth"
    counts[f"suffixes: {place}"] += 1
    counts[f"suffixes: {'one AVA' if len(new[0]) == 1 else 'several AVAs'} in the first RDN"] += 1
    named = [(number, value) for _, attributes in there.entries.values() for number, texts in attributes.values.items()
             if there.conf.types[number].kind == "name" for value in texts.values()]
    changed = [suffixes.value_under(there.conf, *pair, case.name) for pair in named]
    for (_, value), text in zip(named, changed):
        counts[f"suffixes: names as values that {'stay' if text == value else 'become the suffix' if text == case.name else 'move'}"] += 1
    entry = there.entries[()][1]
    before = list(entry.values)
    lines = suffixes.lines_of(there, (), moved, case.name)
    after = list(dict.fromkeys(there.conf.type_of(name) for name, _ in lines))
    counts[f"suffixes: the suffix's entry {'keeps its types' if before == after else 'has other types'}"] += 1


def count_messages(counts, source, messages):
    for line in messages.decode().splitlines():
        found = re.fullmatch(r"(?:(dir\.conf|data\.ldif) )?line \d+: (\w+) .*|.*: cannot read|((?:filter|search|slapcat): .*)", line)
        where, what, whole = found.groups() if found else (None, None, None)
        if whole:
            counts[f"{source}: {re.sub(r'[0-9]+$', 'N', whole)}"] += 1
        elif found:
            counts[f"{where or source}: {what}" if what else "a file: cannot read"] += 1


def random_cases(number, seeds, kinds):
    """Those of changes and of searches are drawn apart, so that the others are the same with and without them. -> (where it is, case)"""
    for seed in seeds:
        for name, of_seed, draw in kinds:
            rng = random.Random(of_seed.format(seed) if of_seed else seed)
            for serial in range(number):
                yield f"seed {seed}, {name} {serial}", draw(rng)


def compare(runner, number, seeds, kinds):
    """-> (how often each thing came up, number of cases that differ)"""
    counts, differing = collections.Counter(), 0
    for where, case in random_cases(number, seeds, kinds):
        found = runner.case(case)
        count(counts, case, found[1])
        wrong = differences(*found)
        if not wrong:
            continue
        differing += 1
        print(f"{where}: {', '.join(wrong)}")
        if differing <= MOST_SHOWN:
            shrinker = Shrinker(runner, case, found)
            shrinker.shrink()
            show(shrinker.small, shrinker.found)
    return counts, differing


def main():
    parser = argparse.ArgumentParser(description=__doc__.splitlines()[0])
    parser.add_argument("program")
    parser.add_argument("count", type=int)
    parser.add_argument("seeds", metavar="seed", type=int, nargs="+")
    parser.add_argument("--changes", action="store_true")
    parser.add_argument("--searches", action="store_true")
    parser.add_argument("--lists", action="store_true")
    parser.add_argument("--checks", action="store_true")
    parser.add_argument("--sorts", action="store_true")
    parser.add_argument("--schemas", action="store_true")
    parser.add_argument("--suffixes", action="store_true")
    parser.add_argument("--only", action="store_true", help="no cases of slapadd beside those")
    words = parser.parse_args()
    # check warns of files with passwords that others than their owner may use, which tests/real/files shows
    os.umask(0o077)
    program = shutil.which(words.program)
    if program is None:
        parser.error(f"{words.program}: no program")
    memory = "/dev/shm" if os.access("/dev/shm", os.W_OK) else None
    with tempfile.TemporaryDirectory(prefix="compare.", dir=memory) as home:
        runner = Runner(os.path.abspath(program), Path(home))
        asked = not words.only, words.changes, words.searches, words.lists, words.checks, words.sorts, words.schemas, words.suffixes
        kinds = [kind for kind, wanted in zip(KINDS, asked) if wanted]
        counts, differing = compare(runner, words.count, words.seeds, kinds)
    for key in sorted(counts, key=lambda key: (key.split(": ")[0], len(key), key)):
        print(f"{key:28} {counts[key]:7}")
    print(f"{words.count * len(words.seeds) * len(kinds)} cases, {differing} with a difference")
    return 1 if differing else 0


sys.exit(main())
