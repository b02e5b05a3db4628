#!/usr/bin/env python3
"""What each goal of a function's proof takes: goals.py CRATE [FN..]

A goal that has no answer in `Answers.antt` is left to `search`, and then to `grind`. Most take some hundredths of a second, a few take seconds:
those are worth an answer by hand. FN is a function's name as a check prints it, or its end; without one all functions of the crate are looked at.
In a copy of the crate each such goal gets two modules of its own, one for either tactic, and the times of the files that the check writes tell what
each takes. The libraries below have to be built: by `build`, for a crate of the program. It takes up to three times as long as the functions'
check, and prints what takes a tenth of a second or more. A function's `using(..)` and `unfolding(..)` aren't tried. The goals of closures
a check answers at once, in another way. So it does those whose names `AT_ONCE` matches: they are left out."""
import importlib.util
import re
import shutil
import subprocess
import sys
import tempfile
import time
from importlib.machinery import SourceFileLoader
from pathlib import Path

TOP = Path(__file__).resolve().parent.parent
TACTICS = {"Search": "search rules", "Grind": "grind (arith, common_steps)"}
GOAL = re.compile(r"^pub (\S+) :\s+goal\.", re.M)
AT_ONCE = re.compile(r"(into_iter|size_hint|from_residual|branch-|drop-)(.*-)?requires")
LEAST = 0.1


def script(path):
    """A program of the repository as a module."""
    sys.dont_write_bytecode = True
    loader = SourceFileLoader(path.name, str(path))
    module = importlib.util.module_from_spec(importlib.util.spec_from_loader(loader.name, loader))
    loader.exec_module(module)
    return module


def crate_of(name):
    """A crate of the program, and its libraries, as `build` has them."""
    build, known = script(TOP / "build"), {}
    for it, stands_on in build.needed().items():
        known[it] = build.Crate(it, stands_on, known)
    crate = known.get(name) or sys.exit(f"goals: the program needs no crate {name}")
    if missing := [it.name for it in crate.below if not it.is_built()]:
        sys.exit(f"goals: not built: {' '.join(missing)}")
    return crate


class Probe:
    """A copy of a crate in a folder, and what a check of it writes."""

    def __init__(self, crate, folder):
        self.name, self.folder, self.kept = crate.name, folder / crate.name, folder / "kept"
        shutil.copytree(crate.folder, self.folder, ignore=shutil.ignore_patterns("out"))
        words = [str(word) for word in crate.words(1)]
        # The words of a check are those of a build without what names its result.
        end = next(at for at, word in enumerate(words) if word in ("--statements", "--toolchain"))
        self.words = [words[0], "check", *words[2:end]]

    def check(self, *more):
        ran = subprocess.run([*self.words, *more], cwd=self.folder, stdout=subprocess.PIPE, stderr=subprocess.STDOUT, text=True)
        return ran.stdout

    def functions(self):
        """The functions of the crate by the names that a check prints, but for drops that no one wrote."""
        said = self.check("--incremental", str(self.kept))
        return [it for it in re.findall(r"^fn (\S+): proved", said, re.M) if "++" not in it] or sys.exit(said)

    def offered(self, functions):
        """The folders of the functions' proofs below `proofs`, each with the text that holds all goals of the function."""
        out = self.folder.parent / "offered"
        said = self.check("--generated", str(out), "--incremental", str(self.kept), *(word for it in functions for word in ("--start", it)))
        top = out / f"Rattle-{self.name}-proofs"
        found = {file.parent.relative_to(top): file.read_text() for file in sorted(top.rglob("AnswersOffered.antt"))}
        return found or sys.exit(said)

    def split(self, place, text):
        """Puts each goal that has no answer into modules of its own. Gives the goals by the names of their modules."""
        answers = self.folder / "proofs" / place / "Answers.antt"
        own = answers.read_text() if answers.exists() else ""
        blocks = re.split(r"\n\n+", text)
        head = "\n".join(it for it in blocks if not GOAL.search(it))
        head += "".join(f"\nuse Rattle.std.proofs.{where}.{{{name}}}" for where, name in (("Common", "arith"), ("lemmas.Grind", "common_steps"))
                        if not re.search(rf"\b{name}\b", head))
        goals = [it for it in blocks if (found := GOAL.search(it)) and not AT_ONCE.match(found[1]) and found[1] not in GOAL.findall(own)]
        modules, answered = {}, ""
        # The first one is there twice: what is loaded with it counts for none.
        for at, goal in enumerate([*goals[:1], *goals]):
            name = GOAL.search(goal)[1]
            bound = re.search(rf"^{re.escape(name)}((?: [^\s=:]+)*)\s+=\s+\?", goal, re.M)[1]
            for tactic, call in TACTICS.items():
                module = f"{tactic}{at:03}"
                file = answers.with_suffix("") / f"{module}.antt"
                file.parent.mkdir(parents=True, exist_ok=True)
                file.write_text(f"{head}\n\npub tried : goal.{name}\ntried{bound} = {call}\n")
                modules[module] = name if at else None
            # A goal has a type of its own only where it has an answer.
            answered += f"\npub {name} : goal.{name}\n{name}{bound} = search{at:03}{bound}\n" if at else ""
        path = ".".join((f"Rattle.{self.name}.proofs", *place.parts, "Answers"))
        uses = "".join(f"use {path}.{module}.{{tried as {module.lower()}}}\n" for module in modules)
        answers.write_text("".join(f"mod {module}\n" for module in modules) + uses + (own or head + "\n") + answered)
        return modules

    def times(self, began):
        """The seconds of each module that was written since then."""
        files = sorted((file.stat().st_mtime, file.name) for file in self.kept.rglob("*.oantt") if file.stat().st_mtime > began)
        times = {}
        for (before, _), (after, name) in zip(files, files[1:]):
            module = name.removesuffix(".oantt").removesuffix(".decls")
            times[module] = times.get(module, 0) + after - before
        return times


def rows(probe, tried, times, said):
    """What to print of each goal, with the seconds that `search` took of it."""
    for place, modules in tried.items():
        for module, goal in modules.items():
            if not goal or not module.startswith("Search"):
                continue
            told = []
            for it in (module, module.replace("Search", "Grind")):
                seconds = times.get(".".join((f"Rattle-{probe.name}-proofs", *place.parts, "Answers", it)), 0)
                told.append((seconds, f"{seconds:.2f}" + (" fails" if f"{place}/Answers/{it}.antt:" in said else "")))
            yield told[0][0], f"search {told[0][1]}, grind {told[1][1]}: {'::'.join(place.parts)} {goal}"


def main():
    if len(sys.argv) < 2:
        sys.exit(__doc__)
    with tempfile.TemporaryDirectory() as folder:
        probe = Probe(crate_of(sys.argv[1]), Path(folder))
        functions = sys.argv[2:] or probe.functions()
        tried = {place: probe.split(place, text) for place, text in probe.offered(functions).items()}
        began = time.time()
        said = probe.check("--incremental", str(probe.kept), "--allow-holes", *(word for it in functions for word in ("--only", it)))
        found = sorted(rows(probe, tried, probe.times(began), said), reverse=True)
        if found and not found[0][0]:
            sys.exit(said)
        for seconds, row in found:
            if seconds >= LEAST:
                print(row)


if __name__ == "__main__":
    main()
