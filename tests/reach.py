"""What a check of a function rests on: the items that its code, its contract and its proof name, and those that these name, and so on.

Of another function that is its contract, since a check reads no other body. So what is added to a crate leaves what was said of the rest as it was.
A name counts where its file imports or defines it, and leads to whatever has that name in its crate or one below: one that stands twice, to both.
That is as far as names tell: it misses what none shows, as a method of a value whose type isn't named. `edits --anew` rests on nothing of it."""
import collections
import functools
import hashlib
import re
from pathlib import Path
from typing import NamedTuple

TOP = Path(__file__).resolve().parent.parent
CODE_ITEM = re.compile(r"(?:pub(?:\(\w+\))? )?(?:ghost )?(?:const fn|unsafe fn|fn|struct|enum|trait|const|static|type|impl|macro_rules!|union)\b")
KEYWORDS = set("pub crate ghost const unsafe fn struct enum trait static type union impl".split())
MODIFIERS = {"pub", "abbrev", "unfoldable", "irrelevant", "record", "data", "syntax", "instance"}
WORD = re.compile(r"[\w'-]+")
IMPORT = re.compile(r"^(?:pub |ghost )*use ([^;]*?)(?:;|(?=^\S)|\Z)", re.M | re.S)
RENAMED = re.compile(r"([\w.:'-]+) as ([\w'-]+)")


class Item(NamedTuple):
    """An item: its file, the names that lead to it, and its text."""
    file: str
    names: tuple
    text: str


def crates():
    """The crates of the repository, and on which each one stands, in one step or more."""
    lines = [line.partition(":") for line in (TOP / "crates.txt").read_text().splitlines() if ":" in line and not line.startswith("#")]
    below = {name: set(rest.split()).intersection(it for it, _, _ in lines) for name, _, rest in lines}
    for crate in below:
        for others in below.values():
            if crate in others:
                others |= below[crate]
    return below


def without_bodies(lines):
    """The lines of code without the bodies of functions that have a contract: from a line that is a brace to the one that closes it; nor comments."""
    closed_by = None
    for line in lines:
        if closed_by is None and line.strip() == "{":
            closed_by = line.replace("{", "}")
        elif closed_by is None and not line.lstrip().startswith("//"):
            yield line
        elif line == closed_by:
            closed_by = None


def parts_of(lines, is_head):
    """The lines in parts, each from a line that is a head to the next one."""
    heads = [at for at, line in enumerate(lines) if is_head(line)]
    return [lines[at:end] for at, end in zip(heads, [*heads[1:], len(lines)])]


def code_items(file, lines):
    """The items of a file of code. An impl has the name of its type."""
    for part in parts_of(lines, lambda line: CODE_ITEM.match(line) or line.startswith("#[")):
        head = next((line for line in part if CODE_ITEM.match(line)), "")
        is_impl = re.match(r"impl\b", head)
        words = WORD.findall(re.sub(r"<[^<>]*(?:<[^<>]*>[^<>]*)*>", "", head.split("{")[0].split(" for ")[-1]) if is_impl else head)
        name = next((word for word in words if word not in KEYWORDS), "")
        yield Item(file, (name,), "\n".join(without_bodies(part)))


def is_stated(line):
    """Whether a line begins what says the type of something, and no equation: a colon stands before any equals sign, in no parentheses."""
    depth = 0
    for at, sign in enumerate(line):
        depth += (sign in "({") - (sign in ")}")
        if depth == 0 and line[at:at + 3] in (" : ", " = "):
            return sign == " " and line[at + 1] == ":"
    return False


def name_of(line):
    return next((word for word in WORD.findall(line.split(":")[0]) if word not in MODIFIERS), "")


def in_module(part):
    """The definitions in a module, or in modules in it: the first lines of these, and the lines of each."""
    heads, found = [], []
    for line in part:
        indent = len(line) - len(line.lstrip())
        heads = [head for head in heads if head[0] < indent] if line.lstrip().startswith("module ") or found else heads
        if line.lstrip().startswith("module "):
            heads.append((indent, line))
        elif heads and indent == heads[-1][0] + 2:
            found.append(([head for _, head in heads], [line]))
        elif found:
            found[-1][1].append(line)
    return found


def proof_items(file, lines):
    """The items of a file of definitions or lemmas; of lemmas what they state."""
    is_lemma = Path(file).parts[2] == "proofs"
    lines = [line for line in lines if line.strip() and not line.lstrip().startswith("--")]
    for part in parts_of(lines, lambda line: line[0] not in " \t}"):
        if part[0].startswith("module "):
            for inner in in_module(part):
                if not is_lemma or is_stated(inner[1][0]):
                    yield Item(file, (name_of(inner[1][0]),), "\n".join([*inner[0], *inner[1]]))
        elif not part[0].startswith("use ") and (not is_lemma or is_stated(part[0])):
            yield Item(file, (name_of(part[0]),), "\n".join(part))


def items_of(folder):
    """The items of a crate: those of attributes that stand apart from an item go to the one behind them."""
    for file in sorted((*(folder / "src").rglob("*.rt"), *(folder / "specs").rglob("*.antt"), *(folder / "proofs").glob("*.antt"))):
        name, lines = str(file.relative_to(TOP)), file.read_text().splitlines()
        yield from (code_items if file.suffix == ".rt" else proof_items)(name, lines)


@functools.cache
def named(crate):
    """The items of a crate by their names, each behind the attributes that stand before it."""
    found, before = collections.defaultdict(list), ""
    for item in items_of(TOP / "crates" / crate):
        if item.names == ("",):
            before += item.text
        else:
            item = item._replace(text=before + item.text)
            before = ""
            for name in item.names:
                found[name].append(item)
    return found


def first_of(lines, first):
    """Where the attributes of a function begin, of which this is the first line."""
    while first > 1 and lines[first - 2].startswith(("#[", "///", "    #[", "    ///")):
        first -= 1
    return first - 1


def root_texts(crate, paths, function):
    """The code of a function with its body, else of these files, and the files of its proof, or of theirs."""
    folder = TOP / "crates" / crate
    for path in sorted(paths):
        lines = (folder / path).read_text().splitlines()
        part = lines[first_of(lines, function.first):function.last] if function else lines
        yield f"crates/{crate}/{path}", "\n".join(line for line in part if not line.lstrip().startswith(("//", "--")))
    for file in sorted((folder / "proofs").rglob("*.antt")):
        parents = file.relative_to(folder / "proofs").parts[:-1]
        if parents and (parents[-1] == function.name if function else any(part in Path(path).with_suffix("").parts for path in paths for part in parents)):
            yield str(file.relative_to(TOP)), file.read_text()


@functools.cache
def scope_of(file):
    """What each name means that a file imports or defines: the names of items, each with its crate."""
    found, own = collections.defaultdict(set), Path(file).parts[1]
    for path in IMPORT.findall((TOP / file).read_text()):
        words = WORD.findall(path)
        crate = words[1] if words[0] == "Rattle" else own if words[0] in ("crate", "super", "self") else words[0]
        for old, new in RENAMED.findall(path):
            found[new] |= {(crate, word) for word in WORD.findall(old)}
        for word in words:
            found[word].add((crate, word))
    lines = (TOP / file).read_text().splitlines()
    for item in (code_items if file.endswith(".rt") else proof_items)(file, lines):
        for name in item.names:
            found[name].add((own, name))
    return found


@functools.cache
def led_to(item, places):
    """The items that an item leads to, in these crates."""
    scope = scope_of(item.file)
    meant = {it for word in set(WORD.findall(item.text)) for it in scope.get(word, ())}
    return frozenset(other for place, name in meant if place in places for other in named(place).get(name, ()))


def reach(crate, paths, function, below):
    """The sum of what a check of a function, or of these files of a crate, rests on; `below` has the crates on which each one stands."""
    texts, places = dict(root_texts(crate, paths, function)), frozenset({crate, *below[crate]})
    found, left = set(), [Item(name, (), text) for name, text in texts.items()]
    while left:
        new = led_to(left.pop(), places) - found
        found |= new
        left += new
    lines = [f"{name} {sum_of(text)}\n" for name, text in sorted(texts.items())] + sorted(f"{it.file} {sum_of(it.text)}\n" for it in found)
    return sum_of("".join(lines))


@functools.cache
def sum_of(text):
    return hashlib.sha256(text.encode()).hexdigest()
