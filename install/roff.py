"""From the Markdown of our documents to man(7), which `man` and `mandoc` read."""
import re
import textwrap

WIDTH = 78
INLINE = re.compile(r"`([^`]+)`|\*\*([^*]+)\*\*|\[([^\]]+)\]\([^)]*\)")
# An item that says of a thing, which begins with code or is bold, what it is.
OF_A_THING = re.compile(r"((?:`[^`]+`|\*\*[^*]+\*\*)(?:`[^`]+`|[^`:])*): (.*)")


def escaped(text):
    """A text as it stands: no mark of it is read."""
    return text.replace("\\", "\\e").replace("-", "\\-").replace("'", "\\(aq").replace("`", "\\(ga").replace("^", "\\(ha").replace("~", "\\(ti")


def bold(text):
    return f"\\fB{escaped(text)}\\fR"


def italic(text):
    return f"\\fI{escaped(text)}\\fR"


def inline(text):
    """A text in which code and names are bold, and links are what they are called."""
    done, at = "", 0
    for found in INLINE.finditer(text):
        code, strong, link = found.groups()
        done += plain(text[at:found.start()]) + (inline(link) if link else bold(code or strong))
        at = found.end()
    return done + plain(text[at:])


def plain(text):
    return text.replace("\\", "\\e")


def wrapped(text):
    """The lines of a paragraph: each sentence begins one, and none begins with a mark of man(7)."""
    lines = []
    for sentence in re.split(r"(?<=[.:;]) (?=\S)", " ".join(text.split())):
        lines += textwrap.wrap(sentence, WIDTH, break_long_words=False, break_on_hyphens=False)
    return [f"\\&{line}" if line[:1] in ".'" else line for line in lines]


def paragraph(text):
    return wrapped(inline(text))


def heading(text):
    """A heading, in capitals, but for options."""
    return [f'.SH "{" ".join(word if word.startswith("-") else word.upper() for word in text.split())}"']


def item(term, lines):
    """What stands for a thing, and below it what is said of it."""
    return [".TP 8", term, *lines]


def code(lines):
    return [".PP", ".nf", ".RS 4", *(f"\\&{escaped(line)}" if line else ".sp" for line in lines), ".RE", ".fi"]


def list_item(text):
    """An item of a list."""
    if found := OF_A_THING.fullmatch(text):
        return item(inline(found[1]), paragraph(found[2]))
    return [".IP \\(bu 2", *paragraph(text)]


def blocks(text):
    """The parts of a text: paragraphs, items and code, each with its kind."""
    for part in re.split(r"\n{2,}", text.strip("\n")):
        lines = part.split("\n")
        if all(line.startswith("    ") for line in lines):
            yield "code", [line[4:] for line in lines]
        elif lines[0].startswith("- "):
            for one in re.split(r"\n(?=- )", part):
                yield "item", " ".join(one[2:].split())
        elif lines[0].startswith("#"):
            yield "heading", lines[0].lstrip("# ")
        else:
            yield "text", " ".join(part.split())


def lines_of(text):
    """The lines of a Markdown text in man(7)."""
    done = []
    for kind, it in blocks(text):
        if kind == "code":
            done += code(it)
        elif kind == "item":
            done += list_item(it)
        elif kind == "heading":
            done += heading(it)
        else:
            done += [".PP", *paragraph(it)]
    return done


def section(document, name):
    """What stands under a heading of a Markdown document, up to the next one."""
    parts = re.split(r"^## +(.*?) *$", document, flags=re.M)
    return dict(zip(parts[1::2], parts[2::2]))[name].strip("\n")
