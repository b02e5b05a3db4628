"""Random schemas as servers have them, and a dir.conf that they are for."""
import base64
import re
from dataclasses import dataclass
from typing import ClassVar, Optional

import schemas
from configs import other_case, some

NAMES = [b"a", b"b", b"c", b"dd", b"e-e", b"name", b"may", b"dn", b"version", b"Control", b"f_", b"1x", b"objectClass"]
WORDS = [b"top", b"objectClass", b"extensibleObject", b"1.2.1", b"1.2.2", b"zz", b"2.5.4.0"] + NAMES
RULES = [b"caseIgnoreMatch", b"caseExactMatch", b"integerMatch", b"distinguishedNameMatch", b"booleanMatch", b"nobodysMatch", b"objectIdentifierMatch"]
PREFIX = b"1.3.6.1.4.1.1466.115.121.1."
SYNTAXES = [PREFIX + end for end in (b"15", b"12", b"27", b"34", b"26", b"15{64}", b"38")]
MACROS = [b"mine", b"Root", b"text", b"a", b"name"]
OIDS = [b"1.2.%d" % at for at in range(8)] + [b"2.5.4.0", b"2.5.6.0", b"1.3.6.1.4.1.1466.101.120.111", b"word-oid", b"mine:1", b"ROOT:2.3", b"text", b"mine"]
LDIF = {b"attributetype": [b"attributeTypes", b"olcAttributeTypes"], b"objectclass": [b"objectClasses", b"olcObjectClasses"],
        b"objectidentifier": [b"olcObjectIdentifier"]}
OTHERS = [b"# a comment", b"#", b"", b"", b"include /etc/x", b"dn: cn=schema", b"objectClass: top", b"cn: x", b"suffix dc=ex", b"index a eq", b"olcDbIndex: a eq",
          b"attributetypes ( 1.2.9 )", b"attributeTypes", b" goes on", b"database: x"]
BUILT_IN = [(b"attributetype", b"( 2.5.4.0 NAME 'objectClass' DESC 'x' EQUALITY objectIdentifierMatch SYNTAX 1.3.6.1.4.1.1466.115.121.1.38 )"),
            (b"objectclass", b"( 2.5.6.0 NAME 'top' ABSTRACT MUST objectClass )"),
            (b"objectclass", b"( 1.3.6.1.4.1.1466.101.120.111 NAME 'extensibleObject' SUP top AUXILIARY )")]


@dataclass(frozen=True)
class Schema:
    """The text that schema reads, None for a file that isn't there, and the dir.conf of --db, or None without it."""
    OPTIONS: ClassVar = (("by_file", False),)
    TEXTS: ClassVar = (("text", b""), ("conf", b""))
    text: Optional[bytes]
    conf: Optional[bytes] = None
    by_file: bool = False


def names_of(rng, names):
    chosen = rng.sample(names, rng.choice([1, 1, 1, 2, 3]))
    quoted = [b"'%s'" % name for name in chosen]
    return quoted[0] if len(quoted) == 1 and some(rng, .8) else b"( " + b" ".join(quoted) + b" )"


def listed(rng, words):
    chosen = [rng.choice(words) for _ in range(rng.choice([1, 1, 2, 3]))]
    return chosen[0] if len(chosen) == 1 and some(rng, .7) else b"( " + b" $ ".join(chosen) + b" )"


def type_of(rng):
    fields = [b"NAME " + names_of(rng, NAMES)] if some(rng, .95) else []
    has_above = some(rng, .35)
    fields += [b"SUP " + rng.choice(WORDS)] if has_above else []
    fields += [b"EQUALITY " + rng.choice(RULES)] if some(rng, .5) else []
    if not has_above or some(rng, .3):
        syntax = rng.choice(SYNTAXES * 3 + [b"text", b"TEXT{9}", b"mine:4"])
        fields.append(b"SYNTAX " + (b"'%s'" % syntax if some(rng, .05) else syntax))
    fields += [flag for flag in (b"SINGLE-VALUE", b"NO-USER-MODIFICATION", b"OBSOLETE", b"COLLECTIVE", b"USAGE directoryOperation") if some(rng, .04)]
    return definition(rng, fields)


def class_of(rng):
    fields = [b"NAME " + names_of(rng, NAMES + [b"k", b"l", b"m"])] if some(rng, .95) else []
    fields += [b"SUP " + listed(rng, [b"top", b"k", b"l", b"zz", b"extensibleObject"])] if some(rng, .5) else []
    fields += [rng.choice([b"ABSTRACT", b"STRUCTURAL", b"AUXILIARY"])] if some(rng, .4) else []
    fields += [b"MUST " + listed(rng, [b"objectClass"] * 2 + WORDS[:3] + NAMES[:4])] if some(rng, .4) else []
    fields += [b"MAY " + listed(rng, WORDS)] if some(rng, .6) else []
    return definition(rng, fields)


def definition(rng, fields):
    fields += [rng.choice([b"DESC 'x y'", b"DESC 'SYNTAX text'", b"X-ORIGIN 'RFC ( 1'", b"X-a ( 'p' 'q' )"])] if some(rng, .3) else []
    if some(rng, .2):
        rng.shuffle(fields)
    text = b" ".join([b"(", rng.choice(OIDS), *fields, b")"])
    return text.replace(b"( ", b"(").replace(b" )", b")") if some(rng, .1) else text


def macro_of(rng):
    return rng.choice(MACROS) + rng.choice([b" ", b"  ", b"\t"]) + rng.choice([b"1.2", b"1.2.5", b"mine:7", b"root", b"text:1", PREFIX + b"15", b""])


def statements(rng):
    drawn = []
    for _ in range(rng.choice([0, 1, 2, 3, 5, 8, 13])):
        kind = rng.randrange(10)
        drawn.append((b"attributetype", type_of(rng)) if kind < 5 else (b"objectclass", class_of(rng)) if kind < 8 else
                     (b"objectidentifier", macro_of(rng)) if kind < 9 else rng.choice(BUILT_IN))
        if some(rng, .08):
            drawn.append(drawn[rng.randrange(len(drawn))])
        if some(rng, .12):
            drawn.append(said_again(rng, rng.choice(drawn), drawn))
    return drawn


def said_again(rng, it, drawn):
    """A definition in other words: mostly with the same meaning."""
    word, text = it
    names = [NAMED.findall(other) for _, other in drawn]
    for _ in range(rng.choice([1, 1, 2, 3])):
        text = LISTED.sub(lambda found: found[1] + relisted(rng, found[2], names), text) if some(rng, .7) else SINGLE.sub(
            lambda found: found[1] + other_word(rng, found[2], names), text)
        text = text if some(rng, .7) else QUOTED_NAMES.sub(lambda found: found[1] + renamed(rng, found[2]), text)
        text = text if some(rng, .9) else re.sub(rb" (SUP|MUST|MAY|EQUALITY|SINGLE-VALUE|STRUCTURAL)\b", b" DESC 'x'", text, count=1)
        text = text if some(rng, .9) or word == b"attributetype" else text.replace(b" MAY ", b" STRUCTURAL MAY ", 1)
        text = text if some(rng, .9) or word == b"objectclass" else text.replace(b" SYNTAX ", b" USAGE userApplications SYNTAX ", 1)
    return word, text


LISTED = re.compile(rb"\b((?:SUP|MUST|MAY) )\( ?([^()']*?) ?\)")
SINGLE = re.compile(rb"\b((?:SUP|MUST|MAY|EQUALITY) )([^ ()']+)")
QUOTED_NAMES = re.compile(rb"\b(NAME )\( ?('[^()]*') ?\)")
NAMED = re.compile(rb"\A\( ?([^ ]+)|'([^']*)'")


def other_word(rng, word, names):
    """A word in another case, or what else a definition with it is called."""
    groups = [[number or name for number, name in found] for found in names]
    called = [group for group in groups if word.lower() in [name.lower() for name in group]]
    return rng.choice(rng.choice(called)) if called and some(rng, .5) else other_case(rng, word) if some(rng, .5) else word


def relisted(rng, text, names):
    """A list in another order, or with one of its words once more, left out or changed."""
    words = [word for word in re.split(rb"[ $]+", text) if word]
    if not words:
        return b"( " + text + b" )"
    rng.shuffle(words)
    words += [rng.choice(words)] if some(rng, .2) else []
    words = words[1:] if len(words) > 1 and some(rng, .1) else words
    words += [rng.choice(WORDS)] if some(rng, .08) else []
    return b"( " + b" $ ".join(other_word(rng, word, names) for word in words) + b" )"


def renamed(rng, text):
    """Names in another order or case, mostly behind the same first one."""
    first, *rest = text.split()
    rng.shuffle(rest)
    names = [first] + [other_case(rng, name) for name in rest]
    if some(rng, .15):
        rng.shuffle(names)
    return b"( " + b" ".join(names) + b" )"


def folded(rng, line, between):
    """A line that goes on, here and there."""
    for _ in range(rng.choice([0, 0, 1, 2])):
        at = rng.randrange(1, len(line) + 1)
        line = line[:at] + rng.choice([b"\n", b"\n", b"\r\n"]) + rng.choice(between) + line[at:]
    return line


def spelled(rng, word, text):
    if some(rng, .5):
        line = (word if some(rng, .7) else other_case(rng, word)) + rng.choice([b" ", b"  ", b"\t"]) + text
        return folded(rng, line, [b" ", b"\t", b"  "])
    name = rng.choice(LDIF[word])
    name = name if some(rng, .8) else other_case(rng, name)
    text = b"{%d}" % rng.randrange(12) + text if some(rng, .3) else text
    value = b":: " + base64.b64encode(text.replace(b" ", b"\n", 1) if some(rng, .1) else text) if some(rng, .2) else rng.choice([b": ", b":", b":  "]) + text
    return folded(rng, name + value, [b" "] * 9 + [b"\t", b"  "])


def text_of(rng):
    lines = []
    for word, text in statements(rng):
        lines += [rng.choice(OTHERS)] if some(rng, .2) else []
        lines.append(spelled(rng, word, text))
    end = rng.choice([b"\n"] * 4 + [b"\r\n"])
    return end.join(lines) + (end if some(rng, .9) else b"")


def conf_of(rng, text):
    """Sometimes it says some of what the text says."""
    if some(rng, .4):
        return None
    lines = [b"suffix dc=ex"] if some(rng, .8) else []
    lines += [b"%s %s" % (rng.choice([b"attributetype", b"ObjectClass"]), rng.choice([type_of, class_of])(rng)) for _ in range(rng.randrange(2))] if some(rng, .4) else []
    said = [(b"attributetype", line[14:]) for line in text.split(b"\n") if line.startswith((b"attributetype (1", b"attributetype ( 1")) and some(rng, .7)]
    said += [(b"objectclass", line[12:]) for line in text.split(b"\n") if line.startswith((b"objectclass (1", b"objectclass ( 1")) and some(rng, .7)]
    lines += [b"%s %s" % (said_again(rng, it, said) if some(rng, .4) else it) for it in said]
    return b"\n".join(lines) + (b"\n" if some(rng, .8) else b"")


def broken(rng, text):
    for _ in range(rng.choice([1, 1, 2, 4])):
        at = rng.randrange(len(text) + 1)
        text = text[:at] + bytes([rng.choice(b"\n\r \t'()$:{}#\x00\xff")]) * rng.randrange(2) + text[at + rng.randrange(2):]
    return text


def said_already(rng):
    """A text whose definitions a dir.conf has in other words."""
    lines = []
    while not lines:
        lines = [line for line in schemas.printed(text_of(rng), b"")[0].split(b"\n") if line and not line.startswith(b"#")]
    definitions = [tuple(line.split(b" ", 1)) for line in lines]
    again = [said_again(rng, it, definitions) for it in definitions]
    return b"".join(spelled(rng, *it) + b"\n" for it in again), b"".join(line + b"\n" for line in lines)


def schema_case(rng):
    if some(rng, .02):
        return Schema(None, None, True)
    if some(rng, .3):
        return Schema(*said_already(rng), some(rng, .3))
    text = text_of(rng)
    text = broken(rng, text) if some(rng, .25) else text
    return Schema(text, conf_of(rng, text), some(rng, .3))
