"""What `schema` prints of a server's schema: lines for the end of a dir.conf, with comments on what was changed and what is left out.

A definition is taken where it has no fault behind all that stands there, over and over, until none is left that can be taken: first as it stands,
then types with repairs, then classes.
"""
import copy
import re

import ldif
import schema

LDIF_WORDS = {b"attributetypes": b"attributetype", b"olcattributetypes": b"attributetype", b"objectclasses": b"objectclass",
              b"olcobjectclasses": b"objectclass", b"olcobjectidentifier": b"objectidentifier"}
DIRECTIVES = (b"attributetype", b"objectclass", b"objectidentifier")
TOKEN = re.compile(rb"'[^']*'?|[()$]|[^ \t'()$]+|[ \t]+")
BUILT_IN = {b"attributetype": [b"( 2.5.4.0 NAME 'objectClass' EQUALITY objectIdentifierMatch SYNTAX 1.3.6.1.4.1.1466.115.121.1.38 )"],
            b"objectclass": [b"( 2.5.6.0 NAME 'top' ABSTRACT MUST objectClass )", b"( 1.3.6.1.4.1.1466.101.120.111 NAME 'extensibleObject' SUP top AUXILIARY )"]}
FLAGS = (b"obsolete", b"single-value", b"collective", b"no-user-modification", b"abstract", b"structural", b"auxiliary")
OF_NO_MEANING = (b"desc", b"obsolete")


# what stands in a text

def lines_of(text):
    """Each line with those that it goes on on."""
    lines = []
    for stretch in text.split(b"\n"):
        stretch = stretch[:-1] if stretch.endswith(b"\r") else stretch
        if lines and lines[-1] and stretch[:1] in (b" ", b"\t"):
            lines[-1] += stretch[1:] if is_ldif(lines[-1]) else b" " + stretch[1:]
        else:
            lines.append(stretch)
    return lines


def is_ldif(line):
    return b":" in re.match(rb"[^ \t]*", line)[0]


def said(line):
    """-> (the word that it is of, what it says), or None"""
    if is_ldif(line):
        name, _, rest = line.partition(b":")
        word = LDIF_WORDS.get(name.lower())
        value = re.sub(rb"\A\{[^}]*\}", b"", value_of(rest))
    else:
        word, value = re.match(rb"([^ \t]*)(.*)", line, re.S).groups()
        word = word.lower() if word.lower() in DIRECTIVES else None
    return None if word is None else (word, value.lstrip(b" \t").translate(bytes.maketrans(b"\r\n", b"  ")))


def value_of(rest):
    if not rest.startswith(b":"):
        return rest.lstrip(b" ")
    try:
        return ldif.base64_value(rest[1:].strip(b" "))
    except ldif.Fault:
        return rest


def definitions_in(text):
    """-> [(attributetype or objectclass, the text with OIDs in place of macros)]"""
    statements = [found for found in map(said, lines_of(text)) if found]
    macros = []
    for word, what in statements:
        if word == b"objectidentifier":
            name, oid = re.match(rb"([^ \t]*)[ \t]*([^ \t]*)", what).groups()
            macros.append((name.lower(), oid_for(macros, oid)))
    return [(word, expanded(macros, what)) for word, what in statements if word != b"objectidentifier"]


def oid_for(macros, word):
    name, colon, rest = word.partition(b":")
    for known, oid in macros:
        if known == name.lower():
            return oid + (b"." + rest if colon else b"")
    return word


def with_length(macros, word):
    oid, brace, rest = word.partition(b"{")
    return oid_for(macros, oid) + brace + rest


def expanded(macros, text):
    """The first word behind the parenthesis is an OID, and what stands behind SYNTAX, bare or in quotes."""
    out, due, has_opened = [], False, False
    for token in TOKEN.findall(text):
        if not has_opened:
            has_opened = due = token == b"("
        elif token.isspace() or token in (b"(", b")", b"$"):
            pass
        elif token.startswith(b"'"):
            if due == "syntax":
                ended = len(token) > 1 and token.endswith(b"'")
                words = re.split(rb"([ \t()$]+)", token[1:-1] if ended else token[1:])
                token = b"'" + b"".join(words[at] if at % 2 or not words[at] else with_length(macros, words[at]) for at in range(len(words))) + b"'" * ended
                due = False
        elif due:
            token, due = with_length(macros, token), False
        elif token.lower() == b"syntax":
            due = "syntax"
        out.append(token)
    return b"".join(out)


# what a text defines

def defined(conf):
    """The types and classes that the lines of a dir.conf define."""
    there = schema.Conf()
    for number, line in schema.joined_lines(conf):
        if line and not line.startswith(b"#"):
            word, rest = re.fullmatch(rb"([^ \t]*)[ \t]*(.*)", line, re.S).groups()
            if word.lower() not in (b"suffix", b"index"):
                try:
                    schema.first_pass(there, word, rest)
                except schema.Wrong as wrong:
                    raise wrong.at(conf, number) from None
    return there


def read(word, text):
    """The OID and the fields of a definition that count, or None where it can't be read."""
    try:
        oid, fields = (schema.read_type if word == b"attributetype" else schema.read_class)(text)
    except schema.Wrong:
        return None
    return oid, {key: value for key, value in fields.items() if key not in OF_NO_MEANING and not key.startswith(b"x-")}


def meaning(there, word, text):
    """What a definition says: equal for two that say the same by the names that are there, and None for one that can't be read."""
    found = read(word, text)
    if found is None:
        return None
    oid, fields = found
    names = fields.get(b"name", [])
    named = (word, oid, tuple(names[:1]), frozenset(name.lower() for name in names))
    if word == b"attributetype":
        rules = tuple(fields[rule].lower() if rule in fields else None for rule in (b"equality", b"ordering", b"substr"))
        flags = tuple(flag in fields for flag in (b"single-value", b"collective", b"no-user-modification"))
        above = number_of(there.type_of, fields[b"sup"]) if b"sup" in fields else None
        return named, above, rules, fields.get(b"syntax"), flags, fields.get(b"usage", b"userApplications").lower()
    kind = next((kind for kind in schema.CLASS_KINDS if kind in fields), b"structural")
    lists = ((b"sup", there.class_of), (b"must", there.type_of), (b"may", there.type_of))
    return named, kind, tuple(frozenset(number_of(find, name) for name in fields.get(key, [])) for key, find in lists)


def number_of(find, name):
    """The number of what a name stands for, or the name in small letters."""
    number = find(name)
    return name.lower() if number is None else number


def are_alike(there, one, other):
    """Whether two definitions say the same."""
    said = meaning(there, *one)
    return said is not None and said == meaning(there, *other)


def stated(conf):
    found = []
    for _, line in schema.joined_lines(conf):
        word, rest = re.fullmatch(rb"([^ \t]*)(.*)", line, re.S).groups()
        if word.lower() in DIRECTIVES[:2]:
            found.append((word.lower(), rest))
    return found


def is_built_in(definition):
    fields = read(*definition)
    return fields is not None and fields[0] in schema.BUILT_IN


# repairs

def field_of(word, text):
    """Where a field stands: -> (begin of its word, end of its value, [(begin, end) of each token of the value]), or None"""
    tokens = [found for found in TOKEN.finditer(text) if not found[0].isspace()][2:]
    at = 0
    while at < len(tokens):
        name, behind = tokens[at][0], tokens[at + 1:]
        count = 0 if name.lower() in FLAGS else min(1, len(behind))
        if count and behind[0][0] == b"(":
            count = next((place for place, token in enumerate(behind, 1) if token[0] == b")"), len(behind))
        if name.lower() == word:
            return tokens[at].start(), (behind[count - 1] if count else tokens[at]).end(), [token.span() for token in behind[:count]]
        at += 1 + count
    return None


def words_of(word, text):
    """-> [(begin, end, text)] of the words of a field"""
    found = field_of(word, text)
    tokens = [(begin, end, text[begin:end]) for begin, end in (found[2] if found else []) if text[begin:end] not in (b"(", b")", b"$")]
    return [(begin, end, token[1:-1] if token.startswith(b"'") else token) for begin, end, token in tokens]


def called(text):
    names = words_of(b"name", text)
    tokens = [found[0] for found in TOKEN.finditer(text) if not found[0].isspace()]
    return names[0][2] if names else tokens[1] if len(tokens) > 1 else b"a definition"


def without_name(word, text):
    for begin, end, name in words_of(b"name", text):
        is_quoted = text[begin:begin + 1] == b"'" and text[begin:end].endswith(b"'") and end - begin > 1
        if is_quoted and not (schema.NAME.fullmatch(name) and (word == b"objectclass" or name.lower() not in schema.BARRED)):
            return text[:begin] + text[end:], called(text) + b": the name " + name + b" isn't allowed here, so it is left out"
    return None


def with_other_rule(text):
    words = words_of(b"equality", text)
    if not words:
        return None
    begin, end, rule = words[0]
    syntax = (words_of(b"syntax", text) or [(0, 0, b"")])[0][2]
    return text[:begin] + b"caseIgnoreMatch" + text[end:], \
        called(text) + b": EQUALITY " + rule + b" isn't for SYNTAX " + syntax + b": caseIgnoreMatch stands in its place"


def without_unknown(there, text):
    found = field_of(b"may", text)
    if not found or not found[2]:
        return None
    names = [name for _, _, name in words_of(b"may", text)]
    known = [name for name in names if there.type_of(name) is not None]
    unknown = [name for name in names if there.type_of(name) is None]
    if not unknown:
        return None
    value = b"MAY ( " + b" $ ".join(known) + b" )" if known else b""
    return text[:found[0]] + value + text[found[1]:], \
        called(text) + b": MAY of " + b", ".join(unknown) + (b", which isn't" if len(unknown) == 1 else b", which aren't") + b" defined, is left out"


def repaired(there, word, text):
    """-> (a text that can be taken, what was done), or None"""
    done = []
    if fault_of(copy.deepcopy(there), word, text) is None:
        return None     # it is taken as it stands, next time
    for _ in range(16):
        code = fault_of(there, word, text)
        if code is None:
            return text, b"; ".join(done)
        step = without_name(word, text) if code == "C2" else \
            with_other_rule(text) if code == "C6" and word == b"attributetype" else \
            without_unknown(there, text) if code == "C4" and word == b"objectclass" else None
        if step is None or code != "C2" and not changes_alone(word, text, step[0]):
            return None
        text = step[0]
        done.append(step[1])
    return None


def changes_alone(word, old, new):
    """Whether only the equality rule of a type changes, or what a class allows."""
    was, is_now = read(word, old), read(word, new)
    free = b"equality" if word == b"attributetype" else b"may"
    return None not in (was, is_now) and was[0] == is_now[0] and \
        {key: value for key, value in was[1].items() if key != free} == {key: value for key, value in is_now[1].items() if key != free}


def wrong_of(there, word, text):
    """What is wrong with a definition, which is taken where nothing is."""
    try:
        schema.first_pass(there, word, text)
    except schema.Wrong as wrong:
        return wrong
    return None


def fault_of(there, word, text):
    """The code of that."""
    wrong = wrong_of(there, word, text)
    return None if wrong is None else str(wrong)


def detail_of(wrong):
    """Which word of a definition a fault is of."""
    code, word = str(wrong), wrong.word or b""
    if code in ("C4", "C5"):
        return b", " + wrong.keyword.upper() + b" " + word
    if code == "C3":
        return b", " + word
    if code != "C2":
        return b""
    kinds = {"begins with": b"no number in front", "ends with": b"no end", "is called": b"no field " + word, "stands behind": b"field " + word}
    # what is said of an end says that nothing stands behind it
    return b"".join([b", " + detail for words, detail in kinds.items() if words in wrong.why][:1])


# what is printed

def printed(source, conf):
    """-> (lines, whether nothing was changed or left out)"""
    there = defined(conf)
    definitions = definitions_in(source)
    known = stated(conf)
    wanted = [it for it in definitions if not is_built_in(it) and not any(are_alike(there, other, it) for other in known)]
    left = [it for sort in DIRECTIVES[:2] for it in wanted if it[0] == sort]
    out, with_repairs = [], set()
    for sort in DIRECTIVES[:2]:
        while True:
            left = settle(there, sort, left, out)
            if not repair(there, sort, left, out, with_repairs):
                break
    remarks = [b"# left out: built in with other fields: %s %s\n" % it for it in definitions
               if is_built_in(it) and not any(are_alike(there, (it[0], text), it) for text in BUILT_IN[it[0]])]
    if not definitions:
        remarks = [b"# no definition of a type or a class stands here\n"]
    front = b"\n" if conf and not conf.endswith(b"\n") else b""
    known = stated(conf + front + b"".join(out))
    for word, text, number in left:
        if number not in with_repairs and not any(are_alike(there, other, (word, text)) for other in known):
            wrong = wrong_of(there, word, text)
            remarks.append(b"# left out: %s %s%s: %s %s\n" % (str(wrong).encode(), schema.FAULTS[str(wrong)].encode(), detail_of(wrong), word, text))
    return front + b"".join(out + remarks), not with_repairs and not remarks


def settle(there, sort, left, out):
    left = [it if len(it) == 3 else (*it, number) for number, it in enumerate(left)]
    while True:
        rest = []
        for word, text, number in left:
            if word == sort and fault_of(there, word, text) is None:
                out.append(b"%s %s\n" % (word, text))
            else:
                rest.append((word, text, number))
        if len(rest) == len(left):
            return rest
        left = rest


def repair(there, sort, left, out, with_repairs):
    """Whether one was taken with repairs."""
    count = len(with_repairs)
    for word, text, number in left:
        if word == sort and number not in with_repairs:
            found = repaired(there, word, text)
            if found:
                out.append(b"# %s\n%s %s\n" % (found[1], word, found[0]))
                with_repairs.add(number)
    return len(with_repairs) > count


# the command

DETAILS = re.compile(rb"(?m)^(# left out: C\d+ [a-z ]*?), .*?(: (?:attributetype|objectclass) )")


def without_details(lines):
    """Which word of a definition a fault is of isn't looked at."""
    return DETAILS.sub(rb"\1\2", lines)


def schema_of(text, conf, source):
    """The same without details."""
    status, output, messages = with_details(text, conf, source)
    return status, without_details(output), messages


def with_details(text, conf, source):
    """A text of None can't be read. -> (status, output, messages)"""
    if text is None:
        return 3, b"", f"{source}: cannot read\n".encode()
    try:
        lines, is_whole = printed(text, conf)
    except schema.Fault as fault:
        return 2, b"", f"{fault}\n".encode()
    return (0 if is_whole else 1), lines, b""


def is_read(conf):
    try:
        return bool(defined(conf))
    except schema.Fault:
        return False
