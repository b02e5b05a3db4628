"""What `-v` says behind a report: the sentences of docs/FAULTS.md, of a refusal's part and text, or of a fault's line."""
import bisect
import re

# the most bytes of a value, of the name of a type or a class, of another name, and of a line
VALUE, TYPE, NAME, LINE = 40, 64, 160, 400
MARKS = '"\\'
SYNTAXES = {
    "name": "no DN (1.3.6.1.4.1.1466.115.121.1.12) by its form or the types of dir.conf",
    "text": "no Directory String (1.3.6.1.4.1.1466.115.121.1.15): UTF-8, not empty",
    "ascii": "no IA5 String (1.3.6.1.4.1.1466.115.121.1.26)", "numeric": "no Numeric String (1.3.6.1.4.1.1466.115.121.1.36)",
    "boolean": "no Boolean (1.3.6.1.4.1.1466.115.121.1.7)", "integer": "no Integer (1.3.6.1.4.1.1466.115.121.1.27)",
    "oid": "no OID (1.3.6.1.4.1.1466.115.121.1.38)",
}
DUE = {
    "L1": "a record begins with dn:",
    "L2": "a line that begins with a space continues the one before it, and here is none",
    "L3": "version 1 alone is known",
    "L4": "what stands behind :: is no padded base64 (RFC 4648)",
    "L5": "values aren't read from URLs; write the value itself",
    "L6": "a line is a name, a colon and a value",
    "L7": "changetype is add, delete, modify, modrdn or moddn",
    "L8": "the lines of a block are of the attribute that its first line names; a line - ends the block",
    "L9": "newrdn: and then deleteoldrdn: are due behind changetype: modrdn",
    "L10": "the record has no place for this line",
    "L11": "changetype: is due; ldapmodify -a adds records without it",
    "L12": "slapadd takes entries, and ldapmodify takes changes",
    "L13": "deleteoldrdn is 0 or 1; a control is an OID and then true or false",
}

# how texts begin that are no LDIF as a whole
NO_LDIF = [
    (rb"\xef\xbb\xbf", "the text begins with a byte order mark; take it away"),
    (rb"(?s)\xff\xfe|\xfe\xff|\x00.\x00|.\x00.\x00", "the text is UTF-16; LDIF is UTF-8"),
    (rb"\x1f\x8b", "the text is compressed (gzip); unpack it"),
]


def is_utf8(text):
    try:
        text.decode()
        return True
    except UnicodeDecodeError:
        return False


def shown(text, most, marks):
    """On one line: text as it is, but for marks; else as a backslash and two digits; of a longer one the first whole characters."""
    front = text[:most]
    if len(text) > most:
        # a character isn't cut
        back = next((n for n in range(4) if n <= most and text[most - n] & 0xC0 != 0x80), 0)
        front = text[:most - back]
    if is_utf8(front):
        pieces = ["\\%02X" % ord(c) if ord(c) < 32 or 127 <= ord(c) < 160 or c in marks else c for c in front.decode()]
    else:
        pieces = [chr(byte) if 32 <= byte < 127 and chr(byte) not in marks else "\\%02X" % byte for byte in front]
    while len("".join(pieces).encode()) > most:
        pieces.pop()
        front = b""
    return "".join(pieces) + (".." if len(front) < len(text) else "")


def value(text):
    return f'"{shown(text, VALUE, MARKS)}"'


def name(text):
    return shown(text, NAME, "")


def type_name(text):
    """Of an attribute type or a class."""
    return shown(text, TYPE, "")


def line(words):
    """A sentence as it is told: of one that is too long whole characters, up to no backslash and no byte right behind one, and two dots."""
    room = LINE - len("  \n")
    if len(words.encode()) > room:
        while len(words.encode()) > room - len("..") or "\\" in words.encode()[-2:].decode(errors="replace"):
            words = words[:-1]
        words += ".."
    return f"  {words}\n"


def grouped(number):
    return f"{number:,}"


def no_value(conf, number, text):
    kind = conf.types[number]
    return f"{type_name(kind.printed())}: {value(text)} is {SYNTAXES[kind.kind]}"


def is_line_of(line, word):
    return line.partition(b":")[0].lower() == word


def place(first, lines, changes, part):
    """The place of a part among the lines of a record that can be read."""
    at = 1 + (first and is_line_of(lines[0], b"version"))
    if changes:
        if part[0] == "control":
            return at + part[1]
        while at < len(lines) and is_line_of(lines[at], b"control"):
            at += 1
        at += at < len(lines) and is_line_of(lines[at], b"changetype")
    if part[0] == "attribute":
        return at + part[1]
    if part[0] in ("newrdn", "newsuperior"):
        return at + (0 if part[0] == "newrdn" else 2)
    begins, is_open = [], False
    for number in range(at, len(lines)):
        if is_open and lines[number].rstrip(b" ") == b"-":
            is_open = False
        elif not is_open:
            begins.append(number)
            is_open = True
    return begins[part[1]] + (1 + part[2] if part[0] == "value" else 0)


def of_refusal(refused, dn, numbers, first, lines, changes):
    where = ""
    if refused.part is not None:
        where = f"line {numbers[place(first, lines, changes, refused.part)]}, "
    text = refused.why
    if isinstance(refused.why, tuple):
        # an equal line before it
        text = f"{refused.why[0]} on line {numbers[place(first, lines, changes, refused.why[1])]}"
    return line(f"{where}{name(dn)}: {text}")


def of_fault(fault, numbers, lines):
    if fault.at is None:
        return f"  behind line {numbers[-1]}: {DUE[fault.code]}\n"
    number, line = numbers[fault.at], lines[fault.at]
    whole = next((why for beginning, why in NO_LDIF if number == 1 and re.match(beginning, line)), None)
    return f"  line {number}: {value(line)}: {whole or DUE[fault.code]}\n"


def summary(accepted, refusals, done, is_stored):
    """`refusals`: each as it is reported, in order"""
    counts = {}
    for one in refusals:
        counts[one] = counts.get(one, 0) + 1
    by = f" ({', '.join(f'{one} {grouped(count)}' for one, count in counts.items())})" if counts else ""
    end = "" if is_stored else "; nothing was stored"
    every = accepted + len(refusals)
    return f"{grouped(every)} record{'s' * (every != 1)}: {grouped(accepted)} {done}, {grouped(len(refusals))} refused{by}{end}\n"


def of_filter(text, fault):
    if fault.startswith("deeper"):
        return "  at most 512 parentheses may be open at once\n"
    rest = text[int(fault.split()[-1]):]
    return f"  there stands {value(rest)}, which goes on with no filter\n" if rest else "  it ends too early\n"


# names that can't be read (RFC 4514): which of their faults comes first

TEXTS = {
    "N1": "N1 equals sign missing", "N2": "N2 escape", "N3": "N3 character not escaped", "N4": "N4 type missing",
    "N5": "N5 form not supported",
}


def fault_of_name(text):
    """From the left: an AVA is spaces, a type, spaces, `=`, spaces and a value, up to `,` or `+`."""
    at = 0
    while True:
        at = re.compile(rb" *").match(text, at).end()
        kind = re.compile(rb"[A-Za-z0-9_.-]*").match(text, at)
        behind = re.compile(rb" *").match(text, kind.end()).end()
        if text[behind:behind + 1] != b"=":
            return "N1"
        if kind.end() == at:
            return "N4"
        at = re.compile(rb" *").match(text, behind + 1).end()
        fault, at = fault_of_value(text, at)
        if fault is not None or at == len(text):
            return fault
        at += 1


def fault_of_value(text, at):
    if text[at:at + 1] in (b'"', b"#"):
        return "N5", at
    while text[at:at + 1] not in (b"", b",", b"+"):
        byte = text[at:at + 1]
        if byte == b"\\":
            if re.compile(rb'["+,;<>\\ #=]').match(text, at + 1):
                at += 2
            elif re.compile(rb"[0-9A-Fa-f]{2}").match(text, at + 1):
                at += 3
            else:
                return "N2", at
        elif byte == b";":
            return "N5", at
        elif byte in (b'"', b"<", b">", b"\0"):
            return "N3", at
        else:
            at += 1
    return None, at


# what a beginning of some name may lack to be one: an equals sign, a whole AVA, the second digit of an escape, both
LACKING_ENDS = b"", b"=", b"a=", b"0", b"00"


def begins_a_name(text):
    return any(fault_of_name(text + end) is None for end in LACKING_ENDS)


def place_in_name(text):
    """The bytes of the longest beginning that begins some name. Each beginning of one is one."""
    return bisect.bisect_left(range(1, len(text) + 1), True, key=lambda n: not begins_a_name(text[:n]))


def unreadable(what, text):
    return f"{what} can't be read: {TEXTS[fault_of_name(text)]} at byte {place_in_name(text)}" if is_utf8(text) else f"{what} isn't UTF-8"


def rdns_of(text):
    """What stands between commas that aren't escaped."""
    parts = [b""]
    for piece in re.findall(rb"(?s)\\.?|,|[^\\,]+", text):
        if piece == b",":
            parts.append(b"")
        else:
            parts[-1] += piece
    return parts


def parent(dn):
    """What stands behind the first comma that isn't escaped."""
    found = re.compile(rb"(?:[^\\,]|\\.|\\$)*,", re.DOTALL).match(dn)
    return dn[found.end():] if found else b""


# faults of dir.conf

OID = re.compile(rb"[0-9]+(\.[0-9]+)*")
LOOSE = re.compile(rb"[ \t\r\n]*(?:([()$])|'([^']*)'|([^ \t\r\n()$']+))")
KINDS_OF_CLASS = (b"abstract", b"structural", b"auxiliary")
LACKING = {b"eq": "equality rule for eq", b"sub": "substring rule for sub"}
RULES = {
    "integer": "integerMatch needs the syntax Integer (1.3.6.1.4.1.1466.115.121.1.27)",
    "name": "distinguishedNameMatch needs the syntax DN (1.3.6.1.4.1.1466.115.121.1.12)",
}


def loose_tokens(text):
    """-> [(mark, quoted text, word, where it begins)], up to what is no token"""
    found, at = [], 0
    while True:
        one = LOOSE.match(text, at)
        if not one:
            return found
        found.append((*one.groups(), one.start(one.lastindex)))
        at = one.end()


def defined_name(text):
    """The first name of a definition, or its OID, or None."""
    tokens = loose_tokens(text)
    if not is_headed(tokens):
        return None
    for at, (_, _, word, _) in enumerate(tokens):
        if word is not None and word.lower() == b"name":
            behind = [token for token in tokens[at + 1:at + 3] if token[0] != b"("][:1]
            if behind and behind[0][1] is not None:
                return behind[0][1]
    return tokens[1][2]


def is_headed(tokens):
    return len(tokens) > 1 and tokens[0][0] == b"(" and tokens[1][2] is not None and OID.fullmatch(tokens[1][2]) is not None


def unread(text, forms, is_form):
    """What can't be read of a definition, and the word that this is of. `is_form` tells whether a field by itself has its form."""
    tokens, seen, last, at = loose_tokens(text), [], None, 2
    if not is_headed(tokens):
        return "it begins with ( and a numeric OID", None
    while at < len(tokens) and tokens[at][2] is not None:
        word, begins = tokens[at][2], tokens[at][3]
        low = word.lower()
        if low in seen or low in KINDS_OF_CLASS and any(kind in seen for kind in KINDS_OF_CLASS):
            return f"{name(word)} stands twice", word
        form = "extension" if low.startswith(b"x-") and len(low) > 2 else forms.get(low)
        if form is None:
            return f"no field is called {value(word)}", word
        at += 1
        if form != "flag":
            ends = at
            if at < len(tokens) and tokens[at][0] == b"(":
                ends = next((n for n in range(at, len(tokens)) if tokens[n][0] == b")"), len(tokens))
            if ends >= len(tokens) or tokens[ends][0] not in (None, b")") or ends == at and tokens[at][0] is not None:
                return f"what stands behind {name(word)} can't be read, or is not allowed", word
            at = ends + 1
            field = text[begins:tokens[at][3] - (tokens[at][1] is not None) if at < len(tokens) else len(text)]
            if not is_form(low, field):
                return f"what stands behind {name(word)} can't be read, or is not allowed", word
        seen.append(low)
        last = word
    if at < len(tokens) and tokens[at][0] != b")":
        return (f"what stands behind {name(last)} can't be read, or is not allowed", last) if seen else ("it begins with ( and a numeric OID", None)
    if at == len(tokens) - 1 and b"usage" in forms and LOOSE.match(text, tokens[at][3] + 1) is None and not text[tokens[at][3] + 1:].strip():
        return "an attribute type has SYNTAX or SUP", None
    return "it ends with ), and nothing stands behind that", None


def word_line(text, line, keyword, word, is_second):
    """The line of the text on which a word stands in the definition that begins on a line, behind a keyword if there is one."""
    lines = text.split(b"\n")
    last = line
    while last < len(lines) and lines[last][:1] in (b" ", b"\t"):
        last += 1
    whole, at = b"\n".join(lines[line - 1:last]), 0
    for wanted in [keyword] * (keyword is not None) + [word] * (1 + is_second if word is not None else 0):
        # a word, or a quoted text
        found = next((token for token in loose_tokens(whole) if token[3] >= at and (token[2] or token[1] or b"").lower() == wanted.lower()), None)
        if found is None:
            return line
        at = found[3] + len(wanted)
    return line + whole.count(b"\n", 0, at)


INDEX_FAULTS = {
    "I1": "the first line is slapindex 1, a number of entries and a stamp", "I2": "it was written for other entries",
    "I3": "no such line is due here, or it can't be read", "I4": "it doesn't come after the line before it", "I5": "no entry has a rank that stands there",
}


def index_line(number, line, fault):
    """The sentence behind a fault of index.txt."""
    return f"  line {number}: {value(line)}: {INDEX_FAULTS[fault.split()[0]]}; slapindex writes it anew\n"
