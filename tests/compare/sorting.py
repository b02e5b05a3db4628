"""What sort prints: a text whose content records are so ordered that what is above a record stands before it; and what holds of that order.

Names are compared as text: without a dir.conf nobody knows which types are the same, or how their values compare.
"""
import collections
import re

import ldif
import model
import schema
import values

LINE = re.compile(rb"[^\n]*\n|[^\n]+")
EMPTY_LINES = (b"\n", b"\r\n")
# each way to name a type is a type of its own, and values are compared as `sort` does: so names are the same where it says so
TYPES = (b"dc", b"ou", b"cn", b"uid", b"l", b"o", b"commonName", b"2.5.4.3", b"2.5.4.11", b"0.9.2342.19200300.100.1.25")
CONF = b'suffix "dc=ex"\n' + b"".join(
    b"attributetype ( %s EQUALITY caseIgnoreMatch SYNTAX %s15 )\n" % (name if name[:1].isdigit() else b"9.%d NAME '%s'" % (at, name), values.PREFIX)
    for at, name in enumerate(TYPES))


def sort(text, source):
    """A text of None can't be read. -> (status, output, messages)"""
    return (3, b"", f"{source}: cannot read\n".encode()) if text is None else (0, sorted_text(text), b"")


def sorted_text(text):
    head, pieces = cut(text)
    names = [name_of(piece) for piece in pieces]
    places = places_of(names)
    order = sorted(range(len(pieces)), key=lambda number: (places[number], len(names[number]), number))
    moved = [pieces[number] for number in order]
    behind = b"".join([ended(piece) for piece in moved[:-1]] + moved[-1:])
    # a line that begins with a space would go on with the version
    return (ended(head) if head and behind.startswith(b" ") else head) + behind


def ended(piece):
    """A piece that another one can follow: it ends with an empty line. A CR at the end of the text belongs to the last line."""
    *_, last = LINE.findall(piece)
    return piece + (b"" if last in EMPTY_LINES else b"\n" if last.endswith(b"\n") else b"\r\n\n" if last.endswith(b"\r") else b"\n\n")


def places_of(names):
    """Of each name its number, or that of the last one above it where that is greater."""
    last = {name: number for number, name in enumerate(names) if name}
    return [max([number] + [last.get(name[depth:], 0) for depth in range(1, len(name))]) for number, name in enumerate(names)]


# the parts of a text

def cut(text):
    """-> (its head, its pieces)"""
    lines = LINE.findall(text)
    kept = kept_lines(lines)
    behind = head_lines(lines, kept)
    return b"".join(lines[:behind]), pieces_of(lines[behind:], kept[behind:])


def kept_lines(lines):
    """Of each line whether it is one of a record, and goes on with none."""
    begins, kept = True, []
    for line in lines:
        is_empty = line in EMPTY_LINES
        kept.append(not is_empty and not line.startswith(b"#") and (begins or not line.startswith(b" ")))
        begins = is_empty
    return kept


def head_lines(lines, kept):
    """How many lines stand up to a version, if that comes first, with the empty lines behind it."""
    if True not in kept:
        return 0
    begin = kept.index(True)
    end = past(lines, begin + 1, lambda line: line.startswith(b" "))
    return past(lines, end, lambda line: line in EMPTY_LINES) if is_version(b"".join(lines[begin:end])) else 0


def past(lines, at, holds):
    while at < len(lines) and holds(lines[at]):
        at += 1
    return at


def is_version(text):
    """Whether a line is a version that can be read."""
    (_, _, lines), = ldif.records(text)
    try:
        return ldif.read_content(True, lines) is None
    except ldif.Fault:
        return False


def pieces_of(lines, kept):
    """Records, each with what stands before it and the empty line behind it, and what is left at the end."""
    pieces, piece, has_record = [], [], False
    for line, is_kept in zip(lines, kept):
        piece.append(line)
        has_record = has_record or is_kept
        if has_record and line in EMPTY_LINES:
            pieces.append(b"".join(piece))
            piece, has_record = [], False
    return pieces + ([b"".join(piece)] if piece else [])


def name_of(piece):
    """The RDNs of the name of its record, where it has one."""
    return next((name_read(first, lines) for _, first, lines in ldif.records(piece)), ())


def name_read(first, lines):
    """The RDNs of a record's name as they compare, own one first; none where it is no record of content, or that has no name."""
    try:
        found = ldif.read_content(first, lines)
        return tuple(step_of(rdn) for rdn in schema.read_name(found[0]) or []) if found else ()
    except ldif.Fault:
        return ()


def step_of(rdn):
    return tuple(sorted({(kind.lower(), values.normal("ignore", value)) for kind, value in rdn}))


# what holds of the order

def broken_laws(text, output):
    """-> what doesn't hold of the output for this text, in words"""
    head, pieces = cut(text)
    if not output.startswith(head):
        return ["the head isn't printed first"]
    printed = printed_pieces(head, pieces, output[len(head):])
    if printed is None:
        return ["what is printed isn't what was read"]
    broken = []
    if places_of([name_of(piece) for piece in pieces]) == list(range(len(pieces))) and output != text:
        broken.append("a text in order isn't printed as it is")
    if not are_in_order([name_of(piece) for piece in printed]):
        broken.append("a name stands before one above it")
    if not are_in_order([name_read(first, lines) for _, first, lines in ldif.records(output)]):
        broken.append("a record is read before one above it")
    if lines_read(head, output) != [lines for piece in printed for lines in lines_read(b"", piece)]:
        broken.append("a record is read with other lines than by itself")
    if comes_first_now(text, output):
        return broken
    if sorted_text(output) != output:
        broken.append("what is printed isn't sorted")
    if all_loaded(text) != loaded(output):
        broken.append("one load of what is printed isn't all that many loads of the text are")
    return broken


def printed_pieces(head, pieces, behind):
    """The pieces that are printed behind a head, or behind the empty line that it may need; None where these are others than there were."""
    for begin in (0, len(ended(head)) - len(head) if head else 0):
        lines = LINE.findall(behind[begin:])
        printed = pieces_of(lines, kept_lines(lines))
        if collections.Counter(map(ended, pieces)) == collections.Counter(map(ended, printed)):
            return printed
    return None


def are_in_order(names):
    return all(not above or names[below][-len(above):] != above or len(above) == len(names[below])
               for later, above in enumerate(names) for below in range(later))


def lines_read(head, text):
    """The lines of each record of a text, without the version of its head."""
    found = [list(lines) for _, _, lines in ldif.records(text)]
    return [lines for lines in [found[0][1:]] + found[1:] if lines] if head else found


def comes_first_now(text, output):
    """Whether a version comes first now that was one of another record: it counts there."""
    return bool(cut(text)[0]) != bool(cut(output)[0])


def loaded(text, directory=None):
    """The paths of the entries that a text makes, or that it makes of a directory, with what can be added."""
    directory = directory or model.load(CONF, None, "")
    model.run(directory, text, True)
    return set(directory.entries)


def all_loaded(text):
    """The paths of the entries that a text makes where it is loaded until no entry comes."""
    directory, before = model.load(CONF, None, ""), None
    while before != directory.entries.keys():
        before = set(directory.entries)
        loaded(text, directory)
    return before
