"""Values in bytes: which ones a syntax has (RFC 4517, 3.3), and what a matching rule compares (RFC 4517, 4.2)."""
import re

PREFIX = b"1.3.6.1.4.1.1466.115.121.1."
# the kinds of syntaxes by their last numbers; any other syntax takes any bytes
KINDS = {
    b"11": "text", b"15": "text", b"44": "text", b"50": "text", b"26": "ascii", b"36": "numeric", b"7": "boolean",
    b"27": "integer", b"12": "name", b"38": "oid",
}
# the equality rules by their names without case
FAMILIES = {
    b"caseignorematch": "ignore", b"caseignoreia5match": "ignore", b"caseexactmatch": "exact",
    b"caseexactia5match": "exact", b"numericstringmatch": "numeric", b"telephonenumbermatch": "telephone",
    b"integermatch": "integer", b"booleanmatch": "boolean", b"octetstringmatch": "octet",
    b"distinguishednamematch": "name", b"objectidentifiermatch": "oid",
}
# the substring rules, and the equality rules that they go with
SUBSTRINGS = {
    b"caseignoresubstringsmatch": "ignore", b"caseignoreia5substringsmatch": "ignore",
    b"caseexactsubstringsmatch": "exact", b"caseexactia5substringsmatch": "exact",
    b"numericstringsubstringsmatch": "numeric", b"telephonenumbersubstringsmatch": "telephone",
}
# the ordering rules, likewise
ORDERINGS = {
    b"caseignoreorderingmatch": "ignore", b"caseexactorderingmatch": "exact", b"numericstringorderingmatch": "numeric",
    b"integerorderingmatch": "integer", b"octetstringorderingmatch": "octet",
}
# the one kind of syntax that some rules are for
KIND_OF_FAMILY = {"integer": "integer", "name": "name"}

INTEGER = re.compile(rb"0|-?[1-9][0-9]{0,38}")


def kind_of(syntax):
    return KINDS.get(syntax.removeprefix(PREFIX), "octet") if syntax.startswith(PREFIX) else "octet"


def is_utf8(value):
    try:
        value.decode("utf-8")
    except UnicodeDecodeError:
        return False
    return True


def is_integer(value):
    return INTEGER.fullmatch(value) is not None and -1 << 127 <= int(value) < 1 << 127


VALID = {
    "text": lambda value: value != b"" and is_utf8(value),
    "ascii": lambda value: all(byte < 128 for byte in value),
    "numeric": lambda value: re.fullmatch(rb"[0-9 ]+", value) is not None,
    "boolean": lambda value: value in (b"TRUE", b"FALSE"),
    "integer": is_integer,
    "oid": lambda value: value != b"" and all(byte < 128 and byte != 32 for byte in value),
    "octet": lambda value: True,
}


def one_space(value):
    """No spaces around, and single ones within."""
    return b" ".join(word for word in value.split(b" ") if word)


NORMAL = {
    # letters of ASCII alone are folded
    "ignore": lambda value: one_space(value.lower()),
    "exact": one_space,
    "numeric": lambda value: value.replace(b" ", b""),
    "telephone": lambda value: value.lower().replace(b" ", b"").replace(b"-", b""),
    "oid": lambda value: value.lower(),
}


def is_valid(kind, value):
    return VALID[kind](value)


def normal(family, value):
    """What is compared; the bytes themselves where there is no rule that sees less."""
    return NORMAL[family](value) if family in NORMAL else value


def less(family, one, other):
    """Of two normal forms: byte by byte, a beginning first, but whole numbers as numbers."""
    return int(one) < int(other) if family == "integer" else one < other


def normal_pieces(family, pieces, star_before, star_behind):
    """The pieces of a substring assertion as they are looked for. Texts keep the spaces at their ends but for the first and the
    last piece where no star stands outside of them; other values are those of their rule."""
    if family not in ("ignore", "exact"):
        return [normal(family, piece) for piece in pieces]
    out = [re.sub(rb" +", b" ", piece.lower() if family == "ignore" else piece) for piece in pieces]
    if not star_before:
        out[0] = out[0].lstrip(b" ")
    if not star_behind:
        out[-1] = out[-1].rstrip(b" ")
    return out


def fits(value, pieces, star_before, star_behind):
    """Has the value the pieces one after the other, the outer ones at its ends where no star stands outside of them?"""
    at, last = 0, len(value)
    if not star_before:
        if not value.startswith(pieces[0]):
            return False
        at, pieces = len(pieces[0]), pieces[1:]
    if not star_behind:
        if not value.endswith(pieces[-1]):
            return False
        last, pieces = len(value) - len(pieces[-1]), pieces[:-1]
    for piece in pieces:
        found = value.find(piece, at, max(at, last))
        if found < 0:
            return False
        at = found + len(piece)
    return at <= last
