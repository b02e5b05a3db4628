"""Search filters: their text (RFC 4515, 3), what their items ask under a configuration, and their truth for an entry (RFC 4511,
4.5.1.7).

A filter is a list of steps. An item stands for itself; ("&", 2) joins the two filters before it, and ("!", 1) turns the one
before it. So a filter as deep as one likes is read and tested without calls within calls. Truth is True, False, or None where
it is Undefined.
"""
import re
import string
from dataclasses import dataclass

import values

MOST_OPEN = 512
WORD_BYTES = frozenset(string.ascii_letters.encode() + string.digits.encode() + b"-_.;")
HEXADECIMAL = frozenset(string.hexdigits.encode())
PLAIN = re.compile(rb"[^\0()*\\]+")     # bytes of a value that stand for themselves
# what stands in front of the equals sign of items other than a=v
FORMS = {b"~": "approximate", b">": "at least", b"<": "at most"}


class Fault(Exception):
    """A text that is no filter."""


@dataclass
class Item:
    """What is asked of an attribute. Substrings are pieces that aren't empty, with a star between each two of them."""
    name: bytes
    form: str
    values: list
    star_before: bool = False
    star_behind: bool = False


# filters as text

def check_depth(text, is_bare):
    """No more parentheses may be open at any place, wherever they stand in the text, than there may be in a filter."""
    is_open = int(is_bare)
    for byte in text:
        is_open += (byte == ord("(")) - (byte == ord(")"))
        if is_open > MOST_OPEN:
            raise Fault(f"deeper than {MOST_OPEN}")


def read_filter(text):
    """-> its steps. The fault is at the first byte that no filter has there, or at the end where one is only begun."""
    begin = len(text) - len(text.lstrip(b" "))
    # parentheses are thought around a text that begins with none
    is_bare = text[begin:begin + 1] not in (b"", b"(")
    check_depth(text, is_bare)
    return Reader(text, begin, is_bare).read()


class Reader:
    """Reads a filter byte by byte."""

    def __init__(self, text, begin, is_bare):
        self.text, self.at, self.is_bare = text, begin, is_bare
        self.steps, self.open = [], []      # what joins the filters that are read: its mark, and how many it has so far

    def read(self):
        if not self.is_bare:
            self.take(b"(")
        self.component()
        while self.open:
            self.skip_spaces()
            self.go_on()
        self.skip_spaces()
        if self.at < len(self.text):
            self.fail()
        return self.steps

    def fail(self):
        raise Fault(f"fault at {self.at}")

    def peek(self):
        return self.text[self.at:self.at + 1]

    def take(self, byte):
        if self.peek() != byte:
            self.fail()
        self.at += 1

    def skip_spaces(self):
        while self.peek() == b" ":
            self.at += 1

    def component(self):
        """What stands behind an opening parenthesis: all of an item, or the mark of what has more filters in it."""
        mark = self.peek()
        if mark in (b"&", b"|", b"!"):
            self.at += 1
            self.open.append([mark.decode(), 0])
        else:
            self.steps.append(self.item())
            self.close()

    def go_on(self):
        """Behind a mark, or behind a filter in it: one more, or the end of it."""
        mark, number = self.open[-1]
        if self.peek() == b"(" and not (mark == "!" and number == 1):
            self.at += 1
            self.component()
        elif mark == "!" and number == 0:
            self.fail()
        else:
            self.open.pop()
            self.steps.append((mark, number))
            self.close()

    def close(self):
        """The end of a filter. A parenthesis that is only thought isn't in the text."""
        if not self.is_bare or self.open:
            self.take(b")")
        elif self.at < len(self.text):
            self.fail()
        if self.open:
            self.open[-1][1] += 1

    def word(self):
        begin = self.at
        while self.at < len(self.text) and self.text[self.at] in WORD_BYTES:
            self.at += 1
        return self.text[begin:self.at]

    def item(self):
        name = self.word()
        mark = self.peek()
        if mark == b":":
            self.extension(name)
            return Item(name, "extensible", self.value(False))
        if not name:
            self.fail()
        if mark in FORMS:
            self.at += 1
            self.take(b"=")
            return Item(name, FORMS[mark], self.value(False))
        self.take(b"=")
        return with_stars(name, self.value(True))

    def extension(self, name):
        """A name and two words, each of which may be missing, but not all, down to the equals sign."""
        words = 0
        while True:
            self.take(b":")
            if self.peek() == b"=" and (name or words):
                self.at += 1
                return
            if words == 2 or not self.word():
                self.fail()
            words += 1

    def value(self, takes_stars):
        """-> what stands between stars"""
        pieces = [bytearray()]
        while self.peek() not in (b"", b")"):
            byte, plain = self.peek(), PLAIN.match(self.text, self.at)
            if plain:
                pieces[-1] += plain[0]
                self.at = plain.end()
            elif byte == b"*" and takes_stars:
                pieces.append(bytearray())
                self.at += 1
            elif byte == b"\\":
                pieces[-1] += self.escaped()
            else:
                self.fail()
        return [bytes(piece) for piece in pieces]

    def escaped(self):
        """A backslash and two digits."""
        self.at += 1
        begin = self.at
        while self.at < begin + 2:
            if self.at == len(self.text) or self.text[self.at] not in HEXADECIMAL:
                self.fail()
            self.at += 1
        return bytes.fromhex(self.text[begin:self.at].decode())


def with_stars(name, pieces):
    """Stars beside each other are one; a star alone asks for any value."""
    if len(pieces) == 1:
        return Item(name, "equal", pieces)
    parts = [piece for piece in pieces if piece]
    if not parts:
        return Item(name, "present", [])
    return Item(name, "substrings", parts, pieces[0] == b"", pieces[-1] == b"")


# what items ask

def prepared(conf, steps):
    """The steps with a test in place of each item: the number of a type, and what one of its values has to be; or None where the
    item is Undefined, which the configuration alone decides."""
    return [test_of(conf, step) if isinstance(step, Item) else step for step in steps]


def test_of(conf, item):
    number = conf.type_of(item.name)
    if number is None or item.form == "extensible":
        return None
    kind = conf.types[number]
    has_rule = {"present": True, "substrings": kind.has_substrings, "at least": kind.has_order, "at most": kind.has_order,
                "equal": kind.family is not None, "approximate": kind.family is not None}
    if not has_rule[item.form] or not all(conf.is_valid(number, value) for value in item.values):
        return None
    return Test(number, item.form, asserted(conf, number, kind.family, item), value_test(conf, number, kind.family, item))


@dataclass
class Test:
    number: int
    form: str
    asserted: object    # the normal form of a value or of pieces, or None where none is asserted
    holds: object       # of the normal form of a value


def asserted(conf, number, family, item):
    if item.form == "substrings":
        return values.normal_pieces(family, item.values, item.star_before, item.star_behind)
    return conf.normal(number, item.values[0]) if item.values else None


def value_test(conf, number, family, item):
    if item.form == "present":
        return lambda value: True
    if item.form == "substrings":
        pieces = values.normal_pieces(family, item.values, item.star_before, item.star_behind)
        return lambda value: values.fits(value, pieces, item.star_before, item.star_behind)
    asserted = conf.normal(number, item.values[0])
    if item.form == "at least":
        return lambda value: not values.less(family, value, asserted)
    if item.form == "at most":
        return lambda value: value == asserted or values.less(family, value, asserted)
    return lambda value: value == asserted


# truth

def truth(conf, steps, attributes):
    """Of a prepared filter, for the attributes of an entry: {type: {normal form: value}}."""
    found = []
    for step in steps:
        if step is None:
            found.append(None)
        elif isinstance(step, Test):
            found.append(item_truth(conf, step, attributes))
        else:
            mark, number = step
            parts = found[len(found) - number:]
            del found[len(found) - number:]
            found.append(joined(mark, parts))
    return found[0]


def item_truth(conf, test, attributes):
    """The values of a type are those of its subtypes, too, and one of them is enough."""
    return any(test.holds(conf.normal(test.number, value)) for number, values_of in attributes.items()
               if conf.is_subtype(number, test.number) for value in values_of.values())


def joined(mark, parts):
    if mark == "!":
        return None if parts[0] is None else not parts[0]
    decides = mark == "|"       # one True makes an "or" True, one False an "and" False
    if decides in parts:
        return decides
    return None if None in parts else not decides
