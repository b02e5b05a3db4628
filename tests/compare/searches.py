"""Random searches: a directory, a filter for it, and what else search and slapcat take.

Most filters speak of types and values that are there, or of values that are near them; some have values that no syntax takes, and
some are no filters.
"""
from dataclasses import dataclass
from typing import ClassVar, Optional

import model
import values
from cases import Changes, alike, mutated, wrap
from configs import PLAIN_CONF, SUBSTRINGS_OF, Config, other_case, some
from pieces import VALUES

# the rules that go with each family
ORDERINGS = {"ignore": [b"caseIgnoreOrderingMatch"], "exact": [b"caseExactOrderingMatch"], "numeric": [b"numericStringOrderingMatch"],
             "integer": [b"integerOrderingMatch"], "octet": [b"octetStringOrderingMatch"]}
ANY_ORDERING = [rule for rules in ORDERINGS.values() for rule in rules]
ANY_SUBSTRINGS = [rule for rules in SUBSTRINGS_OF.values() for rule in rules]
EXTENSIBLE = [b"$T:=", b"$T:caseExactMatch:=", b"$T:dn:=", b"$T:dn:2.5.13.2:=", b":caseExactMatch:=", b":dn:x:=", b"no:=", b"$T;x:a:="]
NO_EXTENSIBLE = [b":=", b"::=", b"$T::=", b"$T:a:b:c:=", b"$T:a:b=", b":a=", b"$T:a b:=", b"$T :=", b"$T:a:b::=", b":a:b:c="]
NO_NAMES = [b"no", b"$T;x", b"$T;lang-en;y", b"1.2.3.4.5", b"-", b"_", b".", b";", b"0", b"dn", b"top"]
# what is put into a text to break it
MARKS = [b"(", b")", b"((", b"))", b"()", b"&", b"|", b"!", b"=", b"~", b">", b"<", b"~=", b">=", b":", b":=", b"*", b"**", b"\\", b"\\2",
         b"\\2a", b"\\zz", b" ", b"  ", b"a", b";", b"-", b"\t", b"\xc3\xa9", b"\x7f", b",", b"#", b"(a=b)", b"(!", b"(&", b"&(", b"\n"]
TINY = [b"", b" ", b"(", b")", b"()", b"a", b"=", b"a=", b"=a", b"&", b"|", b"!", b"(&)", b"(|)", b"(!)", b"&)", b"*", b"(*)", b"a=b", b"a=b)",
        b"!(a=b)", b"!(!(a=b))", b"&(a=b) x", b" (&) ", b"( &)", b"(& )", b"(!(&)(&))", b"(&(&)(|))x", b"(a=b", b"((a=b))", b"(a=(b))",
        b"\\28a=b)", b"(a\\3db)", b"(&\t)", b"(objectClass=*)"]
SCOPES = [None] * 4 + [b"base", b"one", b"sub", b"sub", b"children", b"children"]
BAD_SCOPES = [b"", b"SUB", b"subtree", b"onelevel", b"subordinate", b"base ", b"0", b"s"]
LIMITS = [b"0", b"1", b"1", b"1", b"2", b"2", b"3", b"4", b"5", b"10", b"007", b"000", b"4294967295", b"04294967295"]
BAD_LIMITS = [b"", b"+5", b"-1", b"4294967296", b"99999999999999999999", b"1.0", b"0x1", b" 1", b"1 ", b"none", b"max", b"\xd9\xa3", b"1_0"]
ODD_WORDS = [b"no", b"", b"$T;x", b"1.1", b"*", b"+", b"**", b" $T", b"$T ", b" (cn", b"*+", b"top", b"$T,$T", b"2.5.4.0"]


@dataclass(frozen=True)
class Search:
    """The files of a folder, None for one that isn't there, and the words of a command."""
    OPTIONS: ClassVar = (("wrap", None), ("to_file", False), ("scope", None), ("limit", None), ("base", None), ("words", ()))
    TEXTS: ClassVar = (("index", None), ("data", None), ("filter", None), ("conf", PLAIN_CONF))
    conf: Optional[bytes]
    data: Optional[bytes]
    is_slapcat: bool
    filter: Optional[bytes]
    base: Optional[bytes] = None
    scope: Optional[bytes] = None
    limit: Optional[bytes] = None
    words: tuple = ()           # attributes
    to_file: bool = False       # slapcat writes to a file
    index: Optional[bytes] = None
    wrap: Optional[bytes] = None

    def command(self, db, output):
        """The words of the command line."""
        if self.is_slapcat:
            options = [("-a", self.filter), ("-s", self.base), ("-l", output if self.to_file else None), ("-o", self.wrap)]
            words = []
        else:
            options = [("-b", self.base), ("-s", self.scope), ("-z", self.limit), ("-o", self.wrap)]
            words = self.asked()
        line = ["slapcat" if self.is_slapcat else "search", "--db", db]
        line += [word for option in options if option[1] is not None for word in option]
        return line + [b"--"] * any(word.startswith(b"-") for word in words) + words

    def asked(self):
        """The words that aren't options."""
        return ([] if self.filter is None else [self.filter]) + list(self.words)

    def texts(self):
        return [text for text in (self.filter, self.base, self.scope, self.limit, *self.words) if text is not None]


class SearchConfig(Config):
    """With more rules for searches, and more types that servers keep."""

    def define(self, name, plain, pair=None):
        rng = self.rng
        super().define(name, plain and (not self.kinds or some(rng, .3)), pair)
        kind = list(self.kinds.values())[-1]
        more = [(b"ORDERING", ORDERINGS, ANY_ORDERING, .5), (b"SUBSTR", SUBSTRINGS_OF, ANY_SUBSTRINGS, .7)]
        for field, rules, others, chance in more:
            if field not in kind.text and some(rng, chance):
                fit = rules.get(kind.family(), others)
                self.add_field(kind, field + b" " + rng.choice(others if some(rng, .08) else fit))
        if b"USAGE" not in kind.text.upper() and some(rng, .15):
            self.add_field(kind, b"USAGE " + rng.choice([b"directoryOperation", b"dSAOperation", b"distributedOperation", b"userApplications"]))

    def add_field(self, kind, field):
        kind.text = kind.text[:kind.text.rindex(b")")] + field + b" )"


class Searches(Changes):
    """Makes filters and lists of attributes for a directory."""

    def text_of_filter(self):
        rng = self.rng
        if some(rng, .02):
            return rng.choice(TINY)
        if some(rng, .01):
            return self.deep_filter()
        text = self.spaces() + self.filter(rng.choice([0, 0, 0, 1, 1, 2, 3, 4])) + self.spaces()
        if some(rng, .1) and text[:1] == b"(" and text[-1:] == b")":
            text = text[1:-1]
        return self.broken(text) if some(rng, .12) else text

    def spaces(self):
        return b" " * self.rng.choice([0] * 20 + [1, 1, 2])

    def filter(self, depth):
        """A filter with no more than so many others around its items."""
        rng = self.rng
        if depth == 0 or some(rng, .15):
            return b"(" + self.item() + b")"
        mark, number = rng.choice([(b"&", 2), (b"|", 2), (b"!", 1), (b"&", rng.choice([0, 1, 3, 5])), (b"|", rng.choice([0, 1, 3, 5]))])
        parts = [self.filter(depth - 1) + self.spaces() for _ in range(number)]
        return b"(" + mark + self.spaces() + b"".join(parts) + b")"

    def deep_filter(self):
        rng, number = self.rng, self.rng.choice([510, 511, 512, 513, 514])
        mark = rng.choice([b"(!", b"(&", b"(|", b"(", b"(! ", b"(&(&)", b"!(", b"(a=(", b"(a=b)(", b"x("])
        behind = rng.choice([b"(objectClass=*)", b"a=b", b"", b"(&)", b"("]) + b")" * rng.choice([number, number, number - 1, number + 1, 0])
        return mark * number + behind

    def broken(self, text):
        rng = self.rng
        for _ in range(rng.choice([1, 1, 1, 2, 3])):
            place = rng.randrange(len(text) + 1)
            text = rng.choice([
                text[:place], text[:place] + text[place + 1:], text[:place] + rng.choice(MARKS) + text[place:],
                text[:place] + rng.choice(MARKS) + text[place + 1:]])
        return mutated(rng, text) if some(rng, .05) else text

    def item(self):
        rng, kind = self.rng, self.rng.randrange(10)
        rule = "has_substrings" if kind < 4 else "has_order" if kind < 7 else "family"
        number, pool = self.some_values(rule)
        name = self.config.type_text(self.directory.conf.types[number].printed())
        if some(rng, .04):
            return self.config.filled(rng.choice(EXTENSIBLE)) + self.escaped(rng.choice(pool))
        if some(rng, .01):
            return self.config.filled(rng.choice(NO_EXTENSIBLE)) + self.escaped(rng.choice(pool))
        if some(rng, .04):
            name = self.config.filled(rng.choice(NO_NAMES))
        if kind < 4:
            return name + b"=" + self.with_stars(rng.choice(pool))
        if kind == 9:
            return name + b"=" + rng.choice([b"*", b"*", b"**"])
        sign = rng.choice([b"<=", b">="] if kind < 7 else [b"=", b"=", b"=", b"~="])
        return name + sign + self.escaped(self.near_value(rng.choice(pool)))

    def some_values(self, rule):
        """A type that mostly has a rule, often above one that is there, and values for it."""
        rng, conf = self.rng, self.directory.conf
        entries = [attributes.values for _, attributes in self.directory.entries.values()]
        there = [number for values_of in entries for number in values_of]
        fit = [number for number in there if getattr(conf.types[number], rule)]
        number = rng.randrange(len(conf.types))
        if there and some(rng, .9):
            number = rng.choice(fit if fit and some(rng, .8) else there)
        pool = [value for texts in entries for value in texts.get(number, {}).values()] or [self.new_value(number)]
        while conf.types[number].above is not None and some(rng, .4):
            number = conf.types[number].above
        return number, pool if some(rng, .9) else [self.new_value(number), rng.choice(VALUES), b""]

    def near_value(self, value):
        """The value, or an equal one, or one before or behind it."""
        rng = self.rng
        if some(rng, .5):
            return alike(rng, value)
        if values.is_integer(value) and some(rng, .8):
            return b"%d" % (int(value) + rng.choice([-1, 0, 1, 10, -10, -2 * int(value)]))
        place = rng.randrange(len(value) + 1)
        return rng.choice([value, value[:place], value + b"a", value[:place] + b"\0" + value[place:], value[1:], rng.choice(VALUES)])

    def with_stars(self, value):
        """Pieces of a value, most of them in their order."""
        rng = self.rng
        places = sorted(rng.randrange(len(value) + 1) for _ in range(rng.choice([0, 1, 1, 2, 2, 3, 4, 6])))
        pieces = [value[begin:end] for begin, end in zip([0] + places, places + [len(value)])]
        change = rng.randrange(16)
        if change == 0:
            rng.shuffle(pieces)
        elif change == 1:
            pieces.insert(rng.randrange(len(pieces) + 1), rng.choice(pieces))
        elif change == 2:
            pieces[rng.randrange(len(pieces))] = rng.choice([b" ", b"  ", b"-", b"a", b"\xc3", b"x"])
        elif change < 11:
            kept = [piece for piece in pieces if some(rng, .6)]
            pieces = rng.choice([kept + [b""], [b""] + kept, [b""] + kept + [b""], kept]) if kept else pieces
        pieces = [alike(rng, piece) if some(rng, .15) else other_case(rng, piece) if some(rng, .2) else piece for piece in pieces]
        return b"*".join(self.escaped(piece) for piece in pieces)

    def escaped(self, value):
        """The value with the escapes that it needs, and some that it doesn't."""
        rng, is_text, much = self.rng, values.is_utf8(value), some(self.rng, .1)
        out = b""
        for character in value.decode() if is_text else value:
            raw = character.encode() if is_text else bytes([character])
            needs = raw in b"\0()*\\" or not is_text and raw > b"\x7f"
            digits = b"".join(rng.choice([b"\\%02x", b"\\%02X"]) % byte for byte in raw)
            out += digits if needs or some(rng, .5 if much else .02) else raw
        return out

    def words(self):
        """A list of attributes."""
        rng, config = self.rng, self.config
        if some(rng, .35):
            return ()
        kinds = [lambda: config.type_text(rng.choice(config.types + [b"objectClass"]))] * 5 + \
            [lambda: b"*", lambda: b"+", lambda: config.filled(rng.choice(ODD_WORDS))]
        return tuple(rng.choice(kinds)() for _ in range(rng.choice([1, 1, 2, 3])))


def sayable(text):
    """What may stand in a command line: no NUL; an option's value with a hyphen in front would be taken for an option."""
    text = None if text is None else text.replace(b"\0", b"0")
    return b" " + text if text is not None and text.startswith(b"-") else text


def index_beside(rng, conf, data):
    """No index.txt, or the one of the entries, or one of others, or one with faults, or one that lies."""
    kind = rng.choice(["none", "right", "right", "right", "other", "broken", "lying", "lying"])
    stored = model.slapindex(conf, None if kind == "other" else data, "")[2].get("index.txt")
    if kind == "none" or stored is None:
        return None
    return {"broken": mutated, "lying": lying}.get(kind, lambda rng, text: text)(rng, stored)


def lying(rng, text):
    """Ranks behind the first line changed: in many keys one that is gone; or in a few lines a word gone, another in its place, or one more, or
    the line gone or doubled."""
    first, *lines = text.split(b"\n")
    if some(rng, .5):
        return b"\n".join([first, *(line for old in lines for line in without_rank(rng, old))])
    for _ in range(rng.choice([1, 1, 2, 4])):
        at = rng.randrange(len(lines))
        words = lines[at].split(b" ")
        place = rng.randrange(len(words))
        other = rng.choice([b"%d" % rng.randrange(6), b"%d" % rng.randrange(30), b"-", b"61", b"616263", b"6", b"00", b"A1", b"pres"])
        changed = rng.choice([words[:place] + words[place + 1:], words[:place] + [other] + words[place + 1:], words + [other], words,
                              words[:1] + sorted(set(words[1:] + [other]), key=lambda word: (len(word), word))])
        lines[at:at + 1] = [b" ".join(changed)] * rng.choice([0, 1, 1, 1, 1, 1, 1, 2])
        if not lines:
            break
    return b"\n".join([first, *lines])


def without_rank(rng, line):
    """-> the line of a key without one of its ranks, no line where none is left; or the line as it is"""
    key, *ranks = line.split(b" ")
    if not ranks or key == b"slot" or some(rng, .4):
        return [line]
    ranks.pop(rng.randrange(len(ranks)))
    return [b" ".join([key, *ranks])] if ranks else []


def search_case(rng):
    config = SearchConfig(rng)
    searches = Searches(rng, config, False)
    searches.fill(rng.choice([0] + [1, 3, 6, 10, 14] * 4))
    data, conf = searches.directory.dump() or rng.choice([None, b""]), config.text
    if some(rng, .04):
        conf = rng.choice([None, config.broken_text(), config.broken_text()])
    if some(rng, .04):
        data = rng.choice([None, mutated(rng, data or b"x")])
    is_slapcat = some(rng, .25)
    base = searches.dn_of(searches.some_path(.1), .08) if some(rng, .35) else None
    text = None if some(rng, .08) else searches.text_of_filter()
    index = index_beside(rng, conf, data)
    if is_slapcat:
        return Search(conf, data, True, sayable(text), sayable(base), to_file=some(rng, .1), index=index, wrap=wrap(rng, .4))
    scope = rng.choice(BAD_SCOPES) if some(rng, .01) else rng.choice(SCOPES)
    limit = rng.choice(BAD_LIMITS) if some(rng, .015) else rng.choice(LIMITS) if some(rng, .3) else None
    words = tuple(word.replace(b"\0", b"0") for word in searches.words())
    # a text that is neither in parentheses nor has an equals sign is an attribute
    return Search(conf, data, False, sayable(text), sayable(base), scope, limit, words, index=index, wrap=wrap(rng, .4))
