"""Random lists for `search -f`: a directory, a text of lines, and a filter that they are put into, or none.

Most lines are values that are there or near them, or filters; some end in other ways than most texts do, some have bytes that no text has, and some
make no filter.
"""
from dataclasses import dataclass
from typing import ClassVar, Optional

from cases import mutated, wrap
from configs import PLAIN_CONF, some
from searches import BAD_LIMITS, BAD_SCOPES, LIMITS, MARKS, SCOPES, TINY, SearchConfig, Searches, index_beside, sayable

# what is between lines, and texts that are little else
ENDS = [[b"\n"]] * 3 + [[b"\r\n"], [b"\n", b"\r\n"], [b"\n", b"\r\r\n", b"\n\n"]]
BARE = [b"", b"\n", b"\r", b"\r\n", b"\n\n", b"\r\r", b"\r\r\n", b"\n\r", b" ", b"\0", b"\0\n", b"%s", b"%s\n", b"(&)", b"(&)\r"]
# bytes that no line of a text has within
STRANGE = [b"\0", b"\xff", b"\xc3", b"\r", b"\n", b"\t", b"%", b"%s", b"\xc3\xa9", b"\xef\xbb\xbf"]
# how a filter has the mark: $T is a type
PATTERNS = [b"($T=%s)"] * 6 + [b"$T=%s", b"$T=%s", b"($T=*%s*)", b"($T=%s*)", b"($T=*%s)", b"(!($T=%s))", b"($T>=%s)", b"($T<=%s)", b"($T~=%s)",
                               b"(%s=a)", b"(%s=*)", b"(|($T=%s)($T=a*))", b"(&($T=%s)(!($T=b)))", b"(%s)", b"(&%s)", b"(!%s)", b"(|(objectClass=*)%s)",
                               b"%s=", b"(", b"(&(objectClass=*)($T=%s)", b"($T=%s))", b"($T:=%s)", b"($T:%s:=a)", b"($T=%s\\25)", b"($T=\\25%s)"]
# what has another percent sign
STRAY = [b"%", b"%%", b"%s", b"%%s", b"%S", b"% s", b"%d", b"100%", b"s%"]


@dataclass(frozen=True)
class SearchList:
    """The files of a folder, None for one that isn't there, the text of lines, and the words of the command."""
    OPTIONS: ClassVar = (("wrap", None), ("by_input", False), ("verbose", False), ("counts", False), ("go_on", False), ("scope", None), ("limit", None),
                         ("base", None), ("words", ()))
    TEXTS: ClassVar = (("index", None), ("data", None), ("lines", b""), ("filter", None), ("conf", PLAIN_CONF))
    conf: Optional[bytes]
    data: Optional[bytes]
    filter: Optional[bytes]
    lines: Optional[bytes]      # None: the command is to read a file that isn't there
    base: Optional[bytes] = None
    scope: Optional[bytes] = None
    limit: Optional[bytes] = None
    words: tuple = ()           # attributes
    index: Optional[bytes] = None
    by_input: bool = False      # the lines are its input
    go_on: bool = False
    counts: bool = False
    verbose: bool = False
    wrap: Optional[bytes] = None

    def command(self, db, source):
        """The words of the command line."""
        options, words = [("-b", self.base), ("-s", self.scope), ("-z", self.limit), ("-f", source), ("-o", self.wrap)], self.asked()
        flags = ["-c"] * self.go_on + ["--count"] * self.counts + ["-v"] * self.verbose
        line = ["search", "--db", db, *flags, *(word for option in options if option[1] is not None for word in option)]
        return line + [b"--"] * any(word.startswith(b"-") for word in words) + words

    def asked(self):
        """The words that aren't options."""
        return ([] if self.filter is None else [self.filter]) + list(self.words)

    def texts(self):
        return [text for text in (self.filter, self.base, self.scope, self.limit, *self.words) if text is not None]


class Lists(Searches):
    """Makes patterns and lines for a directory."""

    def pattern(self):
        """A filter for lines, most of them with one mark; None for none."""
        rng, kind = self.rng, self.rng.random()
        if kind < .3:
            return None
        if kind < .75:
            return self.config.filled(rng.choice(PATTERNS))
        text = self.text_of_filter()
        if kind < .85:
            return text.replace(b"%", b"")
        place = rng.randrange(len(text) + 1)
        text = text[:place] + rng.choice(STRAY if kind > .97 else [b"%s"]) + text[place:]
        return text if some(rng, .8) else text + rng.choice(STRAY)

    def line_for(self, pattern):
        rng = self.rng
        if pattern is None:
            line = rng.choice(TINY) if some(rng, .1) else self.text_of_filter()
        else:
            _, pool = self.some_values("family")
            value = rng.choice(pool)
            line = rng.choice([lambda: self.escaped(self.near_value(value))] * 6 + [
                lambda: value, lambda: self.with_stars(value), lambda: b"", lambda: rng.choice(MARKS), self.text_of_filter,
                lambda: self.config.filled(b"$T")])()
        if some(rng, .04):
            place = rng.choice([0, len(line), rng.randrange(len(line) + 1)])
            line = line[:place] + rng.choice(STRANGE) + line[place:]
        return line

    def lines_for(self, pattern):
        """Lines, each with its end but perhaps the last."""
        rng = self.rng
        if some(rng, .06):
            return rng.choice(BARE)
        ends, lines = rng.choice(ENDS), [self.line_for(pattern) for _ in range(rng.choice([1, 1, 2, 3, 4, 6, 9]))]
        if some(rng, .3):
            lines.insert(rng.randrange(len(lines) + 1), rng.choice(lines))
        text = b"".join(line + rng.choice(ends) for line in lines)
        if some(rng, .3):
            text = text.rstrip(b"\r\n") + rng.choice([b"", b"", b"\r"])
        return mutated(rng, text) if some(rng, .03) and text else text


def list_case(rng):
    config = SearchConfig(rng)
    lists = Lists(rng, config, False)
    for _ in range(3 * some(rng, .96)):
        if not lists.directory.entries:
            lists.fill(rng.choice([1, 3, 6, 10, 14]))
    data, conf = lists.directory.dump() or rng.choice([None, b""]), config.text
    is_whole = not some(rng, .05)
    if not is_whole:
        conf = rng.choice([conf, None, config.broken_text()])
        data = rng.choice([data, None, mutated(rng, data or b"x")])
    base = lists.dn_of(lists.some_path(.1), .08) if some(rng, .15) else None
    pattern = lists.pattern()
    text = None if some(rng, .03) else lists.lines_for(pattern)
    scope = rng.choice(BAD_SCOPES) if some(rng, .01) else rng.choice(SCOPES)
    limit = rng.choice(BAD_LIMITS) if some(rng, .01) else rng.choice(LIMITS) if some(rng, .4) else None
    words = tuple(word.replace(b"\0", b"0") for word in lists.words())
    # of a text of entries with faults several sentences may be told
    return SearchList(conf, data, sayable(pattern), text, sayable(base), scope, limit, words, index_beside(rng, conf, data),
                      by_input=text is not None and some(rng, .4), go_on=some(rng, .7), counts=some(rng, .3), verbose=is_whole and some(rng, .2),
                      wrap=wrap(rng, .3))
