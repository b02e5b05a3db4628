"""Random directories that slapcat prints under another suffix, the same for the same seed.

Many values name entries, some in other spellings, below the old suffix, below the new one or elsewhere, and some that are two before are one behind
the move. The new suffix is deeper or not, of other types, of several AVAs, near the old one, below it or above it, or no name.
"""
from dataclasses import dataclass
from typing import ClassVar, Optional

from cases import alike, mutated, wrap
from configs import PLAIN_CONF, some
from folders import CheckConfig, Folders
from pieces import BAD_NAMES
from searches import sayable

NO_SUFFIXES = [b"", b" ", b"  ", b"dc", b"dc=", b"=x", b"no=x", b"dc=x,", b",dc=x", b"dc=x+", b"#", b"dc=#04", b'dc="x"', b"dc=x;dc=y", b"dc=\\",
               b"dc=\\zz", b"dc=\xff", b"$T=a\\", b"$T", b"$T=a,$T", b"$T=a+$T=b+$T=c", b"$T=,no=b", b"$T=a;$T=b", b"objectClass=", b"$N,", b",$N",
               b"$N,no=b", b"no=b,$N"]


@dataclass(frozen=True)
class Suffix:
    """The files of a folder, None for one that isn't there, and the words of slapcat."""
    OPTIONS: ClassVar = (("wrap", None), ("to_file", False), ("filter", None), ("base", None))
    TEXTS: ClassVar = (("index", None), ("data", None), ("name", b"dc=x"), ("conf", PLAIN_CONF))
    conf: Optional[bytes]
    data: Optional[bytes]
    name: bytes                     # the new suffix
    filter: Optional[bytes] = None
    base: Optional[bytes] = None
    to_file: bool = False
    wrap: Optional[bytes] = None
    index: Optional[bytes] = None   # that slapcat has no use for

    def command(self, db, output):
        """The words of the command line."""
        options = [("--suffix", self.name), ("-a", self.filter), ("-s", self.base), ("-l", output if self.to_file else None), ("-o", self.wrap)]
        return ["slapcat", "--db", db, *(word for option in options if option[1] is not None for word in option)]

    def texts(self):
        return [text for text in (self.name, self.filter, self.base) if text is not None]


class SuffixConfig(CheckConfig):
    """With values that name what is below the new suffix, too."""
    new = ()        # the RDNs of the new suffix

    def any_name(self):
        name, depth = super().any_name(), len(self.suffix)
        if not self.new or not some(self.rng, .2):
            return name
        return name[:-depth] + list(self.new) if name[-depth:] == self.suffix else name + list(self.new)

    def new_suffix(self):
        """One of other AVAs, or one like the old one."""
        rng, old = self.rng, self.suffix
        kind, word = rng.choice(old[0])
        fresh = [self.rdn(rng.choice(self.naming)) for _ in range(rng.choice([1, 1, 1, 2, 3]))]
        alone = [[(kind, self.word(kind))]]
        more = [old[0] + [part for part in fresh[0] if part[0] not in dict(old[0])]] + old[1:]
        return rng.choice([
            fresh, fresh, fresh, alone + old[1:], alone + old[1:], alone, [old[0]] + fresh, fresh + old, old[1:] or fresh, old,
            self.respelled_name(old), [old[0][:1]] + old[1:], more, [[(kind, word)]] + old[1:], self.near(old), [self.respelled_name(old)[0]] + fresh])


class Moves(Folders):
    """Makes entries with values that are one behind the move."""

    def take_values(self, path):
        super().take_values(path)
        config, entries = self.config, self.directory.entries
        if not config.named or not some(self.rng, .1):
            return
        rdn, changed = entries[path][0], entries[path][1].copy()
        number = self.directory.conf.type_of(self.rng.choice(config.named))
        above = [config.rdn(self.rng.choice(config.naming)) for _ in range(self.rng.choice([0, 1, 1, 2]))]
        for suffix in (config.suffix, self.rng.choice([list(config.new), config.suffix])):
            text = alike(self.rng, config.name_text(above + suffix))
            if self.directory.conf.is_valid(number, text) and not changed.has(number, text) and not self.directory.conf.types[number].is_single:
                changed.add(number, text)
        entries[path] = rdn, changed

    def rdn_of_suffix(self):
        """One of values that the suffix's entry has."""
        return [self.rdn_of_values((), self.config.suffix[0])] + self.rng.choice([self.config.suffix[1:], list(self.config.new)[1:], []])


def suffix_case(rng):
    config = SuffixConfig(rng)
    config.new = config.new_suffix()
    moves = Moves(rng, config, False)
    wanted = rng.choice([0] + [1, 2, 3, 6, 10] * 4)
    for _ in range(8):
        # the first ones may be refused, as where classes don't allow a type of the suffix
        if wanted and not moves.directory.entries:
            moves.fill(wanted)
    data, conf = moves.directory.dump() or rng.choice([None, b""]), config.text
    name = config.name_text(moves.rdn_of_suffix() if some(rng, .15) else config.new)
    if some(rng, .08):
        name = config.filled(rng.choice(NO_SUFFIXES if some(rng, .6) else BAD_NAMES), config.new)
    if some(rng, .03):
        conf = rng.choice([None, config.broken_text(), config.broken_text()])
    if some(rng, .03):
        data = rng.choice([None, mutated(rng, data or b"x")])
    option = rng.choice(["filter", "base", "both"]) if some(rng, .02) else "none"
    return Suffix(conf, data, sayable(name), b"(objectClass=*)" if option in ("filter", "both") else None,
                  sayable(config.name_text(config.suffix)) if option in ("base", "both") else None, some(rng, .1), wrap(rng, .3),
                  rng.choice([None, None, b"old\n"]))
