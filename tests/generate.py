#!/usr/bin/env python3
"""Cases of getopts_vectors: options, words and questions, as rows without answers.

usage: tests/generate.py SEED COUNT     prints all short lines, and COUNT random cases

The first cases have all lines of at most two of some words, for options with odd names. All others are random. Most of
these add a few options, with odd and colliding names, parse a command line, and query the result. Others test long command
lines, help texts, numbers and comparisons. Names, words and texts have characters of each class in characters.txt, and many
differ from another in one place. The recorded cases are the shortest for each kind of word, error, name, text and answer,
and for each pair of kinds of words, and for each kind of error with each style, mode and form of name. Those at the end,
with longer names, were written by hand for what random ones seldom have, and answered by the Rust crate."""

import copy
import itertools
import random
import sys

import model
import texts

CALLS = [(call, *kinds) for call, kinds in model.CALLS.items()]


class Option:
    """An option, and the call that declares it."""

    def __init__(self, short, long, call, kind, occur):
        self.short, self.long, self.call, self.kind, self.occur, self.desc, self.hint = short, long, call, kind, occur, "", ""

    @property
    def main(self):
        return self.long or self.short

    @property
    def takes_hint(self):
        return self.call == "opt" or self.kind != "no"

    @property
    def row(self):
        more = (self.hint, self.kind, self.occur) if self.call == "opt" else (self.hint,) if self.takes_hint else ()
        return self.call, self.short, self.long, self.desc, *more


class Case:
    """Options, a style and a mode, and the rows so far."""

    def __init__(self, groups, stop=False, long_only=False):
        self.groups, self.stop, self.long_only, self.rows = groups, stop, long_only, []

    def declare(self):
        self.rows += [("style", "stop")] * self.stop + [("mode", "long-only")] * self.long_only
        self.rows += [group.row for group in self.groups]
        return self

    def counts_words(self, words):
        """Whether no argument is a word of its own. The Rust crate doesn't count these in positions."""
        groups = [model.Group(one.short.encode(), one.long.encode(), one.kind, one.occur) for one in self.groups]
        words = [word.encode() for word in words]
        read = model.Options(groups, self.stop, self.long_only).parse(words, with_counts=False)
        return len(read) == 2 or all(value is None or words[at + 1:at + 2] != [value] for _, at, value in read[0])


def one_in(rng, count):
    return rng.randrange(count) == 0


def group(rng):
    """A random option without a description."""
    short, long = rng.choice([(True, False), (False, True), (True, True), (True, True)])
    kinds = ("opt", rng.choice(model.KINDS), rng.choice(model.OCCURS)) if one_in(rng, 3) else rng.choice(CALLS)
    made = Option(texts.short_name(rng) if short else "", texts.long_name(rng) if long else "", *kinds)
    made.hint = rng.choice(texts.HINTS) if made.takes_hint and one_in(rng, 8) else ""
    return made


def options(rng, most):
    groups = [group(rng) for _ in range(rng.randrange(most + 1))]
    for at, one in enumerate(groups[1:], 1):
        near = texts.near(rng, groups[rng.randrange(at)].long)
        if one.long and len(near.encode()) > 1 and one_in(rng, 6):
            one.long = near
    return Case(groups, one_in(rng, 4), one_in(rng, 4))


def similar_options(rng):
    """Many options with similar long names, some of them declared twice."""
    case = options(rng, 60)
    for at, one in enumerate(case.groups):
        if one.long:
            other = case.groups[rng.randrange(at + 1)].long
            name = rng.choice([other, texts.near(rng, other), "", "", ""])
            one.long = name if len(name.encode()) > 1 else texts.similar_name(rng)
        one.call, one.occur = "opt", "multi"
    return case


def name(rng, case):
    """An option's name, or a random one."""
    if not case.groups or one_in(rng, 14):
        make = rng.choice([texts.short_name, texts.long_name, texts.noise, texts.similar_name, texts.character, lambda rng: ""])
        return make(rng)
    one = rng.choice(case.groups)
    own = rng.choice([text for text in (one.short, one.long) if text])
    return texts.near(rng, own) if one_in(rng, 14) else own


def cluster(rng, case):
    """A dash, characters, and perhaps a text."""
    word = "-"
    for _ in range(rng.randrange(1, 4)):
        short = rng.choice(case.groups).short if case.groups else texts.character(rng)
        word += texts.character(rng) if one_in(rng, 14) else texts.near(rng, short) if one_in(rng, 14) else short
    return word + (texts.value(rng) if one_in(rng, 4) else "")


def item(rng, case):
    """One or two words that form an item, or almost do."""
    kind = rng.randrange(20)
    if kind < 5:
        yield texts.value(rng) if kind < 3 else texts.noise(rng) if kind == 3 else "--"
    elif kind < 12:
        yield ("-" if one_in(rng, 4) else "--") + name(rng, case) + (f"={texts.value(rng)}" if one_in(rng, 3) else "")
    else:
        yield cluster(rng, case)
    if one_in(rng, 3):
        yield texts.value(rng)


def words(rng, case, most):
    return [word for _ in range(rng.randrange(most + 1)) for word in item(rng, case)]


def read(rng, case, line, most):
    """Adds words, and questions about what they give."""
    case.rows += [("words", *line), ("error",)]
    for _ in range(rng.randrange(1, most + 1)):
        own, kind = name(rng, case), rng.randrange(8)
        if kind == 0 and case.counts_words(line):
            case.rows.append(("positions", own))
        elif kind == 1:
            case.rows.append(("any", *(name(rng, case) for _ in range(rng.randrange(4)))))
        elif kind == 2:
            case.rows.append(("opt_defined", own))
        else:
            case.rows.append(("option", own, texts.value(rng) if one_in(rng, 3) else "def"))
    return case


# ---- all short lines

# Tables with odd, shadowed and repeated names, and words for each.
ODD_OPTIONS = [
    ([("-", "", "no", "multi"), ("=", "", "maybe", "multi"), ("", "--", "yes", "multi"), ("", "--x", "no", "multi")],
     ["", "-", "--", "---", "----", "----=", "----=x", "----x", "---=", "-=", "-=-", "-==x", "--=", "--x", "-x", "x"]),
    ([(" ", "", "yes", "multi"), ("", "é", "maybe", "optional"), ("p", "a=b", "yes", "multi")],
     ["", "--", " ", "- ", "-  x", "--  ", "-- =x", "-é", "--é", "--é=", "-p", "-px", "--p=x", "--a=b", "-a=b"]),
    ([("a", "apple", "no", "optional"), ("a", "", "yes", "multi"), ("b", "apple", "maybe", "multi"),
      ("", "ab", "no", "multi"), ("b", "ab", "yes", "multi"), ("c", "", "no", "optional")],
     ["", "--", "x", "-a", "-b", "-c", "-cb", "-ba", "-ax", "-ab", "--a", "--b", "--apple", "--apple=x", "-apple"]),
]


def all_short_lines():
    """All lines of at most two words for each table, in both styles and modes."""
    for (groups, given), stop, long_only in itertools.product(ODD_OPTIONS, [False, True], [False, True]):
        case = Case([Option(short, long, "opt", *kinds) for short, long, *kinds in groups], stop, long_only).declare()
        names = sorted({name for one in case.groups for name in (one.short, one.long) if name})
        for line in [(), *itertools.product(given), *itertools.product(given, given)]:
            case.rows += [("words", *line), ("error",), *(("option", own, "def") for own in names)]
            case.rows += [("positions", own) for own in names * case.counts_words(line)]
        yield from [("case", "short-lines"), *case.rows]


# ---- the kinds of random cases

def short_line(rng):
    """A line of words for a few options, one of which may request something."""
    case = similar_options(rng) if one_in(rng, 12) else options(rng, 4)
    if case.groups and one_in(rng, 8):
        rng.choice(case.groups).long = rng.choice(["help", "version"])
    return read(rng, case.declare(), words(rng, case, 4), 4)


def long_line(rng):
    case = options(rng, 6)
    for one in case.groups:
        if rng.randrange(6):
            one.call, one.occur = "opt", "multi"
    return read(rng, case.declare(), words(rng, case, 40), 6)


def help_text(rng):
    case = options(rng, 4)
    for one in case.groups:
        one.desc, one.hint = texts.description(rng), texts.one_of(rng, texts.HINTS) if one.takes_hint else ""
        if one.long and one_in(rng, 4):
            one.long = texts.of_columns(rng, rng.randrange(8, 22))
        # Other heads take over 24 columns, however wide their characters are.
        if not texts.is_measured(one.short):
            one.short = "a"
        if not texts.is_measured(one.long + one.hint):
            one.long = "a-very-long-name-of-an-option" + one.long
    case.declare().rows += rng.choice([[("rows",)], [("short", texts.value(rng))], [("usage", "Usage: x"), ("short", "x")],
                                       [("usage", texts.value(rng))]])
    return case


def names(rng):
    """Pairs of names, valid or not."""
    pick = lambda: rng.choice([texts.short_name, texts.long_name, texts.noise, texts.character, lambda rng: ""])(rng)
    case = Case([])
    case.rows += [("lawful", pick(), pick()) for _ in range(rng.randrange(1, 4))]
    return case


def comparison(rng):
    """Copies and their equality: of options with one change, or of the results of two lines."""
    case = options(rng, 3)
    for one in case.groups:
        one.desc, one.hint = texts.value(rng), texts.one_of(rng, texts.HINTS) if one.takes_hint else ""
    line = words(rng, case.declare(), 3)
    case.rows += [("words", *line), ("keep",)]
    other = copy.deepcopy(case)
    if one_in(rng, 2):
        change(rng, other)
        other.rows.append(("anew",))
        other.declare()
    other.rows.append(("same", "options"))
    changed = line if one_in(rng, 3) else changed_words(rng, other, line)
    if case.counts_words(line) and other.counts_words(changed):
        other.rows += [("words", *changed), *[("clear",)] * one_in(rng, 8), ("same", "answers")]
    return other


def change(rng, case):
    """Changes one thing, or nothing."""
    kind = rng.randrange(6)
    if kind == 0:
        case.stop = not case.stop
    elif kind == 1:
        case.long_only = not case.long_only
    elif kind == 2:
        case.groups = rng.choice([case.groups + [group(rng)], case.groups[:-1], case.groups[::-1]])
    elif case.groups:
        one = rng.choice(case.groups)
        # The last two are the same texts, divided between two fields in another way.
        vars(one).update(rng.choice([
            {}, {"short": texts.short_name(rng)}, {"long": texts.long_name(rng)}, {"desc": texts.near(rng, one.desc)},
            {"hint": texts.near(rng, one.hint)}, {"kind": rng.choice(model.KINDS)}, {"occur": rng.choice(model.OCCURS)},
            {"desc": one.hint + one.desc, "hint": ""}, {"long": one.short + one.long, "short": ""} if one.long else {}]))
        one.call = "opt"


def changed_words(rng, case, line):
    """Words with almost the same meaning as others."""
    kind, at = rng.randrange(8), rng.randrange(len(line) or 1)
    if kind < 4 or not line:
        return [line[::-1], [*line, texts.value(rng)], [*line, *item(rng, case)], line[:-1]][kind % 4]
    if kind == 4:  # the letters of a cluster in another order
        return [line[0][:1] + line[0][:0:-1], *line[1:]]
    after = line[at].lstrip("-")
    return [*line[:at], "-" * (len(line[at]) - len(after)) + texts.near(rng, after), *line[at + 1:]]


def values(rng):
    """Values as they are, and converted to numbers and booleans."""
    one = Option("n", rng.choice(["number", ""]), "opt", rng.choice(["yes", "yes", "maybe", "no"]), "multi")
    case, line = Case([one]).declare(), []
    for _ in range(rng.randrange(6)):
        text = texts.parsed(rng) if one_in(rng, 2) else texts.value(rng)
        text = texts.near(rng, text) if one_in(rng, 4) else text
        line.append(rng.choice(["-n", f"-n{text}", f"--{one.main}={text}", f"--{one.main}={text}"]))
    asked = [("number", "n", rng.choice(["0", "7", "-12"])), ("truth", one.main, rng.choice(["true", "false"]))]
    case.rows += [("words", *line), ("error",), ("option", "n", "def"), rng.choice(asked)]
    return case


# Each kind of case, with its percentage.
KINDS = {short_line: 64, help_text: 14, names: 3, comparison: 10, values: 6, long_line: 3}


def rows(seed, count):
    """The rows of all short lines, and of the first random cases of a seed."""
    yield from all_short_lines()
    rng = random.Random(seed)
    for number in range(count):
        make, = rng.choices([*KINDS], KINDS.values())
        yield "case", f"random-{number}"
        yield from make(rng).rows


def written(seed, count):
    return b"".join(model.line(*row) + b"\n" for row in rows(seed, count))


if __name__ == "__main__":
    if sys.argv[1:] in (["--help"], ["-h"]):
        print(__doc__)
    elif [word.isdecimal() for word in sys.argv[1:]] == [True, True]:
        sys.stdout.buffer.write(written(*map(int, sys.argv[1:])))
    else:
        print("usage: tests/generate.py SEED COUNT", file=sys.stderr)
        sys.exit(2)
