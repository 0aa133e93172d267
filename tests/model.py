"""A second implementation of docs/GRAMMAR.md: it searches for readings and scan errors as they are defined there, and
answers test cases from what it finds."""

import re
import textwrap

ESCAPES = {b"\\": b"\\\\", b"\t": b"\\t", b"\n": b"\\n", b"\r": b"\\r"}
# Whether an option takes an argument, and how often it may occur, in the order of their numbers in C.
KINDS, OCCURS = ["no", "yes", "maybe"], ["optional", "req", "multi"]
CALLS = {  # for each call that adds an option, except `opt` and `add_group`: its kinds
    "optflag": ("no", "optional"), "optflagmulti": ("no", "multi"), "optflagopt": ("maybe", "optional"),
    "optmulti": ("yes", "multi"), "optopt": ("yes", "optional"), "reqopt": ("yes", "req"),
}
TEXTS = {
    "ArgumentMissing": b"Argument to option '%s' missing", "UnrecognizedOption": b"Unrecognized option: '%s'",
    "OptionMissing": b"Required option '%s' missing", "OptionDuplicated": b"Option '%s' given more than once",
    "UnexpectedArgument": b"Option '%s' does not take an argument",
}
MARGIN = 24  # columns before descriptions
USUAL_COLUMNS, NEXT_ROW = MARGIN + 54, b"\n" + b" " * MARGIN


class Group:
    def __init__(self, short, long, kind, occur, desc=b"", hint=b""):
        self.short, self.long, self.kind, self.occur, self.desc, self.hint = short, long, kind, occur, desc, hint
        self.main = long or short
        self.alias = short if short and long else None
        self.argument = {"yes": hint, "no": b"", "maybe": b"[%s]" % hint}[kind]


class Options:
    """Groups, a style and a mode, and how words are read with them."""

    def __init__(self, groups=(), stops=False, long_only=False):
        self.groups, self.stops, self.long_only = [*groups], stops, long_only

    def resolve(self, name):
        """The index of the group that a name resolves to: by main name, or else by alias."""
        mains = [group.main for group in self.groups]
        named = [name, *(group.main for group in self.groups if group.alias == name)]
        return next((mains.index(main) for main in named if main in mains), None)

    def kind(self, name):
        place = self.resolve(name)
        return None if place is None else self.groups[place].kind

    def long_forms(self, word):
        """The name and the attached argument (or None) of a word that is a long option in this mode."""
        dashes = re.match(rb"(?s)--(?=.)|-(?=[^-])", word)
        if dashes and (dashes[0] == b"--" or self.long_only):
            name, equals, value = word[dashes.end():].partition(b"=")
            yield name, value if equals else None

    def cluster(self, word):
        """The part of a cluster after its dash, or nothing."""
        return word[1:] if re.match(b"-[^-]", word) and not self.long_only else b""

    def items(self, word, after):
        """The valid items that begin with this word: what each mentions, its number of words, whether it is bare."""
        if not is_dashed(word) and not self.stops:
            yield [], 1, False
        for name, value in self.long_forms(word):
            kind, place = self.kind(name), self.resolve(name)
            if (kind == "no" and value is None) or (kind == "yes" and value is not None) or kind == "maybe":
                yield [(place, value)], 1, False
            if kind == "yes" and value is None and after:
                yield [(place, after[0])], 2, False
        flags = self.cluster(word)
        for end in range(len(flags) + 1):
            mentions = [(self.resolve(flags[at:at + 1]), None) for at in range(end)]
            if any(self.kind(flags[at:at + 1]) != "no" for at in range(end)):
                return
            name, value = flags[end:end + 1], flags[end + 1:]
            kind, place = self.kind(name), self.resolve(name)
            if not name and end > 0:
                yield mentions, 1, False
            if kind in ("yes", "maybe") and value:
                yield mentions + [(place, value)], 1, False
            if kind == "yes" and not value and after:
                yield mentions + [(place, after[0])], 2, False
            if kind == "maybe" and not value:
                yield mentions + [(place, None)], 1, True
                if after and not is_dashed(after[0]):
                    yield mentions + [(place, after[0])], 2, False

    def readings(self, words, whole=False):
        """The readings of the words, at most one: occurrences, free words, trailing start and order. The order has a
        place and a value for each option, and None and the word for each free word. In a whole reading no word ends the
        options."""
        found = {len(words): [([], [], None, [])]}
        for at in range(len(words) - 1, -1, -1):
            found[at] = []
            if words[at] == b"--" and not whole:
                found[at].append(([], words[at + 1:], 0 if words[at + 1:] else None, in_order(words[at + 1:])))
            if self.stops and not is_dashed(words[at]) and not whole:
                found[at].append(([], words[at:], None, in_order(words[at:])))
            for mentions, used, bare in self.items(words[at], words[at + 1:]):
                after = at + used
                if bare and after < len(words) and not is_dashed(words[after]):
                    continue
                for occurrences, free, start, order in found[after]:
                    own = [] if mentions else [words[at]]
                    given = [(place, at, value) for place, value in mentions]
                    start = start if start is None else start + len(own)
                    found[at].append((given + occurrences, own + free, start, mentions + in_order(own) + order))
        assert len(found[0]) < 2, words
        return found[0]

    def scan_errors(self, words):
        """The scan errors of the words. The words before a scan error have a whole reading."""
        for at, word in enumerate(words):
            if not self.readings(words[:at], whole=True):
                continue
            for name, value in self.long_forms(word):
                kind = self.kind(name)
                if kind is None:
                    yield "UnrecognizedOption", name
                elif kind == "no" and value is not None:
                    yield "UnexpectedArgument", name
                elif kind == "yes" and value is None and at + 1 == len(words):
                    yield "ArgumentMissing", name
            text = self.cluster(word)
            for end in range(len(text)):
                if any(self.kind(text[flag:flag + 1]) != "no" for flag in range(end)):
                    break
                letter = first_character(text[end:])
                if self.kind(letter) is None or len(letter) > 1:
                    yield "UnrecognizedOption", letter
                elif self.kind(letter) == "yes" and end + 1 == len(text) and at + 1 == len(words):
                    yield "ArgumentMissing", letter

    def parse(self, words, with_counts=True):
        """Occurrences, free words, trailing start and order; or an error and its name."""
        readings = self.readings(words)
        if not readings:
            errors = list(self.scan_errors(words))
            assert len(errors) == 1, (words, errors)
            return errors[0]
        if not with_counts:
            return readings[0]
        counts = [sum(place == mine for place, _, _ in readings[0][0]) for mine in range(len(self.groups))]
        for group, count in zip(self.groups, counts):
            if count > 1 and "multi" not in group.occur:
                return "OptionDuplicated", group.main
            if count == 0 and "req" in group.occur:
                return "OptionMissing", group.main
        return readings[0]

    def canonical(self, read):
        occurrences, free, *_ = read
        if any(b"=" in self.groups[place].main for place, _, _ in occurrences):
            return None
        return [b"--" + self.groups[place].main + (b"" if value is None else b"=" + value)
                for place, _, value in occurrences] + [b"--"] + free

    def head(self, group):
        dashes, blank = (b"-" if self.long_only else b"--"), b" " * 4 if any(group.short for group in self.groups) else b""
        short = b"-%s%s " % (group.short, b"," if group.long else b"") if group.short else blank
        return b"    " + short + (b"%s%s " % (dashes, group.long) if group.long else b"") + group.argument

    def usage_rows(self, columns):
        """The rows of the usage text within this many columns."""
        for group in self.groups:
            head, rows = self.head(group), wrapped(columns - MARGIN, group.desc)
            yield (head.ljust(MARGIN) if len(head) < MARGIN else head + NEXT_ROW) + NEXT_ROW.join(rows)

    def usage(self, brief, columns=USUAL_COLUMNS):
        return b"%s\n\nOptions:\n%s\n" % (brief, b"\n".join(self.usage_rows(columns)))

    def short_usage(self, program):
        brackets = {"req": b"%s", "optional": b"[%s]", "multi": b"[%s]..", "reqmulti": b"%s"}
        texts = [(b"-" + group.short if group.short else b"--" + group.long) + (b" " if group.kind != "no" else b"")
                 + group.argument for group in self.groups]
        return b"Usage: %s " % program + b" ".join(brackets[group.occur] % text for group, text in zip(self.groups, texts))


def wrapped(limit, desc):
    """The rows of a description for a limit. Words wider than the limit have rows of their own."""
    return [row.encode() for one in desc.decode().split("\n")
            for row in textwrap.wrap(" ".join(one.split()), max(limit, 1), break_long_words=False, break_on_hyphens=False)]


def is_measured(*texts, of=rb"[ -~]*"):
    """Whether the rules here measure these texts: each character takes one column."""
    return all(re.fullmatch(of, text) and b"{Z}" not in text for text in texts)


def in_order(free):
    """Free words as parts of an order."""
    return [(None, word) for word in free]


def is_dashed(word):
    return word.startswith(b"-") and len(word) > 1


def first_character(text):
    """The first character, or the first byte if the text doesn't begin with one."""
    return text.decode(errors="surrogateescape")[0].encode(errors="surrogateescape")


def field(text):
    return re.sub(rb"[\\\t\n\r]", lambda it: ESCAPES[it[0]], text)


def text_of(written):
    return re.sub(rb"\\.", lambda it: {escape: byte for byte, escape in ESCAPES.items()}[it[0]], written)


def line(*fields):
    return b"\t".join(field(one if isinstance(one, bytes) else str(one).encode()) for one in fields)


def optional(value):
    return b"-" if value is None else b"=" + value


class Session:
    """The state of a case: its options, the result of its last words, and what was kept of both."""

    def __init__(self, kept=None):
        self.options, self.read, self.kept = Options(), None, kept

    def answer(self, word, fields):
        """The answer to a row, as lines. A line is None if the rules don't determine it."""
        if word in ("case", "anew"):
            self.__init__(self.kept if word == "anew" else None)
            return [line("case", *fields)] if word == "case" else []
        if word in ("keep", "same"):
            return self.compared(word, *fields)
        if word in ("words", "ignoring_counts", "check_counts"):
            self.read = self.options.parse(fields, word != "ignoring_counts")
            return [self.result("accepted", self.read)]
        if word == "canonical":
            return [self.canonical(fields)]
        if word == "error" and not fields:
            rejected = self.read is not None and len(self.read) == 2
            return [line("error", TEXTS[self.read[0]] % self.read[1] if rejected else "nothing")]
        if word == "parse_in_order":
            read = self.options.parse(fields)
            return [line(word) + b"\t" + (self.result("", read) if len(read) == 2 else
                                          line("order", *(field for place, text in read[3] for field in (
                                              [b"=" + text] if place is None else [place, optional(text)]))))]
        if word in ("option", "positions") and (self.read is None or len(self.read) == 2):
            return [line(word, "nothing")]
        if word == "clear":
            return self.cleared()
        if word in ("option", "positions"):
            own = self.given(fields[0])
            return [line(word, fields[0], "undefined")] if own is None else getattr(self, word)(own, *fields)
        if word == "style":
            self.options.stops = fields[0] == b"stop"
        elif word == "mode":
            self.options.long_only = fields[0] == b"long-only"
        elif word in ("opt", "add_group"):
            short, long, desc, hint, kind, occur = fields
            self.options.groups.append(Group(short, long, kind.decode(), occur.decode(), desc, hint))
        elif word in CALLS:
            self.options.groups.append(Group(*fields[:2], *CALLS[word], *fields[2:]))
        elif word == "short":
            return [line("short", self.options.short_usage(*fields))]
        elif word in ("usage", "usage_in", "usage_rows", "rows", "wrap"):
            return [self.help(word, *fields)]
        else:
            return [None]
        return []

    def compared(self, word, what=None):
        """Keeps what makes options and results equal, or compares one of the two with what was kept."""
        declared = [(group.short, group.long, group.kind, group.occur) for group in self.options.groups]
        texts = [(group.desc, group.hint) for group in self.options.groups]
        result = self.read
        if result is not None and len(result) > 2:
            occurrences, free, start, _ = self.read
            own = [[(at, value) for place, at, value in occurrences if place == mine] for mine in range(len(declared))]
            result = declared, own, free, start
        now = {b"options": (declared, texts, self.options.stops, self.options.long_only), b"answers": result}
        if word == "keep":
            self.kept = now
            return []
        return [line(word, what, "true" if self.kept[what] == now[what] else "false")]

    def help(self, word, *fields):
        """Help texts, if all texts are ASCII. Descriptions may also contain the white space that Python removes."""
        descs = [fields[1]] if word == "wrap" else [group.desc for group in self.options.groups]
        heads = [text for group in self.options.groups for text in (group.short, group.long, group.hint)]
        if not is_measured(*descs, of=rb"[ -~\t-\r]*") or word != "wrap" and not is_measured(*heads):
            return None
        if word == "wrap":
            return line(word, *wrapped(int(fields[0]), fields[1]))
        if word in ("usage", "usage_in"):
            return line(word, self.options.usage(fields[-1], *map(int, fields[:-1])))
        rows = list(self.options.usage_rows(USUAL_COLUMNS))
        return line(word, *([b"%d rows" % len(rows)] if word == "rows" else []), *rows)

    def cleared(self):
        """Takes all words off the free ones."""
        if len(self.read) > 2:
            occurrences, _, start, order = self.read
            self.read = occurrences, [], start, order
        return [self.result("accepted", self.read)]

    def result(self, word, read):
        if len(read) == 2:
            return line("refused", *read)
        return line(word, "-" if read[2] is None else read[2], *read[1])

    def canonical(self, words):
        read = self.options.parse(words)
        if len(read) == 2:
            return line("canonical") + b"\t" + self.result("", read)
        written = self.options.canonical(read)
        return line("canonical", "none") if written is None else line("canonical", "line", *written)

    def given(self, name):
        """The positions and values of an option's occurrences, or None if the name is undefined."""
        place = self.options.resolve(name)
        return None if place is None else [(at, value) for mine, at, value in self.read[0] if mine == place]

    def option(self, own, name, default):
        values = [value for _, value in own if value is not None]
        first = own[0][1] if own else None
        defaulted = None if not own else default if first is None else first
        return [line("option", name, "present" if own else "absent", len(own), optional(first), optional(defaulted)),
                line("strs", *values), line("pairs", *values)]

    def positions(self, own, name):
        pairs = [part for at, value in own if value is not None for part in (at, value)]
        return [line("positions", name, *(at for at, _ in own)), line("pairs", *pairs)]


def parts(written):
    word, *fields = written.split(b"\t")
    return word.decode(), [text_of(one) for one in fields]


def rows_of(text):
    """The rows of a text, each with the answers below it. `{Z}`, a character of width 0, isn't replaced, because the
    rules here measure only ASCII."""
    rows = []
    for one in text.split(b"\n"):
        if one.startswith(b"> "):
            rows[-1][1].append(one[2:])
        elif one.startswith(b"|"):
            rows[-1][1][-1] += one[1:].removeprefix(b" ") + b"\\n"
        elif one and not one.startswith(b"#"):
            rows.append((one, []))
    return rows


def answer_rows(rows, stored=True):
    """Answers rows. Returns three things: the rows, with more rows added (for all words, their result by
    `check_counts`, their canonical line and their order; for all names, their positions); the number of stored answers that were
    checked; and the rows whose stored answers are wrong. If none are stored, the rows have the answers that the rules
    determine, and rows without one are left out."""
    session, beyond, given, differ, case = Session(), [], 0, [], b""
    for one, answers in rows:
        word, fields = parts(one)
        case = one if word == "case" else case
        names = list({name: 0 for group in session.options.groups for name in (group.short, group.long) if name})
        if word == "words" and names:  # The words themselves follow, and have the last result.
            asked = line("check_counts", *fields)
            beyond.append((asked, session.answer(*parts(asked))))
        expected = session.answer(word, fields)
        if stored or expected != [None]:
            beyond.append((one, answers if stored or word == "case" else expected))
        if stored and word != "case" and expected != [None]:
            given += len(answers)
            if expected != answers:
                differ.append((case, one, b"model: " + b" / ".join(expected), b"stored: " + b" / ".join(answers)))
        if word in ("words", "ignoring_counts", "check_counts"):
            asked = [line("canonical", *fields), line("parse_in_order", *fields)]
            if len(session.read) > 2:
                asked += [line("positions", name) for name in names]
            beyond += [(more, session.answer(*parts(more))) for more in asked]
    return beyond, given, differ
