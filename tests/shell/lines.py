"""Random arguments for random tables, and what a shell does with the program's code. Expected results are computed here
and by model.py, from the rules and not from the program."""

import functools
import os
import random
import re

from conftest import run
from model import TEXTS, Group, Options, line
from texts import character

WITH_ARRAYS = ["bash", "zsh", "ksh93", "mksh", "yash"]
SPECIAL = list("'\"\\$`!~=*?[]{}()<>|&;#%^ \t\n\r-") + ["''", "\\'", "$(", "\n\n", "$HOME", "--", "\u00a0", "\u2028"]
# The pieces of words: a percentage, and a function that returns a random piece. The last two return marks, and bytes
# that aren't text.
PIECES = [(50, lambda rng: rng.choice(SPECIAL)), (20, character),
          (20, lambda rng: rng.choice("abcxyz")), (2, lambda rng: chr(rng.randrange(0x80, 0xD800))),
          (2, lambda rng: chr(rng.randrange(0xE000, 0x110000))), (2, lambda rng: chr(rng.randrange(0x80, 0xA0))),
          (2, lambda rng: chr(rng.randrange(0x10FF80, 0x110000))),
          (2, lambda rng: os.fsdecode(bytes([rng.randrange(0x80, 0x100)])))]
# How often an option may be given: its notation, and its kind in model.py.
COUNTS = {"once": ("{}", "req"), "may": ("[{}]", "multi"), "many": ("[{}]..", "multi"), "alone": ("[{}]!", "multi")}


def text_of(rng):
    """A random word of up to ten pieces."""
    often, pieces = zip(*PIECES)
    return "".join(piece(rng) for piece in rng.choices(pieces, often, k=rng.choice([0, 1, 1, 2, 3, 5, 10])))


def table_of(rng, alone):
    """A random table: for each option its names, its kind and how often it may be given. `alone` is the probability
    of an option that is given alone."""
    shorts = rng.sample("abcdefgABCXYZ", 8)
    longs = rng.sample(["aa", "aA", "aaa", "b-b", "bb-", "c_c", "K3", "e-1-f", "g--h", "long-", "_x", "_xx",
                        "a-long-name-of-x", "a-long-name-of-y"], 8)
    options = []
    for short, long in list(zip(shorts, longs))[:rng.randrange(1, 7)]:
        names = rng.choice([(short, ""), ("", long), (short, long)])
        rest = rng.choice(["no", "yes", "yes", "maybe"]), rng.choice(["once", "may", "may", "may", "many"])
        options.append(names + (("no", "alone") if rng.random() < alone else rest))
    return options


def operands_of(rng, count):
    """Operand lines that accept this many free words, or no lines."""
    needed = rng.randrange(count + 1)
    first = [f"FILE{place}" for place in range(needed)]
    rest = [f"[FILE{place}]" for place in range(needed, count + rng.randrange(2))]
    return rng.choice([[], first + rest, first + ["[MORE].."], [*first[1:], "ONE..."] if first else rest])


def written(options):
    lines = []
    for short, long, kind, often in options:
        names = "|".join(f"-{name}" for name in (short, long and f"-{long}") if name)
        lines.append(COUNTS[often][0].format(names + {"no": "", "yes": " X", "maybe": " [X]"}[kind]))
    # The newline tells a table of a single option from a word.
    return "\n".join(lines) + "\n"


def spelled(rng, option):
    """Words that give an option, mostly with a value if it takes one."""
    short, long, kind, often = option
    # The Korn shell takes some words at the front of an array for declarations, even in quotes.
    declares = often == "many" and rng.random() < 0.2
    value = rng.choice(["typeset", "integer", "export", "x=1", "[0]=x"]) if declares else text_of(rng)
    name, equals = (f"-{short}", "") if short and (not long or rng.random() < 0.5) else (f"--{long}", "=")
    alone = kind == "no" or kind == "maybe" and rng.random() < 0.3
    return [name] if alone else [name + equals + value] if kind == "maybe" or rng.random() < 0.5 else [name, value]


def expected_result(options, words):
    """The options in the order given (index and value of each) and the free words, or None if the words are rejected.
    If options to be given alone are among them, only the first of these in the table counts."""
    groups = [Group(short.encode(), long.encode(), kind, COUNTS[often][1]) for short, long, kind, often in options]
    reader, words = Options(groups), [os.fsencode(word) for word in words]
    for occurrences, free, *_ in reader.readings(words):
        if alone := [place for place, _, _ in occurrences if options[place][3] == "alone"]:
            return [(min(alone), None)], []
        if len(reader.parse(words)) > 2:
            given = [(place, None if value is None else os.fsdecode(value)) for place, _, value in occurrences]
            return given, [os.fsdecode(word) for word in free]
    return None


def case_of(rng, alone=0.1):
    """Random options and words for them, and the expected result."""
    while True:
        options = table_of(rng, alone)
        parts = [[text_of(rng)] for _ in range(rng.randrange(3))]
        for option in options:
            # A required one may be missing beside one given alone.
            times = rng.choice([0, 1, 1, 1] if option[3] == "once" else [0, 0, 1, 2, 3])
            parts += [spelled(rng, option) for _ in range(times)]
        rng.shuffle(parts)
        words = []
        for own in parts:
            # Joins flags, and words that look like flags.
            if words and re.match("-[^-]", own[0]) and re.fullmatch("-[a-zA-Z]+", words[-1]) and rng.random() < 0.5:
                words[-1] += own.pop(0)[1:]
            words += own
        if rng.random() < 0.5:
            words += ["--"] + [text_of(rng) for _ in range(rng.randrange(3))]
        if given := expected_result(options, words):
            return options, words, *given


def canonical(options, given, free):
    """The canonical line of a result."""
    mains = [long or short for short, long, _, _ in options]
    return [f"--{mains[place]}" + ("" if value is None else f"={value}") for place, value in given] + ["--"] + free


def rows_of(options, words, canonical_words, said):
    """A case of getopts_vectors with what the program printed: a canonical line, or an error. None if a word isn't text."""
    if not all(re.fullmatch("[^\udc80-\udcff\U0010ff80-\U0010ffff]*", word) for word in words):
        return
    yield line("case", "shell")
    for short, long, kind, often in options:
        yield line("opt", short, long, "", "", kind, COUNTS[often][1])
    yield line("canonical", *words)
    errors = {kind: re.match(b"try: " + text.replace(b"%s", b"(.*)") + b"\n", said) for kind, text in TEXTS.items()}
    refused = next((("refused", kind, found[1]) for kind, found in errors.items() if found), None)
    yield b"> " + line("canonical", *(refused or ["line", *canonical_words]))


@functools.cache
def random_scripts(program, way, count):
    """Scripts that read random words, each with its expected output: the words of the canonical line, or the values of
    variables or arrays. Also the program's code for each, and an environment with other values for all variables."""
    rng, cases, codes, env = random.Random(way), [], [], {}
    for number in range(count):
        options, words, given, free = case_of(rng)
        prefix = rng.choice(["opt_", "x", "_", "Opt9"])
        own = {"words": [], "variables": ["-V", prefix], "arrays": ["-A", "-V", prefix]}[way]
        table = written(options) + "\n".join(operands_of(rng, len(free)))
        code, errors = run(program, *own, "try", table, *words)
        assert not errors, f"random line {number}: {table!r} {words!r}: {errors}"
        codes.append(code)
        script = [f"code=$(cat code.{number}) || exit\neval \"$code\"\nprintf '%s\\0' \"$#\" \"$@\""]
        line = canonical(options, given, free) if way == "words" else free
        wanted = [str(len(line)), *line]
        for place, (short, long, kind, often) in enumerate(options if way != "words" else []):
            name = prefix + (long or short).replace("-", "_")
            values = [value or "" for at, value in given if at == place]
            env[name] = "other"
            script.insert(0, f"unset {name}; {name}=(other array)" if way == "arrays" else f"{name}='other'")
            if kind != "no" and often == "many":
                array = f"set -- ${{{name}+\"${{{name}[@]}}\"}}"
                script.append(array if way == "arrays" else f"eval \"set -- ${name}\"")
                script.append("printf '%s\\0' \"$#\" \"$@\"")
                wanted += [str(len(values)), *values]
            else:
                script.append(f"printf '%s\\0' \"${{{name}+set}}\" \"${{{name}-}}\"")
                if kind == "no":
                    wanted += ["set", str(len(values) or "")]
                else:
                    wanted += ["set", values[-1]] if values else ["", ""]
        cases.append(("\n".join(script), wanted))
    return cases, codes, env


def run_in_shell(shell, room, cases, codes, env):
    """Runs scripts one after the other in a shell. Each writes words that end with a NUL byte."""
    for number, code in enumerate(codes):
        (room / f"code.{number}").write_bytes(os.fsencode(code))
    # yash can't handle bytes that aren't text in its locale.
    taken = [case for case in cases if shell != ["yash"] or not re.search("[\ud800-\udfff]", "".join(case[1]))]
    (room / "cases").write_text("\n".join(["set -efu", "IFS=-_o2"] + [script for script, _ in taken]) + "\n")
    wrote, place = run(*shell, room / "cases", cwd=room, env=env)[0].split("\0"), 0
    for script, wanted in taken:
        got = wrote[place:place + len(wanted)]
        assert got == wanted, f"{script}: {got!r}, expected {wanted!r}"
        place += len(wanted)
