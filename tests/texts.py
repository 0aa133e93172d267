"""Random texts of the characters in characters.txt, and texts that are almost the same."""

from pathlib import Path

SHORT_NAMES = "abcvabcotL-= 1?h"
LONG_NAMES = ["apple", "banana", "verbose", "ab", "abc", "no", "aa", "apple", "ab", "color", "é", "日", "日本", "naïve", "a=b",
              "=x", "x=", "--", "-a", "-apple", "two words", "\u0301", "ab-c", "hi", "e\u0301a",
              "a-very-long-name-of-an-option", "help", "version"]
VALUES = ["", "-", "--", "x", "y", "1", "7", "-3", "+5", "-a", "-b", "--ab", "-ab", "--apple", "=", "a=b", "=5", "true", "false",
          "free word", "é", "日本", "a\tb", "line\nend", "back\\slash", "\r", "-1", "---", str(2**63 - 1), str(2**63), str(-2**63),
          "abc", '"a b"']
# Texts that Rust reads as a number, a boolean or a character, or almost.
PARSED = ["0", "1", "7", "-12", "007", "-0", "+7", "--7", "1_000", "0x7", "7.0", "1e3", "-", str(2**31 - 1), str(2**31),
          str(-2**31), str(-2**31 - 1), "true", "false", "yes", "é"]
WORDS = ["a", "an", "the", "of", "with", "set", "file", "name", "output", "option", "argument", "whenever", "directory",
         "description", "characteristics", "日本語", "テスト", "naïve", "e\u0301te\u0301", "“quoted”", "0.51€", "ＡＢＣ", "한국어",
         "русский", "ελληνικά", "\u0301", "x,", "(y)", "misunderstandings;", "well-known", "pre-", "and..",
         "HereWeNeedOneSingleWordThatIsLongerThanTheWrappingLengthAndThisIsIt"]
SPACES = [" "] * 8 + ["  ", "\t", "\n", "\n\n", " \n ", "\u3000", "\u00a0", "\r\n"]
HINTS = ["", "", "VAL", "FILE", "N", "NAME", "日本", "[X]", "a b", "TYPE,TYPE", "é", "a-long-hint-for-an-argument", "=", "VAL"]


def members(part):
    """A character, or those of a range of code points."""
    if len(part) == 1:
        return [part]
    first, _, last = part.partition("-")
    return [chr(code) for code in range(int(first, 16), int(last or first, 16) + 1)]


# The characters of each class, and those of each number of columns. NUL is left out: no argument contains it.
CLASSES, OF_WIDTH = {}, {}
for line in Path(__file__).with_name("characters.txt").read_text(encoding="utf-8").splitlines():
    name, columns, *parts = line.split()
    if name != "#":
        CLASSES[name] = [char for part in parts for char in members(part) if char != "\0"]
        OF_WIDTH.setdefault(columns, []).append(CLASSES[name])


def character(rng):
    """A random character of a random class."""
    return rng.choice(rng.choice([*CLASSES.values()]))


def is_measured(text):
    """Whether all versions of Unicode's tables agree on the columns of a text."""
    return all(char == " " or any(char in chars for columns in "012" for chars in OF_WIDTH[columns]) for char in text)


def near(rng, text):
    """A text that is almost the same."""
    at = rng.choice([0, max(0, len(text) - 1), rng.randrange(len(text) + 1)])
    head, one, tail, char = text[:at], text[at:at + 1], text[at + 1:], character(rng)
    key = (text + "a" * 14)[:rng.choice([3, 4, 7, 14])]  # what the library looks names up by
    return rng.choice([head + one.swapcase() + tail, text.swapcase(), head + ("_" if one == "-" else "-") + tail,
                       head + one.translate({ord(one or "a"): ord(one or "a") ^ 1 or 2}) + tail, f"{head} {one}{tail}",
                       head + char + one + tail, text + char, char + text + char, head, one + tail, key + char])


def one_of(rng, texts):
    """One of these texts or, less often, a text that is almost the same."""
    return near(rng, rng.choice(texts)) if rng.randrange(5) == 0 else rng.choice(texts)


def noise(rng):
    """A few characters, many of which occur in lines."""
    return "".join(rng.choice("--=abcv é1Lh\0") if rng.randrange(3) else character(rng) for _ in range(rng.randrange(6)))


def short_name(rng):
    return rng.choice(SHORT_NAMES) if rng.randrange(3) else rng.choice([*filter(str.isascii, map(chr, range(128)))])


def long_name(rng):
    name = one_of(rng, LONG_NAMES) if rng.randrange(8) else noise(rng)
    return name if len(name.encode()) > 1 else long_name(rng)


def similar_name(rng):
    """One of many names that share their first bytes. Bytes up to 8 could be taken for a length."""
    letters = [rng.choice("aa\0é")] * rng.randrange(2, 20)
    for _ in range(rng.randrange(3)):
        letters[rng.randrange(len(letters))] = rng.choice([rng.choice("abÿ\U0010ffff"), chr(rng.randrange(9)), character(rng)])
    return "".join(letters)


def value(rng):
    make = rng.choice([noise, parsed, character] + [lambda rng: one_of(rng, VALUES)] * 9)
    return make(rng)


def parsed(rng):
    text = one_of(rng, PARSED)
    return rng.choice([text] * 6 + [space(rng) + text, text + space(rng)])


def space(rng):
    return rng.choice(SPACES) if rng.randrange(4) else rng.choice(CLASSES["spaces"] + CLASSES["line_ends"])


def of_columns(rng, columns):
    """A text of this many columns: one character, repeated."""
    pick = lambda width: rng.choice(rng.choice(OF_WIDTH[width]))
    kind = rng.randrange(4)
    return pick("2") * (columns // 2) if kind == 0 and columns % 2 == 0 else (pick("1") + pick("0") * (kind == 1)) * columns


def description(rng):
    """A description: several words, or words that almost or exactly fill a row of 54 columns. Others are so short that they
    fit, whatever columns their characters take."""
    kind = rng.randrange(8)
    if kind == 0:
        return "".join(character(rng) for _ in range(rng.randrange(12)))
    if kind in (2, 3):
        return " ".join(near_a_row(rng) for _ in range(rng.randrange(1, 4)))
    text = rng.choice(WORDS)
    for _ in range(rng.randrange(24) if kind > 1 else 0):
        text += space(rng) + (rng.choice(WORDS) if rng.randrange(8) else of_columns(rng, rng.randrange(1, 9)))
    return space(rng) + text + space(rng) if kind == 4 else text


def near_a_row(rng):
    """Words about 54 columns wide with their spaces."""
    words, left = [], rng.randrange(52, 57)
    while left > 0:
        columns = min(rng.randrange(1, 15), left)
        words.append(of_columns(rng, columns))
        left -= columns + 1
    return " ".join(words)
