#!/usr/bin/env python3
"""Checks that erased Rust is its source without whole constructs, independently of `erase.py`.

usage: bindings/rust/same_tokens.py SOURCE FOLDER

FOLDER/X.rs has to have the tokens of SOURCE/X.rt in the same order, except for the renames below and for constructs
without meaning at run time: each begins with a pattern in `WHOLE`, and extends to the end given there. Lemmas, which
have no result and no parameter but `&`, their calls and imports are left out. Comments, white space and a comma before a
closing bracket are ignored. This script doesn't look for code that Rattle and Rust interpret
differently: `erase.py` rejects it.
"""

import re
import sys
from pathlib import Path

# Patterns of how a construct begins, each with what ends it: the closing of its brackets, or a sign outside brackets.
WHOLE = [(r"(requires|ensures)( \*)?( \w+)? {", "}"), (r"ghost", ";,"), (r"impl (< .*? > )?(Model|Drop) for .*? {", "}")]
WHOLE += [(r"# (! )?\[ (tactic|derive \( Drop \) \])", "]"), (r"use std :: marker :: Model", ";")]
WHOLE += [(r"(mod laws|pub use laws)", ";"), (r"[+:,] Drop(?= [>,)])", "")]
CALLS = "push push_str sort_by clone extend_from_slice".split()
RENAMED = {word: "try_" + word for word in CALLS}
RENAMED |= {"reserve": "try_grow", "with_capacity": "of_capacity", "shrink_to_fit": "try_shrink"}
RENAMED |= {"String :: new": "String :: empty", "Vec :: new": "Vec :: empty", "String :: from_str": "String :: copy_of"}
RENAMED |= {f"vec ! [ in alloc ; 0 ; {count} ]": f"Vec :: filled ( alloc , 0 , {count} )" for count in ("room", "groups")}
RENAMED |= {"impl Clone for": "impl TryClone for"}
RENAMED |= {"fmt < W : fmt :: Write >": "fmt", "fmt :: Formatter < W >": "fmt :: Formatter < '_ >"}
PATHS = {f"mod {name}": f"pub ( crate ) mod {name}" for name in ("matches", "scan", "table")}
PATHS |= {"crate ::": "super ::", "std :: alloc": "crate :: alloc"}
PATHS |= {"unicode_width": "crate :: width", "pub fn add_group": "pub ( crate ) fn add_valid_group"}
PATHS |= {"std :: convert": "crate :: convert", "std :: error": "crate :: error", "std :: vec": "crate :: heap :: vec"}
PATHS |= {"std ::": "core ::", "str :: from_utf8": "core :: str :: from_utf8"}
# In crates that aren't part of the library.
HOST = {"resize": "try_resize", "trim_ascii": "trimmed_ascii", "str :: from_utf8": "std :: str :: from_utf8"}
HOST |= {"format !": "text !", "write !": "add !", "writeln !": "add_line !", "fn main": "pub fn main"}
HOST |= {f"std :: {name}": f"crate :: host :: {name}" for name in ("alloc", "env", "io")} | {"crate ::": "super ::"}
HOST |= {"getopts ::": ":: getopts :: proved ::", "getopts_bytes ::": ":: getopts :: bytes ::"}
TOKEN = r"""//.*|b?r"[^"]*"|b?r#"[\s\S]*?"#|b?"(?:\\[\s\S]|[^"\\])*"|b?'(?:\\.[^']*|[^\\'])'|'\w+|\w+|::|\S"""


LEMMA = r"(?:pub (?:\( crate \) )?)?fn (\w+) (?:< [^()]*? > )?\( (?:\w+ : & (?!mut )[^:()]*)*\) (?=requires|ensures|{)"


def tokens(path):
    text = path.read_bytes().decode("utf-8")
    if "\r" in text:
        sys.exit(f"{path}: contains a carriage return, at which not every program ends a comment")
    return [word for word in re.findall(TOKEN, text) if word[:2] != "//"]


def lemmas_in(source):
    """The names of lemmas in a crate and in those that it may use."""
    paths = Path(source).resolve().parents[1].glob("*/src/*.rt")
    return "|".join({name for path in paths for name in re.findall(LEMMA, " ".join(tokens(path)))}) or "-"


def without_lemmas(source, lemmas):
    """The tokens of a source without lemmas."""
    text = " ".join(word.replace(" ", "\0") for word in source)
    while found := re.search(LEMMA, text):
        at, ahead = 0, text[found.end() :].split(" ")
        while ahead[at] != "{":
            at = end_of(ahead, at, "}")
        text = " ".join([text[: found.start()], *ahead[end_of(ahead, at, "}") :]])
    text = re.sub(rf"(?<=[{{}};] )({lemmas}) \( [\w.&, ]*\) ;", "", text)

    def used(item):
        item = re.sub(rf"(?<=[{{,:] )({lemmas}) ,? ?(?=[\w}};])", "", item[0])
        item = re.sub(r"{ (\w+ )?(, )?} ", r"\1", item)
        return "" if item.endswith(":: ;") else item

    text = re.sub(r"\b(pub )?use [^;]*;", used, text)
    return [word.replace("\0", " ") for word in text.split(" ") if word]


def end_of(source, at, end):
    """The index after a construct that begins at an index and has this end."""
    depth = 0
    for place in range(at, len(source)):
        depth += (source[place] in "({[") - (source[place] in ")}]")
        if depth == 0 and source[place] in end:
            return place + 1
    return len(source)


def differs(source, rust, names, imports):
    """The index in the source at which the two begin to differ, if they do."""
    at, to = 0, 0
    if rust[: len(imports)] == imports:
        to = len(imports)
    while at < len(source):
        ahead = " ".join(source[at : at + 40])
        for old, new in sorted(names.items(), key=lambda names: -len(names[0])):
            if (ahead + " ").startswith(old + " ") and rust[to : to + len(new.split())] == new.split():
                at, to = at + len(old.split()), to + len(new.split())
                break
        else:
            whole = next((whole for whole in WHOLE if re.match(whole[0] + r"(?!\w)", ahead)), None)
            if to < len(rust) and source[at] == rust[to] and not (whole and source[at] not in "+:,"):
                at, to = at + 1, to + 1
            elif whole:
                at = end_of(source, at, whole[1]) if whole[1] else at + 2
            elif rust[to : to + 1] == [","] and rust[to + 1] in ")]}":
                to += 1
            elif source[at] == "," and source[at + 1] in ")]}":
                at += 1
            else:
                return at
    return None if to == len(rust) else at


def main(source, folder):
    library = Path(source).resolve().parent.name in ("getopts", "getopts_bytes")
    names = {**RENAMED, **(PATHS if library else HOST)}
    # The calls that add an option panic at their caller.
    options = Path(source) / "options.rt"
    adding = r"pub fn \w+(?= \( [^()]* \) - > Result < & mut Options , AllocError >)"
    for found in re.findall(adding, " ".join(tokens(options))) if options.exists() else []:
        names[found] = "# [ track_caller ] " + found
    lemmas = lemmas_in(source)
    imports = f"use crate :: {'fallible' if library else 'host'} :: * ;".split()
    there = {str(path.relative_to(folder)) for path in Path(folder).rglob("*") if path.is_file()} - {"README.md"}
    files = {f"{path.stem}.rs" for path in Path(source).glob("*.rt")} - {"lib.rs", "main.rs", "laws.rs"} | {"mod.rs"}
    for file in sorted(there ^ files):
        print(f"{folder}/{file}: is missing, or has no source")
    wrong = len(there ^ files)
    for path in sorted(map(Path(folder).joinpath, there & files)):
        of = path.with_suffix(".rt").name if path.stem != "mod" else "main.rt"
        of = Path(source) / of if (Path(source) / of).exists() else Path(source) / "lib.rt"
        tokens_there = without_lemmas(tokens(of), lemmas)
        at = differs(tokens_there, tokens(path), names, imports)
        if at is not None:
            wrong += 1
            print(f"{path}: differs from its source at '{' '.join(tokens_there[at : at + 8])}'")
    return 1 if wrong else 0


if __name__ == "__main__":
    if len(sys.argv) == 3:
        sys.exit(main(*sys.argv[1:]))
    if sys.argv[1:] in (["--help"], ["-h"]):
        sys.exit(print(__doc__.strip()))
    print(__doc__.strip(), file=sys.stderr)
    sys.exit(2)
