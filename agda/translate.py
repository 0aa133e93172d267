"""Translates the clauses of the lemmas in laws.rt of crates/getopts, and the definitions that these
and the proofs need, to Agda.

usage: translate.py CRATE OUT [STD]     the folders of the crate, the output, and Rattle's libraries

Std.agda stands for Rattle's std. With STD, this also translates std's definitions, to OUT/Rattle.agda.

Only syntax and names change, token by token: `_` in a name becomes `-`, since Agda reads `_` as a
place for an argument. Of each record, the constructor is `mk`, and projections begin with `$`.
Each is in a module of its own, because compiled code needs different names for constructors.
Of Rust's types, only enums are translated; this stops if a lemma needs another one.
"""
import re
import sys
from collections import namedtuple
from pathlib import Path

if sys.argv[1:] in (["--help"], ["-h"]):
    sys.exit(print(__doc__.strip()))
if len(sys.argv) not in (3, 4) or sys.argv[1].startswith("-"):
    print(__doc__.strip(), file=sys.stderr)
    sys.exit(2)
HERE = Path(__file__).parent
CRATE, OUT, *STD = (Path(argument) for argument in sys.argv[1:])

# The parameters of the lemmas of laws.rt: here, and with what a proof assumes of them.
PARAMETERS = {
    "()": ("", ""),
    "(options: &Options)":
    ("(options : Declared)", "(options : Declared) → MayBeDeclared options.groups → "),
    "(matches: &Matches)":
    ("(matches : Matched)", "(options : Declared) (matches : Matched) → "
     "MayBeDeclared options.groups → AreGroupsOf options matches.groups → "),
}
# The definitions of Rattle's std that are used, and those that these use, by file.
OF_STD = {
    "antt/port/mathlib/src/Core/Bool.antt": "cond not ◌&&◌ ◌||◌",
    "antt/port/mathlib/src/Core/Logic.antt": "◌≢◌ ◌↔◌",
    "antt/port/mathlib/src/Core/List/Defs.antt": "◌++◌ map",
    "logic/Lib/ListN.antt": "length get_or take drop",
    "logic/Lib/Pointwise.antt": "pointwise",
    "logic/Lib/Utf8.antt": "scalar scalars next encode encodes",
    "core/specs/Bool.antt": "if◌then◌else◌ ◌==◌",
    "core/specs/Option.antt": "is_some unwrap_or option_or option_map option_and_then "
    "option_map_or MatchOption IfSome",
    "core/specs/Result.antt": "MatchResult",
    "core/specs/List.antt": "slice_get filter list_any list_all find cons_option filter_map zip "
    "last_or AllByRecursion prefix_len position_or_len Any position Contains All AllZip fold "
    "sum_by flat_map repeat join_by join_with_byte onto_first slice_split",
    "core/specs/List/Sorted.antt": "IsNonDecreasingBy",
    "core/specs/Str.antt": "IsUtf8 bytes_eq continuation_len lead_bits chars_after chars",
    "core/specs/Char.antt": "IsScalar is_whitespace",
}
# Other names for these in std's files, by `use .. as`.
ALIASES = {"nat_eq": "eqb", "nat_lt": "ltb", "nat_le": "leb", "slice_index_or": "get_or",
           "encode_utf8": "encode", "encode_utf8_all": "encodes"}
TOKEN = re.compile(r'--.*|"(?:\\.|[^"\\])*"|\s+|[(){};,]|\.(?=\s|$)|\.?[^\s(){};,."]+')
HEAD = re.compile(r"( *)(?:pub record|pub data|abbrev pub|unfoldable pub|pub|abbrev) (\S+)")
OUTSIDE = re.compile(r"(pub |ghost |unfoldable )*use |(pub )?mod |module |--|$")
USE = re.compile(r"(?:pub |ghost |unfoldable )*use (\S+?)(?:\.\{(.*)\}| as (\w+));?$")
Definition = namedtuple("Definition", "module path line text cites lacks")
CLAUSE = re.compile(r"ensures (\w+) \{(.*?)\}$", re.S | re.M)


def stop(path, line, why):
    sys.exit(f"translate.py: {path}:{line}: {why}")


def renamed(name):
    name = ALIASES.get(name, name)
    return name if name == "_" else name.replace("_", "-").replace("◌", "_")


def opening(parts):
    """Where the last of these parts begins, which may be in parentheses."""
    at = max(at for at, part in enumerate(parts) if part.strip())
    depth = parts[at] == ")"
    while depth:
        at -= 1
        depth += (parts[at] == ")") - (parts[at] == "(")
    return at


def term(text, path, line, own=()):
    """A definition in Agda, in which these are fields of the record around it."""
    text = re.sub(r" \{ℓ[^:}]*\}|(?<=Unit) \{0\}", "", re.sub(r"Type \(.*?\)", "Type 0", text))
    tokens = TOKEN.findall(text)
    odd = [it for it in tokens if re.match(r"(\||↦|elim)$|[][«@_]", it) and it not in ("[]", "_")]
    if "".join(tokens) != text or odd:
        stop(path, line, f"can't read {odd[0] if odd else text}")
    words = [it for it in tokens if it.strip()][1:] + [""]
    parts, last, in_sum = [], "", False
    for token in tokens:
        if not token.strip():
            parts.append(token)
            continue
        after = words.pop(0)
        begin = opening(parts + [token])
        bound = re.match(r"([^():]+) : (.*)", "".join(parts[begin + 1:]), re.S)
        if token == ")" and after == "×" and bound:
            # `(x y : A) × B` becomes `Σ[ x ∈ A ] Σ[ y ∈ A ] B`.
            parts[begin:] = [" ".join(f"Σ[ {it} ∈ {bound[2]} ]" for it in bound[1].split())]
            in_sum = True
        elif token == "×" and in_sum:
            in_sum = False
        elif token[0] == "." and len(token) > 1:
            begin = opening(parts)
            name = {".0": "proj₁", ".1": "proj₂"}.get(token) or "$" + renamed(token[1:])
            parts[begin:] = [f"({''.join(parts[begin:])} .{name})"]
        elif token in own or last in ("{", ";") and after == "=":
            parts.append("f-" + renamed(token))
        elif (token, after) not in ((",", ")"), (";", "}")) and last != "Type":
            kept = token if token.startswith(("--", '"')) else renamed(token)
            parts.append({".": " →", ",": " ,", "Type": "Set", "Unit": "⊤"}.get(token, kept))
        last = token
    return re.sub(r"\n(?=[)}])", "\n  ", "".join(parts))


def definition(text, path, line):
    """A definition in Agda; of a record, with its projections."""
    if not text.startswith("pub record"):
        return term(re.sub(r"^(pub (?=data)|(abbrev |unfoldable )?(pub )?)", "", text), path, line)
    head, _, fields = text.partition(" where\n")
    name, own = head.split()[2], re.findall(r"^  pub (\S+) :", fields, re.M)
    if fields.count("pub ") != len(own):
        stop(path, line, f"can't read the fields of {name}")
    fields = re.sub("^  (?:pub )?", "      ", fields, flags=re.M)
    renames = "; ".join(f"f-{it} to ${it}" for it in map(renamed, own))
    head = term(head[4:], path, line).replace("\n", "\n  ")
    return (f"module of-{name} where\n  {head} where\n    constructor mk\n    field\n"
            f"{term(fields, path, line, own)}\nopen of-{name} public\n"
            f"open {name} public renaming ({renames})")


def blocks(path, strict=True):
    """The name, line and text of each definition in a file. Parameters of a module around it become
    its own. In a strict file, each other line must be of a known kind."""
    name, start, block, indent, binders = "", 0, [], "", ""
    for line, text in enumerate(path.read_text(encoding="utf-8").split("\n") + [""], 1):
        head = (not strict or text[:1] != " ") and HEAD.match(text)
        outside = OUTSIDE.match(text) or not strict and re.match(" *infix", text)
        if block and (head or outside):
            yield name, start, "\n".join(block)
            block = []
        if module := re.match(r"module _ (.*) where$", text):
            binders = "".join(re.findall(r"\{\w+ : Type \w+\}", module[1])) + " → "
        if outside or text.strip().startswith("unfolding "):
            continue
        if head:
            start, indent, name = line, head[1], head[2]
            block = [text[len(indent):].replace(" : ", f" : {binders}" if indent else " : ", 1)]
        elif block and (not strict or text.startswith((" ", f"{name} ", "}", ")"))):
            block.append(text.removeprefix(indent))
        elif strict:
            stop(path, line, f"can't read {text}")


def write(module, lines, wide=False):
    width = " (str-width : Base.Bool → Base.List Base.ℕ → Base.ℕ)" if wide else ""
    lines = ["{-# OPTIONS --safe --without-K #-}", *["import Base"] * wide,
             f"module {module}{width} where", *lines, ""]
    (OUT / f"{module}.agda").write_text("\n".join(lines), encoding="utf-8")


def write_std(std):
    lines = ["open import Base"]
    for file, names in OF_STD.items():
        path, names = std / file, names.split()
        if not path.exists():
            stop(path, 1, "the toolchain has no such file")
        found = {name: (text, path, line) for name, line, text in [*blocks(path, False)][::-1]}
        for kind, operators in re.findall(r"^ *(infix[lr]? \d+) (.*)", path.read_text(), re.M):
            own = [renamed(name) for name in operators.split() if name in names]
            lines += [" ".join([kind, *own])] * bool(own)
        for name in names:
            lines.append(definition(*found[name]) if name in found else
                         stop(path, 1, f"the toolchain's file has no definition of {name}"))
    write("Rattle", lines)
    path = HERE / "SameStd.agda"
    proved = re.findall(r"[≡↔] R\.(\S+)", path.read_text(encoding="utf-8"))
    if lacks := {*HAS_STD} - {*proved}:
        stop(path, 1, f"nothing is proved of {min(lacks)}")


def enums():
    """The enums of Rust, by name, if no variant contains more than the enum's parameter."""
    found, enum = {}, re.compile(r"^pub enum (\w+)(?:<(\w+)>)? \{\n(.*?)\n\}", re.M | re.S)
    for path in sorted((CRATE / "src").rglob("*.rt")):
        for name, of, body in enum.findall(path.read_text(encoding="utf-8")):
            variants = re.findall(rf"^    (\w+)(\({of}\))?,$", body, re.M)
            if len(variants) == len(re.findall("^ +(?!//| )", body, re.M)):
                found[name] = "\n".join([f"data {name} {f'({of} : Set) ' * bool(of)}: Set where", *(
                    f"  {it} : {f'{of} → ' * bool(holds)}{name} {of}" for it, holds in variants)])
    return found


def words(text):
    return {*re.findall(r"[^\s(){};,.]+", text)}


def define(path, blocks):
    """Notes to which of these definitions each name belongs, as variants of data do."""
    for name, line, text in blocks:
        for it in (name, *re.findall(r"^  (\S+) :", text, re.M) * text.startswith("pub data")):
            if it in HOME:
                stop(path, line, f"{it} is defined twice")
            HOME[it] = name


def read(module, path, blocks, *more):
    """Notes definitions of a module, which cite what the file imports, and these other names."""
    own = {name for name, _, _ in blocks}
    scope, unknown = {*more, *(it for it, name in HOME.items() if name in own)}, set()
    for line, text in enumerate(path.read_text(encoding="utf-8").split("\n"), 1):
        if not re.match(r"(pub |ghost |unfoldable )*use (?!crate)", text):
            continue
        found = USE.match(text) or stop(path, line, f"can't read {text}")
        _, library, _, *there = found[1].split(".")
        imported = {*re.split(", ?", found[2] or found[3])}
        if library == "getopts" and there[0] == "declared" and ENUMS.keys() & {*there}:
            variant = rf"\b{found[3]}\.([A-Z]\w*)"
            blocks = [(*it[:2], re.sub(variant, r"\1", it[2])) for it in blocks]
            continue
        known = KNOWN if library in ("std", "unicode_width") else set()
        if "-".join(there) in FILES and library == "getopts":
            known = imported & HOME.keys()
            scope |= known
        unknown |= imported - known
    for name, line, text in blocks:
        DEFINITIONS[name] = Definition(module, path, line, text, words(text) & scope,
                                       words(text) & unknown)


def needed(*names):
    """These definitions, and those on which they depend."""
    found, new = set(), {*names}
    while new:
        found |= new
        new = {HOME[word] for it in new for word in DEFINITIONS[it].cites} - found
    return found


def opened(module, how):
    return f"open import {module} {'str-width ' * DONE[module][0]}{how}"


def module(name):
    """Writes the needed definitions of a module, once, after the modules that it imports."""
    if name in DONE:
        return
    kept = [it for key, it in DEFINITIONS.items() if it.module == name and key in NEEDED]
    imported, fields, wide = {}, {}, any("str_width" in words(it.text) for it in kept)
    for word in sorted(set().union(*(it.cites for it in kept))):
        imported.setdefault(DEFINITIONS[HOME[word]].module, []).append(renamed(word))
    for it in sorted(imported.keys() - {name}):
        module(it)
        wide, fields = wide or DONE[it][0], fields | DONE[it][1]
    lines = ["open import Std", "open import Enums"]
    for it in sorted(fields):
        lines.append(opened(it, f"using ({'; '.join(imported.get(it, []) + fields[it])})"))
    for it in kept:
        lines.append(f"\n-- {it.path}:{it.line}\n{definition(it.text, it.path, it.line)}")
    write(name, lines, wide)
    records = "\n".join(it.text for it in kept if it.text.startswith("pub record"))
    own = re.findall(r"^  pub (\S+) :", records, re.M)
    DONE[name] = wide, {**fields, name: [f"${renamed(it)}" for it in dict.fromkeys(own)]}


def statement():
    """Notes the clauses of each lemma of laws.rt as a record, and one record of all lemmas."""
    path, kept, laws, count = CRATE / "src/laws.rt", [], [], 0
    text = re.sub("//.*", "", path.read_text(encoding="utf-8"))
    lemmas = [*re.finditer(r"\bfn (\w+)(.*)\n((?s:.*?))^\{", text, re.M)]
    # A lemma in a block comment, or behind `cfg`, isn't one of the crate's.
    if len(lemmas) != len(re.findall(r"\bfn\b", text)) or re.search(r"/\*|\bcfg\b", text):
        stop(path, 1, "can't read each lemma")
    for found in lemmas:
        line, clauses = text[:found.start()].count("\n") + 1, CLAUSE.findall(found[3])
        if found[2] not in PARAMETERS or CLAUSE.sub("", found[3]).strip():
            stop(path, line, f"can't read {found[1]}: only parameters of PARAMETERS and `ensures`")
        fields = [f"  pub {clause} : {' '.join(says.split())}" for clause, says in clauses]
        name, (own, given) = found[1].title().replace("_", ""), PARAMETERS[found[2]]
        record = "\n".join([f"pub record {name} {own} : Type 0 where", *fields])
        kept.append((name, line, re.sub(r"\b(\w+)\.now", r"\1", record)))
        laws.append(f"  pub {found[1]} : {given}{name} {own[1:].partition(' ')[0]}")
        count += len(clauses)
    kept.append(("Laws", 1, "\n".join(["pub record Laws : Type 0 where", *laws])))
    define(path, kept)
    read("Statement", path, kept, *words(str(PARAMETERS)) & HOME.keys())
    for it in map(DEFINITIONS.get, sorted(needed("Laws"))):
        if it.lacks:
            stop(it.path, it.line, f"a lemma needs this, but {min(it.lacks)} isn't translated")
    return (f"{count} clauses of {len(laws)} lemmas, which depend on "
            f"{len(needed('Laws')) - len(kept)} of {len(DEFINITIONS) - len(kept)} definitions")


OUT.mkdir(exist_ok=True)
ENUMS = enums()
BASE, OWN = ((HERE / f"{it}.agda").read_text(encoding="utf-8") for it in ("Base", "Std"))
HAS_STD = " ".join(re.findall(r"^((?! )(?:(?! = )[^(\n])+) : ", OWN, re.M)).split()
KNOWN = {*re.findall(r"[^\s(){};]+", BASE.replace("_", "◌")), *ALIASES, "str_width",
         *(it.replace("_", "◌").replace("-", "_") for it in HAS_STD)}
# The definitions in each file, and the one that a name belongs to.
FILES, HOME = {}, {}
for path in sorted((CRATE / "specs").rglob("*.antt")):
    found = [*blocks(path)]
    FILES["-".join(path.relative_to(CRATE / "specs").with_suffix("").parts)] = path, found
    define(path, found)
# Definitions by name. For each module that was written: whether it has the parameter `str-width`,
# and the projections in it and in those that it imports.
DEFINITIONS, DONE = {}, {}
for name, (path, found) in FILES.items():
    read(name, path, found)
for std in STD:
    write_std(std)
what = statement()
# What the lemmas need, and the other definitions that proofs and Run.agda mention, unless the name is
# their own.
NEEDED, proofs = needed("Laws"), sorted(HERE.glob("[0-9]*.agda"))
text = "".join(it.read_text(encoding="utf-8") for it in [*proofs, HERE / "Run.agda"])
mentioned = words(text) - {*re.findall(r"^ *(\S+) : ", text, re.M)}
for it in HOME:
    if renamed(it) in mentioned and not any(DEFINITIONS[own].lacks for own in needed(HOME[it])):
        NEEDED |= needed(HOME[it])
for it in sorted(NEEDED):
    module(DEFINITIONS[it].module)
write("Enums", ["open import Base", *ENUMS.values()])
parts = [it for it in DONE if it != "Statement"]
write("Definitions", ["open import Std public", "open import Enums public",
                      *(opened(it, "public") for it in parts if not DONE[it][0])])
write("Columns", [opened(it, "public") for it in parts if DONE[it][0]], True)
write("Proved", [*(f"import {it}" for it in ("Statement", *(it.stem for it in proofs))),
                 "proved : Statement.Laws str-width", "proved = 13-All.laws str-width"], True)
print(what)
