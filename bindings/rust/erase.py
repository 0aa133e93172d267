#!/usr/bin/env python3
"""Erases the contracts of a proved crate: what remains is the proved code, as Rust.

usage: bindings/rust/erase.py [--check]

Writes the Rust of each crate to its folder (see CRATES), and a README.md that says so. With --check, it writes nothing,
and the status is 1 if a folder is out of date. It needs `rustfmt` of Rust 1.85 or later.

It parses a crate's tokens by this grammar, and rejects everything else, naming file, line and token. What is marked
with * has no meaning at run time, and is deleted.

    file      item..
    item      attribute.. ( law* | use | mod NAME ; | struct | enum | impl ) | member
    law*      mod laws ; | pub use laws:: .. ; | use std::marker::Model ;
    struct    struct NAME generics { field.. }, with fields that may be ghost* NAME : { .. } ,
    impl      impl generics .. { member.. } | impl* .. Model for .. { member.. } | impl* Drop for .. { destructures it }
    member    attribute.. ( ghost* use .. ; | ghost* NAME = { .. } ; | const | type | function )
    function  pub fn NAME generics ( .. ) -> .. clause.. { body } | lemma*
    lemma     pub fn NAME generics ( NAME : & .. ) clause.. { body }
    clause*   requires NAME { .. } | ensures NAME { .. }, without comments; either word may end in a star
    generics  < .. >, with Drop* among the bounds
    attribute #[derive(..)], with Drop* as the last name | #[tactic(..)]* | those in ATTRIBUTES

A lemma returns nothing and changes nothing. Statements `NAME(..);` that call it are deleted, too, and its name in
imports. A module of laws has no impl. It is left out, so rustc rejects code that uses anything else from it.

In function bodies it knows no types, so it rejects calls and names that aren't listed. KNOWN_CALLS, KNOWN_TYPE_CALLS and
IMPORTS list those of Rust, and each is trusted to do in Rust what its contract in Rattle says. It also rejects code that
means something else in Rust than in Rattle. Rattle's guides list such code, and `tests/eraser` has an example of each:

    a range without an end, which in Rust goes past the last number; `S { a, ..v[1] }`, for which Rust evaluates `v[1]`;
    sizes of types; casts to `usize`, which lose bits on 32 bits; sorting by no order; fields whose names would change,
    since `{:?}` prints them; types, imports and paths that mean something else; a `drop` with side effects; traits and
    impl bounds that could change method resolution; comments and texts that could end a contract in one language only

It accepts any call of a name that is defined here. If the call means a function of Rust that allocates, rustc rejects
it: erased source has to compile over `core` and the types in `tests/eraser/types`, which have no such functions, nor
`capacity`, which gives another number. Rustc also rejects items that are clones, `write!` to a text, which can fail in
Rattle, and `crate::` in `lib.rt`, whose replacement is another module.

The other differences that Rattle's guides list can't occur here. Errors of `anyhow`, threads, channels, `once`, `empty`
and bounds by `Index` need an import. `stringify!` isn't among the known calls, nor `try_from` among the names. No
`drop` has side effects, so it doesn't matter when temporaries and parts of a pattern are dropped (the packages use
edition 2021, Rattle follows 2024), nor whether a pattern of `self` drops it. Code that overflows only on 32 bits, or
has another value there, such as `usize::MAX`, is tested, not proved.

It renames by the tables below, and rejects sources that contain one of the new names. `same_tokens.py` checks the result,
and shares neither code nor tables with this script.
"""

import functools
import re
import shutil
import subprocess
import sys
from pathlib import Path
from types import SimpleNamespace

TOP = Path(__file__).resolve().parents[2]
LAYOUT = "style_edition=2024,reorder_imports=false,use_small_heuristics=Default"
RUSTFMT = ["rustfmt", "--edition", "2021", "--config", LAYOUT]

# Rattle's functions that allocate, and the functions of `fallible.rs` that replace them.
CALLS = {name: f"try_{name}" for name in "push push_str sort_by extend_from_slice clone".split()} | {
    "reserve": "try_grow", "with_capacity": "of_capacity", "shrink_to_fit": "try_shrink",
    "String::new": "String::empty", "String::from_str": "String::copy_of", "Vec::new": "Vec::empty",
    "vec![in alloc; 0; room]": "Vec::filled(alloc, 0, room)", "vec![in alloc; 0; groups]": "Vec::filled(alloc, 0, groups)",
    "impl Clone for": "impl TryClone for",
}
# In Rattle, the writer of `Display` is a type parameter.
DISPLAY = {"fmt<W: fmt::Write>": "fmt", "fmt::Formatter<W>": "fmt::Formatter<'_>"}
# Paths in the library, and their replacements in Rust.
LIBRARY = {f"std::{name}": f"crate::{name}" for name in ("alloc", "convert", "error")} | {
    "std::": "core::", "std::vec": "crate::heap::vec", "str::from_utf8": "core::str::from_utf8",
    "crate::": "super::", "unicode_width": "crate::width", "mod matches;": "pub(crate) mod matches;",
    "mod scan;": "pub(crate) mod scan;",
    # `names.rs` has a function of the old name, which checks the precondition.
    "pub fn add_group": "pub(crate) fn add_valid_group",
}
# An invalid name panics at the caller of the calls that add an option.
ADDING = r"pub fn \w+(?=\([^()]*\) -> Result<&mut Options, AllocError>)"
for path in TOP.glob("crates/getopts/src/options.rt"):
    LIBRARY |= {found: f"#[track_caller] {found}" for found in re.findall(ADDING, path.read_text(encoding="utf-8"))}
# Functions and paths in the shell program, and their replacements, which its `host.rs` defines.
HOST = {f"std::{name}": f"crate::host::{name}" for name in ("alloc", "env", "io")} | {
    "resize": "try_resize", "trim_ascii": "trimmed_ascii", "str::from_utf8": "std::str::from_utf8",
    "format!": "text!", "write!": "add!", "writeln!": "add_line!", "fn main": "pub fn main",
    "crate::": "super::", "getopts::": "::getopts::proved::", "getopts_bytes::": "::getopts::bytes::",
}
# For each crate: the folder for its Rust, the module that defines the replacements, and further names to replace.
CRATES = {
    "getopts": ("bindings/rust/src/proved", "fallible", LIBRARY),
    "getopts_bytes": ("bindings/rust/src/bytes", "fallible", LIBRARY),
    "getopts_shell": ("bindings/shell/src/program", "host", HOST),
}
# Words that may not occur in a signature, body or type.
FORBIDDEN_WORDS = set("""requires ensures ghost tactic Model Drop mod use fn impl trait struct enum union static extern
    unsafe macro_rules async await dyn where crate size_of size_of_val align_of align_of_val""".split())
ATTRIBUTES = {"inline", "cold", "must_use", "derive", "tactic"}
DERIVED = {"Clone", "Copy", "Debug", "PartialEq", "Eq"}
# What paths that are imported from Rust, or from its replacements, begin with.
IMPORTS = tuple("""std::alloc:: std::cmp::Ordering:: std::convert::AsStr:: std::env:: std::error::Error:: std::fmt::
    std::io:: std::process::ExitCode:: std::str::FromStr:: std::vec::""".split())
# Functions, methods and macros of Rust, or their replacements.
KNOWN_CALLS = set("""all alloc allocator and any arg as_bytes as_slice as_str binary_search_by binary_search_by_key
    chars clone cmp contains count dedup_by encode_utf8 ends_with enumerate
    extend_from_slice first flush format get into_iter is_ascii is_ascii_alphanumeric is_ascii_digit is_empty is_eq is_lt
    is_none is_some iter iter_mut kind len len_utf8 map_or matches max min next parse position push push_reserved
    push_str reserve resize rsplit_once saturating_add saturating_mul saturating_sub shrink_to_fit size_hint
    sort_by split split_at split_at_mut split_first split_last split_once split_whitespace starts_with stderr strip_prefix strip_suffix
    then_some trim_ascii unreachable unwrap_or vec width wrapping_add write writeln Err FnMut Ok Some bytes""".split())
# Functions that are called by type, as in `u32::from(..)`.
KNOWN_TYPE_CALLS = set("""Error::from String::new String::from_str String::with_capacity Vec::new Vec::with_capacity
    ExitCode::from char::from_u32 io::writer str::from_utf8 u32::from u64::from_be_bytes""".split())

TOKEN = re.compile(
    r"""(?P<lead>(?:\s+|//[^\n]*)*)
    (?P<token>
        b?r(?P<hashes>\#*)"(?:.|\n)*?"(?P=hashes) | b?"(?:[^"\\]|\\(?:.|\n))*"
        | b?'(?:[^'\\\n]|\\[^\n][^'\n]*)' | '[A-Za-z_]\w*
        | [A-Za-z_]\w* | \d\w*(?:\.\d\w*)? | . | \Z)""",
    re.X,
)
BRACKETS = {"{": "}", "(": ")", "[": "]"}
# The comment lines directly above a token, and the white space before it.
ABOVE = re.compile(r"(\n *//(?!!)[^\n]*)*\n *\Z")
# An example in a comment. It is Rattle, which Rust's doctests couldn't compile, so it becomes text.
EXAMPLE = re.compile(r"^( *//[/!]) ```\n((?:\1(?!.*(?:```|~~~)).*\n)*)\1 ```$", re.M)
# What else cargo would run, or mistake for the limits of an example: fences, indented lines, and HTML.
RUN = re.compile(r"^\s*//[/!](?:.*(?:```|~~~)| *(?: {4}|\t|<))", re.M)
KEYWORDS = set("""as break const continue crate else enum fn for if impl in let loop match mod move mut pub ref
    return self struct super type use while""".split())
# The new names of the tables above, which sources may not contain.
NEW_NAMES = re.compile(r"try_\w+|of_capacity|copy_of|TryClone|trimmed_ascii|add_valid_group")
# Types that values may be cast to. `usize` and `isize` would lose bits on 32 bits; `_` and other names may mean these.
CASTS = {"char", "u8", "u16", "u32", "u64", "u128", "i8", "i16", "i32", "i64", "i128", "f32", "f64"}
# Types and modules that sources may not define: their casts, functions and paths would be taken for Rust's.
RUST_TYPES = CASTS | {"String", "Vec", "str", "std", "core", "alloc"}
# The only call that sorts: its closure is an order, as the contract of sorting requires.
SORTING = ".sort_by(|entry, other| entry.order(signatures, other))"


def stop(why):
    sys.exit(f"bindings/rust/erase.py: {why}")


def tokens_of(source):
    """The tokens of a source, each with the white space and comments before it, and an empty one at the end."""
    tokens, line = [], 1
    for match in TOKEN.finditer(source):
        line += match["lead"].count("\n")
        tokens.append(SimpleNamespace(text=match["token"], lead=match["lead"], line=line))
        line += match["token"].count("\n")
    return tokens


@functools.cache
def words(pattern):
    return [token.text for token in tokens_of(pattern)[:-1]]


class Eraser:
    """The tokens of one file, in which constructs are deleted and names replaced."""

    def __init__(self, path):
        self.file, self.tokens = path.relative_to(TOP), tokens_of(path.read_bytes().decode("utf-8"))
        self.at, self.lemmas = 0, set()

    def stop(self, at, why):
        token = self.tokens[min(at, len(self.tokens) - 1)]
        stop(f"{self.file}:{token.line}: '{token.text}': {why}")

    def text(self, at):
        return self.tokens[at].text if at < len(self.tokens) else ""

    def has(self, at, pattern):
        return [token.text for token in self.tokens[at : at + len(words(pattern))]] == words(pattern)

    def next(self, sign, at):
        """The index of the next token with this text, from an index on."""
        return next((place for place in range(at, len(self.tokens)) if self.text(place) == sign), at)

    def close(self, at):
        """The index after the bracket that closes the one at an index."""
        open_brackets = []
        for place in range(at, len(self.tokens)):
            text = self.text(place)
            if text in BRACKETS:
                open_brackets.append(BRACKETS[text])
            elif text in BRACKETS.values():
                if not open_brackets or text != open_brackets.pop():
                    self.stop(place, "unmatched bracket")
                if not open_brackets:
                    return place + 1
        self.stop(at, "unclosed bracket")

    def after(self, at):
        """The index after the next `;` outside brackets."""
        while self.text(at) != ";":
            if at >= len(self.tokens) or self.text(at) in BRACKETS.values():
                self.stop(at, "missing ';' before it")
            at = self.close(at) if self.text(at) in BRACKETS else at + 1
        return at + 1

    def delete(self, start, end):
        """Deletes tokens, but keeps the comments and white space before them, except for a line that becomes empty."""
        before, after = self.tokens[start].lead, self.tokens[end].lead
        if after.startswith("\n"):
            before = before.rstrip(" ").removesuffix("\n")
        self.tokens[end].lead = before + after
        del self.tokens[start:end]

    # ---- the grammar: each of these advances `at` past what it parses

    def take(self, pattern):
        """Advances past these tokens, if they are next, and returns whether they are."""
        there = self.has(self.at, pattern)
        self.at += len(words(pattern)) if there else 0
        return there

    def expect(self, pattern):
        if not self.take(pattern):
            self.stop(self.at, f"expected '{pattern}'")

    def name(self):
        if not re.fullmatch(r"[A-Za-z_]\w*", self.text(self.at)) or self.text(self.at) in FORBIDDEN_WORDS:
            self.stop(self.at, "expected a name")
        self.at += 1

    def erase(self, start):
        """Deletes what began at an index, with the comments directly above it."""
        self.tokens[start].lead = ABOVE.sub("\n", self.tokens[start].lead)
        self.delete(start, self.at)
        self.at = start

    def plain(self, ends):
        """Advances to the next of these signs outside brackets, over types or the tokens of a body."""
        while self.text(self.at) not in ends:
            end = self.close(self.at) if self.text(self.at) in BRACKETS else self.at + 1
            for at in range(self.at, end):
                crate = self.has(at, "crate::") or self.has(at - 2, "pub(crate)")
                if self.text(at) in FORBIDDEN_WORDS and not crate or self.text(at) in ("#", ""):
                    self.stop(at, "it isn't allowed here")
            self.at = end

    def past(self, end):
        """Advances past the next such sign outside brackets."""
        self.plain([end])
        self.at += 1

    def generics(self):
        """`< .. >`, if it is next. Deletes the bounds `Drop`."""
        depth = 0
        while depth or self.has(self.at, "<"):
            text, before, after = self.text(self.at), self.text(self.at - 1), self.text(self.at + 1)
            if text == "Drop" and (before == "+" or before == ":" and after in (">", ",")):
                self.delete(self.at - 1, self.at + 1)
                self.at -= 1
            elif text in FORBIDDEN_WORDS or not text:
                self.stop(self.at, "it isn't allowed in generics")
            elif text in BRACKETS:
                self.at = self.close(self.at)
            else:
                depth += (text == "<") - (text == ">" and before != "-")
                self.at += 1

    def items(self, one, end=""):
        while self.text(self.at) != end:
            start = self.at
            self.attributes()
            one(start)

    def attributes(self):
        """Attributes. Deletes those that have no meaning in Rust."""
        while self.text(self.at) == "#":
            start = self.at
            self.at += 1 + self.has(self.at + 1, "!")
            end, name, derived = self.close(self.at), self.text(self.at + 1), []
            if name == "derive":
                derived = [token.text for token in self.tokens[self.at + 3 : end - 2] if token.text != ","]
            if set(derived[:-1]) - DERIVED or set(derived) - DERIVED - {"Drop"}:
                self.stop(start, "it derives an unknown trait, or 'Drop' before others")
            if name not in ATTRIBUTES:
                self.stop(start, "unknown attribute")
            self.at = end
            if name == "tactic" or derived == ["Drop"]:
                self.delete(start, end)
                self.at = start
            elif "Drop" in derived:
                self.delete(end - 4, end - 2)
                self.at -= 2

    def item(self, start):
        for law in ("mod laws;", "pub use laws::", "use std::marker::Model;"):
            if self.has(self.at, law):
                self.at = self.after(self.at)
                return self.erase(start)
        self.visibility()
        kind = self.text(self.at)
        if self.take("impl"):
            self.implementation(start)
        elif self.take("use"):
            self.imported()
        elif self.take("mod"):
            self.name()
            self.expect(";")
        elif self.take("struct") or self.take("enum"):
            self.name()
            self.generics()
            if kind == "enum":
                self.body()
            elif self.has(self.at, "{"):
                self.fields()
            else:
                self.past(";")
        else:
            self.member(start)

    def fields(self):
        """`{ field.. }`. Deletes ghost fields."""
        self.expect("{")
        while not self.take("}"):
            start = self.at
            if self.take("ghost"):
                self.name()
                self.expect(":")
                self.logic()
                self.expect(",")
                self.erase(start)
            else:
                self.plain([",", "}"])
                self.take(",")

    def visibility(self):
        if self.take("pub") and self.has(self.at, "("):
            self.at = self.close(self.at)

    def member(self, start):
        """A member of an impl, or an item that may also be one."""
        if self.take("ghost use"):
            self.at = self.after(self.at)
            self.no_comments(start, self.at)
            return self.erase(start)
        if self.take("ghost"):
            self.name()
            self.expect("=")
            self.logic()
            self.expect(";")
            return self.erase(start)
        self.visibility()
        if self.take("const") or self.take("type"):
            self.name()
            self.past(";")
        else:
            self.function(start)

    def function(self, item):
        """A function. Deletes it if it is a lemma: it returns nothing, and has only shared references."""
        self.expect("fn")
        name = self.text(self.at)
        self.name()
        self.generics()
        start = self.at
        self.plain(["{", "requires", "ensures"])
        signature = [token.text for token in self.tokens[start : self.at]]
        types = set(re.findall(r"(?<!:) : (?!:)(\S+)", " ".join(signature)))
        while self.text(self.at) in ("requires", "ensures"):
            start = self.at
            self.at += 1
            self.take("*")
            if not self.has(self.at, "{"):
                self.name()
            self.logic()
            self.erase(start)
        self.body()
        if types <= {"&"} and not {"mut", "self", "-"} & set(signature):
            self.lemmas.add(name)
            self.erase(item)

    def body(self):
        self.expect("{")
        self.past("}")

    def logic(self):
        """`{ .. }` of the logic."""
        start = self.at
        self.expect("{")
        self.at = self.close(start)
        self.no_comments(start, self.at)

    def no_comments(self, start, end):
        """Rejects whatever could hide the end of a construct of the logic."""
        for at in range(start + 1, end):
            token, after = self.tokens[at], self.tokens[at + 1]
            comment = token.text + after.text in ("--", "{-", "-}", "/*") and not after.lead
            quoted = token.text.lstrip("b")[:1] == "'" or '"' in token.text[1:-1]
            if comment or "//" in token.lead or quoted:
                self.stop(at, "the logic may not contain comments, characters, or quotes in texts")

    def imported(self):
        """`use .. ;`, from this crate, another crate of this repository, or a path in IMPORTS."""
        start = self.at
        if not self.take("crate"):
            self.name()
        self.at = self.after(self.at)
        path = "".join(token.text for token in self.tokens[start : self.at - 1]).partition("::{")[0]
        if self.text(start) in ("std", "core") and not f"{path}::".startswith(IMPORTS):
            self.stop(start, f"{path} isn't among the known imports")

    def implementation(self, start):
        if self.file.stem == "laws":
            self.stop(start, "a module of laws is left out, so it may implement nothing")
        self.generics()
        if any(self.has(at, ":") for at in range(start, self.at)):
            self.stop(start, "bounds of an impl may not hold in Rust")
        named, erased = self.at, self.take("Model for") or self.take("Drop for")
        self.past("{")
        inside = self.at
        self.items(self.member, "}")
        self.at += 1
        # The body has to be `let NAME { field: _, .. } = self;`.
        drop = " ".join(token.text for token in self.tokens[inside : self.at - 1])
        if self.text(named) == "Drop" and not re.fullmatch(
            r"fn drop \( self \) { let \w+ { (\w+ : _ , )*(\w+ : _ )?} = self ; }", drop
        ):
            self.stop(named, "its impl does more than destructure a value")
        if erased:
            self.erase(start)

    def read(self):
        """Parses the whole file, and deletes what has no meaning at run time."""
        for at, text in enumerate([token.text for token in self.tokens]):
            before = self.text(at - 1)
            if "\r" in self.tokens[at].lead + text:
                self.stop(at, "no carriage return may be in it or before it")
            if self.text(at + 1)[:1] in ('"', "#") and not self.tokens[at + 1].lead and re.fullmatch(r"\w+", text):
                self.stop(at, "only b, r and br may begin a literal")
            if RUN.search(EXAMPLE.sub("", self.tokens[at].lead)):
                self.stop(at, "cargo would run an example in the comment before it")
            if self.has(at, "/*") and not self.tokens[at + 1].lead:
                self.stop(at, "block comments aren't allowed")
            if NEW_NAMES.fullmatch(text):
                self.stop(at, "renaming produces this name")
            if text in RUST_TYPES and before in ("struct", "enum", "type", "trait", "mod", "const", "fn"):
                self.stop(at, "Rust has a type of this name")
            sorts = re.fullmatch(r"sort(_unstable)?_by|select_nth_unstable_by", text) and before != "fn"
            if sorts and not self.has(at - 1, SORTING):
                self.stop(at, "Rust may panic if this isn't an order")
        self.items(self.item)
        self.dots()
        return self

    def dots(self):
        """Rejects ranges without an end that aren't an index, because in Rust they go past the last number, and records
        that take fields from another, because Rust evaluates it even if no field is taken."""
        opened = []
        for at, token in enumerate(self.tokens):
            if token.text in BRACKETS:
                opened.append(at)
            elif token.text in BRACKETS.values():
                opened.pop()
            before, after = self.text(at - 1), self.text(at + 2)
            if not self.has(at, "..") or before == ".":
                continue
            of = self.text(opened[-1] - 1) if after == "]" else ""
            index = re.match(r"\w|[)\]?]", of) and of not in KEYWORDS
            if before not in set("{([,@|=>&") and after in set(")}],;{") and not index:
                self.stop(at, "a range needs an end")
            if before in set(",{") and after not in set(")}],"):
                self.stop(at, "a record may not take fields from another")

    def forget(self, lemmas):
        """Deletes the names of lemmas in imports, and the statements that call them."""
        imports = [at for at, token in enumerate(self.tokens) if token.text == "use"]
        for at in reversed([at for at, token in enumerate(self.tokens) if token.text in lemmas]):
            start = max((start for start in imports if start < at < self.after(start)), default=None)
            if start is None:
                self.forget_call(at)
                continue
            first = at - (self.text(at - 1) == ",")
            self.delete(first, at + 1 + (first == at and self.text(at + 1) == ","))
            self.at = self.after(start)
            if self.has(self.at - 3, "{};") or self.has(self.at - 3, "::;"):
                self.erase(start - self.has(start - 1, "pub use"))
            elif self.has(self.at - 4, "{") and self.has(self.at - 2, "};") and self.text(self.at - 3) not in lemmas:
                self.delete(self.at - 2, self.at - 1)
                self.delete(self.at - 4, self.at - 3)

    def forget_call(self, at):
        """Deletes a statement that calls a lemma."""
        end = self.close(at + 1) if self.text(at + 1) == "(" else at
        arguments = "".join(token.text for token in self.tokens[at + 2 : end - 1])
        if self.text(at - 1) not in ("{", "}", ";") or self.text(end) != ";" or not re.fullmatch(r"[\w.&,]*", arguments):
            self.stop(at, "a lemma may only be called by a statement, for variables")
        self.at = end + 1
        self.erase(at)

    def calls(self, known, values, methods):
        """Rejects calls and names of functions that neither this repository defines nor the lists above have."""
        imported = 0
        for at, token in enumerate(self.tokens):
            text, after = token.text, self.text(at + 1)
            if not text.isascii() and text[-1] not in "\"'#":
                self.stop(at, "code has to be ASCII")
            if text == "use":
                imported = self.after(at)
            if (text in CALLS or text in HOST) and self.text(at - 1) not in (".", ":", "fn"):
                self.stop(at, "renaming would change this name, which `{:?}` may print")
            if text == "as" and (at < imported or after not in CASTS):
                self.stop(at, "only casts to numbers of a fixed size are allowed")
            if text in ("std", "core") and at >= imported and not self.has(at, "std::result::Result<"):
                self.stop(at, "paths of Rust have to be imported")
            attribute = self.has(at - 2, "#[")
            if not re.fullmatch(r"[A-Za-z_]\w*", text) or text in KEYWORDS or attribute or at < imported:
                continue
            macro = after == "!" and not self.has(at + 1, "!=")
            called = after == "(" or macro or self.has(at + 1, "::<")
            if self.has(at - 2, "::") and (called or text[0].islower()) and not self.has(at + 1, "::"):
                of = self.text(at - 3)
                ours = text in known and (of in known or of in ("crate", "super"))
                if not ours and f"{of}::{text}" not in KNOWN_TYPE_CALLS:
                    self.stop(at, f"{of}::{text} isn't among the known calls")
            elif called and text not in KNOWN_CALLS:
                by = self.text(at - 1) == "."
                if macro or text not in (methods if by else known | values):
                    self.stop(at, "it isn't among the known calls")

    def rename(self, names):
        """Renames by tables, the longest name first, and returns whether any call was renamed."""
        names = sorted({**CALLS, **DISPLAY, **names}.items(), key=lambda name: -len(words(name[0])))
        at, called = 0, False
        while at < len(self.tokens):
            for name, new in names:
                if self.has(at, name):
                    made = tokens_of(new)[:-1]
                    made[0].lead = self.tokens[at].lead
                    self.tokens[at : at + len(words(name))] = made
                    at += len(made) - 1
                    called |= name in CALLS or name in HOST and name not in LIBRARY
                    break
            at += 1
        return called


def defined(eraser):
    """The names that a file defines: of functions, types, variants and modules; of parameters, which may be functions;
    and of methods."""
    text, names, values, methods = eraser.text, {"Self"}, set(), set()
    for at in range(len(eraser.tokens)):
        if text(at - 1) == "fn" and "self" in [text(place) for place in range(at, eraser.close(eraser.next("(", at)))]:
            methods.add(text(at))
        if text(at - 1) in ("fn", "struct", "enum", "type", "const", "mod"):
            names.add(text(at))
        if text(at + 1) == ":" and text(at + 2) != ":":
            values.add(text(at))
        if text(at) == "enum":
            body = eraser.next("{", at)
            names |= {text(place) for place in range(body, eraser.close(body)) if text(place)[:1].isupper()}
    return names, values, methods


def rust_of(path, eraser, module, names):
    called = eraser.rename(names)
    text = "".join(EXAMPLE.sub(r"\1 ```text\n\2\1 ```", token.lead) + token.text for token in eraser.tokens)
    head = f"// Generated by bindings/rust/erase.py from {path.relative_to(TOP)}. Do not edit.\n"
    docs, rest = re.fullmatch(r"((?://![^\n]*\n)*)\n*((?:.|\n)*)", text).groups()
    # Without std, Rust's prelude has no texts and lists.
    called |= module == "fallible" and any(token.text in ("String", "Vec") for token in eraser.tokens)
    imports = f"use crate::{module}::*;\n\n" if called else ""
    laid_out = subprocess.run(RUSTFMT, input=head + docs + "\n" + imports + rest, capture_output=True, text=True)
    if laid_out.returncode:
        stop(f"{path.relative_to(TOP)}: {laid_out.stderr}")
    return laid_out.stdout


def sources():
    """The parsed files of each crate. Checks their calls against the names that all of them define."""
    crates, lemmas, known, values, methods = {}, set(), set(CRATES), set(), set()
    for name in CRATES:
        paths = sorted((TOP / "crates" / name / "src").glob("*.rt"))
        files = {path: Eraser(path).read() for path in paths}
        crates[name] = {path: eraser for path, eraser in files.items() if path.stem != "laws"}
        lemmas |= {lemma for eraser in files.values() for lemma in eraser.lemmas}
    erasers = [eraser for files in crates.values() for eraser in files.values()]
    for eraser in erasers:
        eraser.forget(lemmas)
        names, held, called = defined(eraser)
        known, values, methods = known | names, values | held, methods | called
    for eraser in erasers:
        eraser.calls(known, values, methods)
    return crates


def main(arguments):
    if arguments in (["--help"], ["-h"]):
        return print(__doc__.strip())
    if arguments not in ([], ["--check"]):
        print("usage: bindings/rust/erase.py [--check]", file=sys.stderr)
        return 2
    if not shutil.which("rustfmt"):
        stop("rustfmt not found: install Rust 1.85 or later with it")
    status, crates = 0, sources()
    for name, (folder, module, names) in CRATES.items():
        folder = TOP / folder
        files = {"README.md": f"`bindings/rust/erase.py` generates this folder from `crates/{name}/src`. Don't edit it.\n"}
        for path, eraser in crates[name].items():
            file = "mod.rs" if path.stem in ("lib", "main") else path.stem + ".rs"
            files[file] = rust_of(path, eraser, module, names)
        there = {str(path.relative_to(folder)): path.read_bytes() for path in folder.rglob("*") if path.is_file()}
        for file in sorted(files.keys() | there.keys()):
            if file in files and files[file].encode("utf-8") == there.get(file):
                continue
            if arguments:
                print(f"{folder / file} is out of date: run bindings/rust/erase.py")
                status = 1
            elif file in files:
                folder.mkdir(parents=True, exist_ok=True)
                (folder / file).write_bytes(files[file].encode("utf-8"))
            else:
                (folder / file).unlink()
    if arguments and status == 0:
        print("the erased Rust is up to date")
    return status


if __name__ == "__main__":
    sys.exit(main(sys.argv[1:]))
