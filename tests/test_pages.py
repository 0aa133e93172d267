"""The pages: their names, quotations and figures match the sources, the proofs and the records. Also: well-formed scripts
and Rust.

--fix writes the tables of figures, and what else GENERATED lists. Prose has no figures that change.
"""

import collections
import functools
import os
import re
import textwrap
import unicodedata

import bench as bench_py
import chart
import pytest
import reading
from conftest import ROOT, answer, copy_tree, kit, need, need_rustfmt, run, shell_binary
from conftest import tracked as all_tracked
from model import TEXTS, Group, Options
from targets import REGISTRY, need_cargo, offline
from test_mutants import body_of, functions_in
from test_unproved import rt_try


def read(name):
    return (ROOT / name).read_text(encoding="utf-8")


tracked = all_tracked()
# The Rust package has a copy of CHANGELOG.
COPY = "bindings/rust/CHANGELOG.md"
pages = {name: read(name) for name in tracked if name.endswith(".md") and name != COPY}
sources = {name: read(name) for name in tracked if re.match(r"crates/\w*/src/.*\.rt$", name)}
modules = sources | {name: read(name) for name in tracked if re.match(r"bindings/.*\.rs$", name)}
CALLING = "crates/getopts/CALLING.md"


def assert_none(failures):
    failures = list(dict.fromkeys(failures))
    assert not failures, "\n".join(failures)


# ---- figures


def table(heads, *rows):
    first, *others = (f"| {' | '.join(line)} |" for line in (heads, *rows))
    return "\n".join([first, "|" + "---|" * len(heads), *others])


def measured(title, job, *columns):
    """What bench/last_run.txt says about a job, in some columns of the table with this title."""
    cells = bench_py.recorded().get((title, job), {})
    return [re.sub(r"^\d+", lambda it: f"{int(it[0]):,}", cells.get(column, "-")) for column in columns]


def described(job):
    options, words = map(len, bench_py.parts(job))
    return f"`{job}`: {options:,} options, {words:,} words"


def instructions(heads, title, jobs, *columns):
    return table(heads, *([described(job), *measured(title, job, *columns)] for job in jobs))


def listing(texts):
    """A block with these texts, each in lines of at most 120 columns."""
    lines = [textwrap.fill(text, 120, subsequent_indent=re.match("(?: {4}// )?", text)[0] or "    ", break_long_words=False)
             for text in texts]
    return "\n".join(["```text", *lines, "```"])


def paragraph(text):
    """A text in lines of at most 120 columns."""
    return textwrap.fill(text, 120, break_long_words=False, break_on_hyphens=False)


def speed():
    """README: which libraries take fewer instructions than ours in the jobs of its picture."""
    drawn = {job: {name: chart.instructions(job, name) for name in chart.LIBRARIES} for job in chart.JOBS}
    fewest = sum(min(counts, key=counts.get) == "lexopt" for counts in drawn.values())
    behind = [job for job, counts in drawn.items() if counts["Rust crate"] < counts["bindings/rust"]]
    assert behind == ["files"]
    return paragraph(
        f"In {fewest} of the {len(drawn)} jobs, `lexopt` takes the fewest, because it only hands over one argument after the other. Only "
        "in `files`, the original takes fewer than `proved-getopts` ([why](bench/README.md#comparison)).")


def moving():
    """The Rust page: the instructions of a program that moves from the Rust crate, and so calls the crate's methods."""
    jobs = "small", "typical", "long"
    both = [measured("Instructions per iteration", f"copied-{job}", "bindings/rust", "Rust crate") for job in jobs]
    shares = [round(100 * int(ours.replace(",", "")) / int(theirs.replace(",", ""))) for ours, theirs in both]
    return paragraph(
        "If a program replaces the original, and is otherwise unchanged, reading its options from the command lines "
        f"`{'`, `'.join(jobs[:-1])}` and `{jobs[-1]}` takes {min(shares)}% to {max(shares)}% of the instructions that it took before "
        "(jobs `copied-..` in [last_run.txt](../../bench/last_run.txt)).")


def costs():
    """The Rust page: what libraries cost a small program."""
    columns = {"bindings/rust": "`proved-getopts`", "Rust crate": "the original",
               **{name: f"`{name}`" for name in ("lexopt", "pico-args", "clap")}}
    rows = {"kilobytes": ("adds to a small stripped program", " KB"), "seconds": ("processor time to build", " s")}
    return table(["", *columns.values()], *(
        [text, *(f"{cell}{unit}" for cell in measured(bench_py.SMALL, job, *columns))] for job, (text, unit) in rows.items()))


def speed_in_c():
    columns = "bindings/c", "getopt_long", "argp"
    return instructions(["job", *columns], "Instructions per iteration in C", ["small", "typical", "long"], *columns)


def cost_in_c():
    """C page: how many times as many instructions reading words takes as with getopt_long."""
    def times(job):
        cells = bench_py.recorded()["Instructions per iteration in C", job]
        return f"{int(cells['bindings/c']) / int(cells['getopt_long']):.1f}"

    return paragraph(
        f"On 3 words, `getopts_read` takes {times('small')} times as many instructions as `getopt_long`, and a loop over "
        f"`getopts_next` {times('order-small')} times; on 1,000 words, {times('long')} and {times('order-long')} times.")


def behind():
    """The jobs in which a library that prints help from declared options takes fewer instructions than this one."""
    def jobs(title, column, peer):
        return [f"`{job}`" for (where, job), cells in bench_py.recorded().items() if where == title and not job.startswith("read-")
                and "-" not in (cells[column], cells[peer]) and int(cells[peer].rstrip("*")) < int(cells[column].rstrip("*"))]

    *front, last = jobs("Instructions per iteration in C", "bindings/c", "argp")
    return paragraph(
        "Of the libraries that print help from declared options, the original takes fewer instructions than `proved-getopts` in "
        f"{' and '.join(jobs('Instructions per iteration', 'bindings/rust', 'Rust crate'))}, and argp fewer than `bindings/c` in "
        f"{', '.join(front)} and {last}.")


def code_in(text):
    """How many lines of a text aren't comments, imports or blank."""
    code = re.compile(r"(?! *(//|--|# |#!|#include|(import|from|(pub )?(ghost )?(use|mod)) |$))")
    lines = re.sub(r'^ *(/\*.*?\*/|""".*?""")', "", text, flags=re.M | re.S).split("\n")
    return sum(bool(code.match(line)) for line in lines)


def lines_in(start, *omitted):
    """The lines of code in these files, rounded to hundreds."""
    kept = [name for name in tracked if name.startswith(start) and not name[len(start):].startswith(omitted)]
    return round(sum(code_in(read(name)) for name in kept), -2)


def to_read():
    """PROOFS: the lines to read for each way of using the library."""
    specs, source = lines_in("crates/getopts/specs/", "Stored", "UsageResults"), lines_in("crates/getopts/src/")
    (bytes_specs, bytes_source), (shell_specs, shell_source) = (
        [lines_in(f"crates/{crate}/{part}/") for part in ("specs", "src")] for crate in ("getopts_bytes", "getopts_shell"))
    eraser, rust = lines_in("bindings/rust/erase.py"), ("bindings/rust/src/", "proved", "bytes")
    # The C library is built without these modules of the Rust package.
    for_rust_alone = re.findall(r'^#\[cfg\(feature = "std"\)\]\n(?:pub )?mod (\w+);', read("bindings/rust/src/lib.rs"), re.M)
    rows = {"definitions": [specs, specs + bytes_specs + shell_specs, specs + bytes_specs, specs + bytes_specs],
            "unproved code": [0, lines_in("bindings/shell/start"), eraser + lines_in(*rust),
                              eraser + lines_in(*rust, *for_rust_alone) + lines_in("bindings/c/src/")],
            "proved source": [source, source + bytes_source + shell_source, source + bytes_source, source + bytes_source]}
    return table(["lines", "Rattle", "shell binary", "Rust", "C"], *([row, *map("{:,}".format, its)] for row, its in rows.items()))


def calls():
    """CALLING: all calls with their parameters."""
    rows = []
    for name, _, _ in public_functions():
        head = re.split(r"\n +(?=(?:requires|ensures)\b)", contracts()[name])[0].removeprefix(f"fn {name}")
        types = re.sub(r"(?<=\() |,? (?=\))|\bmut (?=[a-z]\w*: )", "", " ".join(head.split()))
        rows += [name + types] if "->" in types else []
    return listing(rows)


def variants():
    """CALLING: the variants of enums, with what their comments say about contents. Those with equal contents share a line."""
    lines, library = {}, "".join(text for name, text in sources.items() if name.startswith("crates/getopts/src/"))
    for owner, body in re.findall(r"^pub enum (.*?) \{\n(.*?)^\}", library, re.M | re.S):
        for docs, name, held in re.findall(r"^((?: {4}///.*\n)*) {4}(\w+)(.*?(?:\n {8}.*)*(?:\n {4}\})?),$", body, re.M):
            comments = re.findall(r"\b(?:Contains|Its) .*?\.", " ".join(re.findall(r"/// (.*)", docs + held)))
            held = re.sub(r",? +\}", " }", " ".join(re.sub(r"///.*", "", held).split()).replace("{", " {"))
            lines.setdefault((owner, held + " // " * bool(comments) + " ".join(comments)), []).append(name)
    return listing(f"{owner}::{', '.join(names)}{text}" for (owner, text), names in lines.items())


# The clauses that callers cite most.
CITED = {"Options::parse_words": ["result"], "Options::parse_in_order": ["result"],
         "Reader::next": ["trace", "declared"],
         "Matches::opt_present": ["present"], "Matches::opt_count": ["count"], "Matches::opt_str": ["value"],
         "Matches::opt_strs": ["values"], "Options::usage": ["result"]}


def cited_clauses():
    """CALLING: the clauses that callers cite most."""
    rows = []
    for call, clauses in CITED.items():
        stated = dict(re.findall(r"\n +ensures (\w+) \{ (.*?) \}(?=\n|$)", contracts()[call], re.S))
        rows += [f"{call} {clause}: {' '.join(stated[clause].split())}" for clause in clauses]
    return listing(rows)


# What --fix writes between `<!-- generated: NAME -->` and `<!-- end -->`.
GENERATED = {make.__name__: make for make in (moving, speed, costs, speed_in_c, cost_in_c, behind, to_read, calls, variants,
                                              cited_clauses)}


@pytest.mark.parametrize("page", pages)
def test_generated_parts(page, request):
    wanted, count = re.subn(r"^(<!-- generated: (\w+) -->\n)(?:.*?\n)??(<!-- end -->)$",
                            lambda it: f"{it[1]}{GENERATED[it[2]]()}\n{it[3]}", pages[page], flags=re.M | re.S)
    assert 2 * count == len(re.findall(r"^<!-- (?:generated: .*|end) -->$", pages[page], re.M))
    if request.config.getoption("--fix") and wanted != pages[page]:
        (ROOT / page).write_text(wanted, encoding="utf-8")
        pages[page] = wanted
    assert pages[page] == wanted, "out of date: run 'bash test.sh -k pages --fix'"


def compare(name, text, request):
    """Compares a generated file with what it should be, which --fix writes."""
    if request.config.getoption("--fix"):
        (ROOT / name).write_text(text, encoding="utf-8")
    assert read(name) == text, f"{name} is out of date: run 'bash test.sh -k pages --fix'"


def test_picture_of_a_reading(show, request):
    compare("docs/reading.svg", reading.draw(run(show, *reading.WORDS)[0]), request)


def test_chart(request):
    compare("bench/chart.svg", chart.draw(), request)


def test_copy_of_the_changelog(request):
    compare(COPY, pages["CHANGELOG.md"], request)


@pytest.mark.parametrize("folder", ["rust", "c", "shell"])
def test_oldest_rust(folder):
    """README names the oldest Rust that builds this folder with unicode-width 0.2, which needs 1.66. The folder's page also names
    the oldest of all, if that is older."""
    oldest = re.search(r'rust-version = "(.*)"', read(f"bindings/{folder}/Cargo.toml"))[1]
    row = re.search(rf"^\| \[.*\]\(bindings/{folder}/README.md\).*", pages["README.md"], re.M)[0]
    on_page = f"Rust {oldest} or later" if folder == "c" else f"Rust 1.66, or {oldest} with `unicode-width` 0.1.10"
    assert f"Rust {'1.66' if folder != 'c' else oldest}" in row and on_page in " ".join(pages[f"bindings/{folder}/README.md"].split())


def test_versions():
    """All parts have the version of CHANGELOG. Only the package for patches has the crate's, followed by ours. Files name ours in
    one of these forms, so that each is found when the version is raised."""
    version = re.search(r"^## ([\d.]+)", pages["CHANGELOG.md"], re.M)[1]
    forms = re.compile(r'(?:version (?:= ")?|VERSION "|getopts_shell |\+proved\.)(\d+\.\d+\.\d+)\b(?!\+)')
    anywhere = re.compile(rf"(?<!\d)(?<!\d\.){re.escape(version)}(?!\.?\d)")
    # Tests and benchmarks aren't released, and in proofs such numbers are fields.
    left_out = re.compile(r"tests/|bench/|crates/\w+/proofs/|.*(CHANGELOG\.md|/getopts_shell)$")
    named = {name: forms.findall(read(name)) for name in tracked if not left_out.match(name)}
    assert_none(f"{name} names {', '.join(its) or 'the version in another form'}, not {version}"
                for name, its in named.items() if its != [version] * len(anywhere.findall(read(name))))
    header, (major, minor, patch) = read("bindings/c/getopts.h"), map(int, version.split("."))
    assert re.search(r"^#define GETOPTS_VERSION_NUMBER (.*)", header, re.M)[1] == str(1_000_000 * major + 1000 * minor + patch)
    crate = re.search(r"crate `getopts` ([\d.]+)", pages["README.md"])[1]
    for name in ("bindings/rust/README.md", "bindings/rust/getopts/Cargo.toml"):
        assert f"{crate}+proved.{version}" in read(name)
    assert f'"getopts {version}"' in run("awk", "-f", *(ROOT / f"bindings/c/{it}" for it in ("man.awk", "getopts.h", "getopts.h")))[0]


def test_toolchain_is_named():
    """PROOFS and the library's page name the logic with which the library is proved."""
    logic = re.search(r"logic (\w+)", read("bindings/shell/proved.sha256"))[1]
    assert f"logic {logic}`" in pages["docs/PROOFS.md"] and f"logic {logic}`" in pages["crates/getopts/README.md"]


def joined(text):
    """A text in Antt on one line, without comments."""
    return " ".join(re.sub(r"--.*", "", text).split())


def test_theorem_is_quoted():
    """PROOFS quotes definitions of the main theorem. Only line breaks and comments may differ."""
    source = joined(read("crates/getopts/specs/Theorem.antt"))
    quoted = re.findall(r"^(\w+ options =[\s\S]*?)(?:\n\n|```)", pages["docs/PROOFS.md"], re.M)
    assert len(quoted) == 4
    assert_none(f"Theorem.antt doesn't contain: {joined(it)}" for it in quoted if joined(it) not in source)


def test_example_lines():
    """The command lines at the top of GRAMMAR are read as model.py reads them, and are proved examples and test cases. README has
    some of them."""
    proved, cases = read("crates/getopts/proofs/Examples.antt"), read("crates/getopts_vectors/data/rules.rows")
    groups = [Group(b"o", b"output", "yes", "optional"), Group(b"v", b"verbose", "no", "multi"),
              Group(b"c", b"color", "maybe", "optional")]
    top = pages["docs/GRAMMAR.md"].partition("\n## ")[0]
    rows, few = (re.findall(r"^\| \[?`(.*?)`(?:\]\(try.html#\S+\))? \| (.*?) \|(?: (.*))? \|$", page, re.M)
                 for page in (top, pages["README.md"].partition("\n## ")[0]))
    assert len(rows) == 10 and len(few) == 4 and set(few) <= set(rows)
    for line, *reading in rows:
        found = Options(groups).parse(line.encode().split())
        if len(found) == 2:
            wanted = [(TEXTS[found[0]] % found[1]).decode(), ""]
        else:
            given = [f"`{groups[place].long.decode()}`" + (f" = `{value.decode()}`" if value else "") for place, _, value in found[0]]
            wanted = [", ".join(given), ", ".join(f"`{word.decode()}`" for word in found[1])]
        assert reading == wanted, line
        texts = " ∷ ".join(f'codes "{word}"' for word in line.split())
        assert f"({texts} ∷ [])" in proved and "\t".join(["\ncanonical", *line.split()]) + "\n" in cases, line
    number = re.search(r"^- \*\*A negative number\*\*, such as `(.*)`, is read as an option", pages["docs/DIFFERENCES.md"], re.M)[1]
    assert Options(groups).parse([number.encode()]) == ("UnrecognizedOption", number[1:].encode())


# ---- code

USE = re.compile(r"^[ \t]*(?:pub )?(?:ghost )?use ([^;{\n]*?)(?:\{([^}]*)\})?;?[ \t]*$\n?", re.M)


def imports_of(text):
    """The names that a text imports, with their paths."""
    names = {}
    for path, several in USE.findall(text):
        front, _, last = path.strip().rpartition("::")
        for name in several.split(",") if several else [last]:
            names[name.strip()] = path.strip() if several else front
    return names


def rust_blocks(page):
    return re.findall(r"^```rust\n(.*?)^```", pages[page], re.M | re.S)


# README's program is in no file: test_program_in_rattle runs it.
blocks = [(page, block) for page in (CALLING, "crates/getopts/README.md") for block in rust_blocks(page)]
examples = sources | {name: read(name) for name in tracked if name.startswith(("bindings/rust/examples/", "bindings/rust/tests/"))}


def test_first_command():
    """README has the command that tests/fresh.sh looks for and runs, with the words for which `stdout` has the output."""
    words = " ".join(read("crates/getopts_show/args").split())
    first = re.search(r"^ *\(cd .*rt try.*", pages["README.md"], re.M)[0]
    assert first == f"    (cd crates/getopts_show && rt try -- {words})"


@pytest.mark.rt
def test_program_in_rattle(tmp_path):
    """README's program in Rattle is a whole crate. It prints what README says, as the one in Rust does in `test_doors`."""
    words, printed = printed_by_program()
    assert f" -- {words}\n" in doors()["Rust"]
    copy = copy_tree(tmp_path / "copy", "crates/getopts")
    (copy / "crates/join/src").mkdir(parents=True)
    (copy / "crates/join/src/main.rt").write_text(rust_blocks("README.md")[0])
    (copy / "crates.txt").write_text("getopts: unicode_width\njoin: getopts\n")
    assert rt_try("join", "--", *words.split(), root=copy)[0] == f"{printed}\n"


def printed_by_program():
    """The words for README's program, and what it prints, as README says."""
    (words, printed), = re.findall(r"With\s+`(.*)`, the program\s+prints\s+`(.*)`,", pages["README.md"])
    return words, printed


def doors():
    """For each language, README's commands under *Try it*."""
    part = pages["README.md"].partition("\n## Try it\n")[2].partition("\n## ")[0]
    found = re.findall(r"^\*\*(\w+)\.\*\* .*\n(?:\S.*\n)*\n((?: {4}.*\n)+)", part, re.M)
    return {language: textwrap.dedent(commands) for language, commands in found}


@pytest.mark.xdist_group("Rust")
@pytest.mark.parametrize("language, folder", [("Rust", "rust"), ("C", "c"), ("Shell", None)])
def test_doors(language, folder, tmp_path):
    """README's commands work in a fresh clone, if need be without a network. test_unproved.py runs those for Rattle."""
    if folder:
        need_cargo(ROOT / "bindings" / folder)
        need("ld", "objcopy", "ar")
    else:
        shell_binary()
    printed = {"Rust": f"{printed_by_program()[1]}\n", "C": pages["README.md"].partition("\n")[0] + "\n",
               "Shell": "input: a b\noutput: out\nverbose: 2\ncolor: never\nfolders:\nfile: x\n"}[language]
    copy = copy_tree(tmp_path / "clone")
    if offline():
        (tmp_path / "config.toml").write_text('[net]\noffline = true\n[source.crates-io]\nreplace-with = "debian"\n'
                                              f'[source.debian]\ndirectory = "{REGISTRY}"\n')
    env = {"CARGO_HOME": str(tmp_path), "TMPDIR": str(tmp_path)}
    said, _ = run("bash", "-euc", doors()[language], cwd=copy, env=env)
    assert re.sub("^installed in .*\n", "", said) == printed


@pytest.mark.parametrize("page, block", blocks, ids=[f"{page}-{at}" for at, (page, _) in enumerate(blocks)])
def test_code_blocks(page, block):
    """Each block occurs in a file that is proved or tested, and has the imports that it needs."""
    code = USE.sub("", block).strip()
    found = [name for name, text in examples.items() if f"\n{code}\n" in textwrap.dedent(text) or
             textwrap.indent(code, "    ") in text]
    assert found, "no file contains this code"
    here, there = imports_of(block), imports_of(examples[found[0]])
    for name in here | there:
        used = re.search(rf"(?<!\w){re.escape(name.strip('◌'))}(?!\w)", code) is not None
        assert used == (name in here), name
        assert name not in here or here[name] == there.get(name), f"{found[0]} doesn't import {name} from that path"


# ---- contracts

def public_functions():
    """The library's public functions: the name of each, its text, and the text before it in its file."""
    root = read("crates/getopts/src/lib.rt")
    public = set(re.findall(r"\w+", " ".join(re.findall(r"^pub use (.*?);", root, re.M | re.S))))
    for visible, module in re.findall(r"^(pub )?mod (\w+);", root, re.M):
        source = read(f"crates/getopts/src/{module}.rt")
        for it, _, name in functions_in(source):
            if it[2] and (name.split("::")[0] in public or visible):
                yield name, it, source[:it.start()]


@functools.cache
def contracts():
    """The library's public functions with their contracts, without comments."""
    found = {}
    for name, it, _ in public_functions():
        text = re.sub(r"\n *//.*|\n(?=\n)", "", textwrap.dedent(it[0][:body_of(it)]).rstrip())
        found[name] = text.replace(f"pub fn {it[3]}", f"fn {name}", 1)
    return found


def test_offered_lemmas_are_cited():
    """Each lemma that CALLING.md offers is in the module that it names, and imported by some proof."""
    proofs = "".join(read(name) for name in tracked if re.match(r"crates/\w+/proofs/", name))
    used = re.findall(r"[\w-]+", " ".join(re.findall(r"^use [\w.]+\{([^}]*)\}", proofs, re.M)))
    offered = re.findall(r"^- `([\w.]+)`: ((?:.|\n  )*)", pages[CALLING].partition("**Lemmas**")[2], re.M)
    assert offered
    for module, names in offered:
        here = re.findall(r"[\w-]+", read(f"crates/getopts/proofs/{module.replace('.', '/')}.antt"))
        assert_none(f"CALLING.md offers {name} of {module}, but no proof imports it, or it isn't there"
                    for name in re.findall(r"`([\w-]+)`", names) if name not in here or name not in used)


LEMMA = re.compile(r"^( *)(?:abbrev )?(?:pub )?([\w≡≢-]+) : .*\n(?:\1(?: |\2 |unfolding ).*\n|\n)*", re.M)


def test_lemmas_are_used():
    """Each lemma in a file of lemmas, but for examples, is named outside its declaration."""
    def words_of(text):
        return re.findall(r"[\w≡≢-]+", re.sub(r"^ *(--|//).*", "", text, flags=re.M))

    texts = {name: read(name) for name in tracked if re.match(r"crates/.*\.(antt|rt|edit)$", name)}
    used = collections.Counter(word for text in texts.values() for word in words_of(text))
    lemmas = [(name, it) for name, text in texts.items() for it in LEMMA.finditer(text)
              if re.search(r"/proofs/(?!.*\b(Answers|Examples|Invariants|Proof)\.antt)", name) and f"\n{it[1]}{it[2]} " in it[0]]
    assert lemmas
    assert_none(f"{it[2]} of {name}" for name, it in lemmas if used[it[2]] == words_of(it[0]).count(it[2]))


# ---- promises

def test_promised_clauses_exist():
    """Each function in a table of PROOFS has the clauses listed beside it."""
    clauses, missing = {}, []
    for text in sources.values():
        for function in re.split(r"\bfn (?=\w)", text)[1:]:
            here = clauses.setdefault(re.match(r"\w+", function)[0], set())
            here |= set(re.findall(r"ensures\*? (\w+) \{", function))
    clauses["main"] = clauses["one_reading_one_canonical_line"]
    for row in re.findall(r"^\|.*\|$", pages["docs/PROOFS.md"], re.M):
        for part in re.split(r"[;|]", re.sub(r"\([^)]*\)", "", row)):
            if it := re.match(r"\s*((?:`\w+`(?:, )?)+|main): ((?:`\w+`(?:, )?)+)", part):
                for function in re.findall(r"\w+", it[1]) if "`" in it[1] else [it[1]]:
                    missing += [f"{function} has no clause {clause}" for clause in re.findall(r"\w+", it[2])
                                if clause not in clauses.get(function, ())]
    assert_none(missing)


# ---- names

def test_definitions_are_explained():
    """Each public definition that states a fact has one line of comment above it, which `rt lemma` prints, or its crate's page
    names it."""
    missing = []
    for name in (name for name in tracked if re.match(r"crates/\w+/specs/.*\.antt$", name)):
        page = pages.get(f"crates/{name.split('/')[1]}/README.md", "")
        for comment, it in re.findall(r"((?:^--.*\n)*)^(?:abbrev |unfoldable )?pub (?:record |data )?([A-Z][\w-]*)", read(name), re.M):
            missing += [] if comment.count("\n") == 1 or f"`{it}`" in page else [f"{it} of {name}"]
    assert_none(missing)


def test_errors_are_listed():
    """The model, GRAMMAR with its text, and C's header list each error of the library."""
    faults = re.findall(r"^  (\w+) : Text → Fault$", read("crates/getopts/specs/Fail.antt"), re.M)
    texts = {fault: TEXTS[fault.title().replace("_", "")].decode() % "NAME" for fault in faults}
    assert len(faults) == len(TEXTS)
    assert_none(fault for fault in faults if f"- `{fault}`: `{texts[fault]}`\n" not in read("docs/GRAMMAR.md"))
    assert_none(fault for fault in faults if f" GETOPTS_{fault.upper()}" not in read("bindings/c/getopts.h"))


@functools.cache
def words():
    """The words in the sources, and the file names."""
    found = {part for name in tracked for part in re.split(r"[/.]", name)}
    for name in tracked:
        if re.search(r"\.(rt|antt|agda|rs|c|h|cpp|sh|py|edit|toml|txt|ini|rows|sha256)$|/stdin$|^crates.txt$|^HANDLES$", name):
            text = read(name)
            found |= set(re.findall(r"[\w+-]+", text)) | set(re.findall(r"\w+", text))
    return found


@pytest.mark.parametrize("page", pages)
def test_names_and_links(page):
    """Every name in backquotes exists as a word in the sources or a file, and every link has its target. The library's
    folder may be copied alone, so its pages link to nothing outside it."""
    failures, copied = [], "crates/getopts/"
    prose = re.sub(r"^```.*?^```", "", pages[page], flags=re.M | re.S)
    for span in sorted(set(re.findall(r"`([A-Za-z_][\w-]*)`", prose))):
        failures += [] if span in words() else [f"nothing is called {span}"]
    for owner, name in sorted(set(re.findall(r"`([A-Z]\w*)::(\w+)", prose))):
        of_it = [text for text in modules.values() if re.search(rf"\bimpl\b.*\b{owner}\b", text)]
        failures += [f"{owner} has no {name}"] if of_it and not re.search(rf"\bfn {name}\b", "\n".join(of_it)) else []
    for path in sorted(set(re.findall(r"`([\w./-]+\.(?:md|rt|antt|rs|c|h|sh|py|edit|txt))`", prose))):
        there = [path, os.path.normpath(os.path.join(os.path.dirname(page), path))]
        if not any(f"/{it}".endswith(f"/{end}") for it in tracked for end in there):
            failures.append(f"no such file: {path}")
    for target, heading in re.findall(r"\]\(([^)#]*)#?([^)]*)\)", prose):
        there = os.path.normpath(os.path.join(os.path.dirname(page), target)) if target else page
        failures += [] if "://" in target or (ROOT / there).exists() else [f"no such file: {target}"]
        failures += [f"{target} isn't in {copied}"] if page.startswith(copied) and not there.startswith(copied) else []
        headings = re.findall(r"^#+ (.*)", pages.get(there, ""), re.M)
        anchors = [re.sub(r"[^\w -]", "", it).lower().replace(" ", "-") for it in headings]
        # For fragments of try.html, see test_try.py.
        failures += [] if not heading or heading in anchors or there.endswith(".html") else [f"{target} has no heading {heading}"]
    assert_none(failures)


# ---- form

@pytest.mark.rt
def test_sources_are_formatted():
    files = [name for name in tracked if name.endswith((".rt", ".antt"))]
    said, status = answer(kit() / "bin/rattle", "fmt", "--check", *files, cwd=ROOT)
    assert status == 0, f"'rt fmt' in the crate:\n{said.decode()}"


def test_shell_scripts():
    """ShellCheck has no warnings. With CDPATH set, cd may choose another folder."""
    need("shellcheck")
    scripts = [name for name in tracked if re.match(rb"#!.*[ /](ba)?sh\n", (ROOT / name).read_bytes())]
    run("shellcheck", *scripts, cwd=ROOT)
    assert_none(f"{name}: unset CDPATH" for name in scripts
                if re.search(r"^[^#\n]*\bcd ", read(name), re.M) and "\nunset CDPATH\n" not in read(name))


def test_hidden_characters():
    """No text contains a character that reviewers can't see, such as a control character, a direction mark or a line
    separator: whether a comment ends there depends on the language. Test cases contain some, but no carriage return."""
    found = []
    for name in tracked:
        if not name.endswith("/getopts_shell"):
            chars = set((ROOT / name).read_bytes().decode("utf-8")) - {"\n", "\t"}
            found += [f"{name}: {char!a}" for char in chars if char == "\r" or not name.endswith(".rows")
                      and unicodedata.category(char) in ("Cc", "Cf", "Zl", "Zp")]
    assert_none(found)


def test_files_in_git():
    """Git shows what changed in all files but the shell binaries, and checks out all with the same line ends, whatever its
    settings."""
    need("git")
    if not (ROOT / ".git").exists():
        pytest.skip("no git repository: a release has none")
    lines = run("git", "ls-files", "--eol", cwd=ROOT)[0].splitlines()
    assert len(lines) > 100
    assert_none(line for line in lines if not re.search(r"\b(eol=lf|attr/-text)\s", line))
    empty = run("git", "hash-object", "-t", "tree", os.devnull)[0].strip()
    not_shown = re.findall("^-.*\t(.*)", run("git", "diff", "--numstat", empty, cwd=ROOT)[0], re.M)
    assert_none(name for name in not_shown if not re.fullmatch(r"bindings/shell/\w+/getopts_shell", name))


scripts = [name for name in tracked if (ROOT / name).read_bytes().startswith(b"#!")]


def test_scripts_are_executable():
    """Scripts, and files that a page runs, with or without their folder."""
    runs = re.findall(r"(?:^ {4}|[`(]|\w=\S+ )(?:\./)?(?!test_)([\w./-]+\.(?:sh|py))(?= [^`|])", "\n".join(pages.values()), re.M)
    assert {"bindings/rust/erase.py", "bindings/c/install.sh"} <= set(runs)
    files = scripts + [name for name in tracked for path in runs if f"/{name}".endswith(f"/{path}")]
    assert_none(f"{name} isn't executable" for name in files if not os.access(ROOT / name, os.X_OK))


@pytest.mark.parametrize("name", ["bindings/c/install.sh", "bindings/shell/install.sh"])
def test_help_of_installers(name):
    """The comment at the top."""
    top = re.match(r"#!.*\n((?:#.*\n)+)", read(name))[1]
    assert run(ROOT / name, "--help") == run(ROOT / name, "-h") == (re.sub("^# ?", "", top, flags=re.M), "")


def test_folders_of_others(tmp_path):
    """Tests start programs in no folder in which, or above which, other users may put files. Without a home, test.sh stops:
    it would use /tmp/.cache."""
    others = [folder for folder in tmp_path.parents if folder.stat().st_mode & 0o002 or folder.stat().st_uid not in (0, os.getuid())]
    assert not others
    words = ["env", "-i", f"PATH={os.environ['PATH']}", "bash", ROOT / "test.sh", "--quick", "--no-install", "-k", "none"]
    assert run(*words, status=2)[1] == "test.sh: set HOME or XDG_CACHE_HOME\n"


@pytest.mark.parametrize("manifest", [name for name in tracked if name.endswith("/Cargo.toml")])
def test_rust_format(manifest):
    need("cargo")
    need_rustfmt()
    run("cargo", "fmt", "--check", cwd=(ROOT / manifest).parent)
