"""The C library: its functions on five targets, built by each C compiler on this machine, and its installation."""

import functools
import os
import random
import re
import shlex
import shutil
import signal
import subprocess
import textwrap
import time

import generate
import model
import pytest
import texts
from conftest import (MARGIN, ROOT, answer, check_definitions, check_page, copy_tree, files_in, need, need_compiler, planted_links, read_only, run,
                      script)
from targets import OLD, TARGETS, cargo, cargo_for, need_cargo, need_target, runner, rust_minor, shared_folder

C = ROOT / "bindings/c"
HEADER, PAGE, ON_WINDOWS = ((C / name).read_text() for name in ("getopts.h", "README.md", "WINDOWS.md"))
FUNCTIONS = set(re.findall(r"(getopts_[a-z_]*)\(", HEADER))
VERSION = re.search(r'GETOPTS_VERSION "(.*)"', HEADER)[1]
MAJOR = VERSION.partition(".")[0]
SONAME = f"libgetopts.so.{MAJOR}"
WARNINGS = "-std=c11 -Wall -Wextra -Wpedantic -Wshadow -Wconversion -Wno-sign-conversion -Werror".split()
PLUS_WARNINGS = "-Wall -Wextra -Wpedantic -Wold-style-cast -Werror".split()
SANITIZERS = "-fsanitize=address,undefined -fno-sanitize-recover=all -g -O1".split()
WRAPS = "-Wl,--wrap=malloc,--wrap=realloc,--wrap=free"
HOST = "x86_64-unknown-linux-gnu"
WINDOWS = "x86_64-pc-windows-gnu"
# For each build: the compiler with its flags, the library's target (None: this machine, with the cargo on its path),
# and the command that runs its programs (None: the one in targets.py).
BUILDS = {
    "gcc": (["gcc", "-O2"], None, []), "clang": (["clang", "-O2"], None, []),
    "gcc-san": (["gcc", *SANITIZERS], None, []), "clang-san": (["clang", *SANITIZERS], None, []),
    "short-enums": (["gcc", "-O2", "-fshort-enums"], None, []),
    "valgrind": (["gcc", "-g"], None, "valgrind -q --error-exitcode=9 --leak-check=full".split()),
    "musl": (["musl-gcc", "-static", "-O2"], None, []), "old": (["gcc", "-O2"], HOST, []),
    "aarch64": (["aarch64-linux-gnu-gcc", "-O2"], "aarch64-unknown-linux-gnu", None),
    "i686": (["i686-linux-gnu-gcc", "-O2"], "i686-unknown-linux-gnu", None),
    "wasm": (["clang", "--target=wasm32-wasi", "-O2"], "wasm32-wasi", None),
    "windows": (["x86_64-w64-mingw32-gcc", "-O2", "-D__USE_MINGW_ANSI_STDIO=1"], WINDOWS, None),
}


@pytest.fixture(scope="module")
def library(tmp_path_factory):
    """library(TARGET): the archive built by cargo, once per target."""
    @functools.cache
    def of(target):
        folder = copy_tree(tmp_path_factory.mktemp("c"), "bindings/c", "bindings/rust") / "bindings/c"
        if target:
            words = ["build", "--release", "--ignore-rust-version"]
            cargo_for(target, folder, *words, env={"RUSTFLAGS": "--cfg old_rustc"})
        else:
            cargo(folder, "build", "--release", env={"RUSTFLAGS": "-D warnings"})
        return folder / "target" / (target or "") / "release/libgetopts.a"

    return of


# One worker builds everything for a target.
pytestmark = pytest.mark.xdist_group("C")


def builds(*names):
    """Parameters for the fixture `build`. --quick tests four builds."""
    groups = {name: [pytest.mark.xdist_group(f"C for {target}")] if target else [] for name, (_, target, _) in BUILDS.items()}
    full = {name: [] if name in ("gcc", "clang", "clang-san", "short-enums") else [pytest.mark.full] for name in names}
    return [pytest.param(name, marks=groups[name] + full[name]) for name in names]


@pytest.fixture(params=builds(*BUILDS))
def build(request, tmp_path, library):
    """Builds a program with one of the compilers, and returns the command that runs it."""
    compiler, target, by = BUILDS[request.param]
    need_compiler(*compiler)
    need(*(by or [])[:1])
    by = runner(target, tmp_path) if by is None else by
    archive = library(target)

    def built(source, *flags):
        program = tmp_path / f"program{'.exe' if request.param == 'windows' else ''}"
        run(*compiler, *WARNINGS, source, *flags, archive, "-o", program)
        return [*by, program]

    built.name = request.param
    return built


def test_results_and_errors_of_calls(build):
    assert run(*build(C / "tests/layer.c"))[0].strip() == "all tests passed"


@pytest.mark.parametrize("build", builds("gcc", "clang-san", "musl"), indirect=True)
def test_misspelt_names(build):
    """In strict mode, each function with a name ends the program: after words are read, rejected, or neither."""
    program = build(C / "tests/layer.c")
    for words in ("-h -ox", "--nope", "-h", ""):
        assert run(*program, "none", *words.split()) == ("", "")
        for function, name in [*((one, "hepl") for one in "cpvl"), ("N", "NULL")]:
            said = run(*program, function, *words.split(), status=-6)
            assert said == ("", f"getopts.h: no option has the name '{name}'\n"), function


# ---- answers on random tables and words, compared with tests/model.py

STOP, LONG_ONLY, REPEAT, STRICT, BAD = 16, 32, 64, 128, 7
FREE_WORD = 0x7FFFFFFF
# In C, an option that must be given may be repeated: by its kind, or in the mode REPEAT. These are in the order of C's
# numbers, whatever the model's order is.
OCCURS = ["optional", "req", "multi", "reqmulti"]
STATUSES = ["", "ArgumentMissing", "UnrecognizedOption", "OptionMissing", "OptionDuplicated", "UnexpectedArgument"]
# Whether a long name is valid.
IS_LONG = re.compile("(?=..|[^\0-\x7f])[^-\0\U0010ff80-\U0010ffff][^\0\U0010ff80-\U0010ffff]*", re.S).fullmatch
# Mistakes in a row: a field and its text.
MISTAKES = [(0, "ab"), (0, "-"), (0, "\udcff"), (1, "x"), (1, "--x"), (1, "a\udcff"), (2, "\U0010ffff"), (3, "\udcc3"), (4, 3), (4, 16)]
# Parts of words: characters, bytes that aren't UTF-8, beginnings of characters, and a long text.
PARTS = ["-", "--", "a", "=", "é", "日", "\ufeff", "\U0010ffff", "\U0010ff7f", "\udc80", "\udcff", "\udcf4", "\udcc3", "\udce2\udc82",
         "\udce6\udc97", "\udcc0\udc80", "\udced\udca0\udc80", "\udced\udcb0\udc80", "\udcf4\udc90\udc80\udc80", "0123456789" * 50]


def random_case(rng):
    """Modes, columns, rows (whose last field is the kind), the row with a mistake (None: no row), and words."""
    usual = rng.choice([1, 9, 9, 9])
    rows, seen, often = [], {"-", "\0", ""}, [occur for occur in OCCURS for _ in range(1 if "req" in occur else usual)]
    while not rows:
        case = generate.options(rng, 6)
        for group in case.groups:
            group.short, group.long = ("" if name in seen else name for name in (group.short, IS_LONG(group.long) and group.long or ""))
            seen |= {group.short, group.long}
            group.desc = " ".join(rng.choices(["a", "four", "sevens7", "elevenchars", "\n"], k=rng.randrange(30)))
            group.occur, group.hint = rng.choice(often), rng.choice(texts.HINTS) if group.kind != "no" else ""
        case.groups = [group for group in case.groups if group.main]
        rows = [[*(text or rng.choice([None, ""]) for text in (group.short, group.long, group.hint, group.desc)),
                 model.KINDS.index(group.kind) + 4 * OCCURS.index(group.occur)] for group in case.groups]
    wrong = rng.randrange(len(rows)) if rng.random() < 0.1 else None
    if wrong is not None and rng.random() < 0.2:
        rows.append(rows[wrong])
        wrong = len(rows) - 1
    elif wrong is not None:
        field, text = rng.choice(MISTAKES)
        rows[wrong][field] = text
    words = [word.replace("\0", "") for word in generate.words(rng, case, rng.choice([2, 4, 8, 24]))][:24]
    if rng.random() < 0.25:
        words.insert(rng.randrange(len(words) + 1), "".join(rng.choices(PARTS, k=rng.randrange(5))))
    return 16 * rng.randrange(16), rng.choice([0, rng.randrange(24, 99), 2**32 - 1]), rows, wrong, words


def in_bytes(text):
    return (text or "").encode(errors="surrogateescape")


def said(field):
    """A field as answers.c reads and prints it."""
    field = in_bytes(field) if isinstance(field, str) else b"%d" % field if isinstance(field, int) else field
    return b"-" if field is None else b"=" + field


def fields_of(modes, columns, rows, names, words):
    """A case as the programs read it."""
    fields = [modes, columns, len(rows), *(field for row in rows for field in row), *names, None, *words, None]
    return b"".join(said(field) + b"\0" for field in fields)


def first_byte(text, character=model.first_character):
    """The name of an unknown character in a cluster: its first byte, from U+10FF80 up."""
    name = character(text)
    return name[:1] if name >= "\U0010ff80".encode() else name


def said_of_option(defined, given):
    """The answers about an option's occurrences."""
    values = [value for _, value in given]
    yield from [int(defined), len(values)]
    for nth in [*range(len(values) + 1), -1]:
        at, value = given[nth] if given and nth < len(values) else (-1, None)
        number = re.fullmatch(rb"[+-]?\d{1,9}", value or b"")
        kept = [int(value is None or bool(number)), int(number[0]) if number else 42]
        # On some targets, longer numbers fit in a long.
        yield from [at, value, *([..., ...] if re.fullmatch(rb"[+-]?\d{10,19}", value or b"") else kept)]


def answers(modes, columns, rows, names, words):
    """The answers for a valid table; `...` for help texts that the rules don't determine."""
    groups = [model.Group(in_bytes(short), in_bytes(long), model.KINDS[kind % 4], OCCURS[kind // 4], in_bytes(description),
                          in_bytes(hint)) for short, long, hint, description, kind in rows]
    last = [modes & REPEAT and "multi" not in group.occur for group in groups]
    for group, counts in zip(groups, last):
        group.occur = {"optional": "multi", "req": "reqmulti"}[group.occur] if counts else group.occur
    options = model.Options(groups, modes & STOP, modes & LONG_ONLY)
    defined = [options.resolve(name) is not None for name in names]
    read = options.parse(words)
    fault, name = read if len(read) == 2 else ("", b"")
    line = [] if fault else options.canonical(read) or []
    read = options.parse(words, with_counts=False) if fault.startswith("Option") else read
    read_all = len(read) > 2
    occurrences, free, start, order = read if read_all else ([], [], None, [])
    message = model.TEXTS[fault] % name if fault else b""
    yield from [b"", *map(int, defined), STATUSES.index(fault), message, name if fault else b""]
    for place, text in order:
        yield from [FREE_WORD if place is None else place, text]
    yield from [-1, *([0, b""] if read_all else [STATUSES.index(fault), message])]
    for name, is_defined in zip(names, defined):
        place = options.resolve(name)
        given = [(at, value) for mine, at, value in occurrences if mine == place]
        yield from said_of_option(is_defined, given[-1:] if is_defined and last[place] else given)
    yield from [len(free), *free, None, -1 if start is None else start, STATUSES.index(fault), *line, None]
    measured = all(model.is_measured(it.short, it.long, it.hint) and model.is_measured(it.desc, of=rb"[ -~\n]*") for it in groups)
    yield from [options.usage(b""), options.usage(b"brief", columns)] if measured else [..., ...]
    yield options.short_usage(b"brief")


def answers_if_wrong(place, names):
    """The answers if a row is wrong. The message begins with its place."""
    wrong = b"table[%d]: " % place
    nothing = [one for _ in names for one in said_of_option(False, [])]
    return [wrong, *(0 for _ in names), BAD, wrong, b"", -1, BAD, wrong, *nothing, 0, None, -1, BAD, None, None, None, None]


@functools.cache
def random_cases(count):
    """The input for answers.c, and for each case the arguments of `answers` and the answers."""
    rng, fields, wanted = random.Random(count), [], []
    with pytest.MonkeyPatch.context() as patch:
        patch.setattr(model, "first_character", first_byte)
        for _ in range(count):
            modes, columns, rows, wrong, words = random_case(rng)
            names = [name for row in rows for name in row[:2] if name]
            names += [] if modes & STRICT else ["", "nope", "\udcff", texts.near(rng, names[0] if names else "")]
            case = modes, columns, rows, [*map(in_bytes, names)], [*map(in_bytes, words)]
            fields.append(fields_of(*case))
            wanted.append((case, [*(answers(*case) if wrong is None else answers_if_wrong(wrong, names))]))
    return b"".join(fields), wanted


def rows_of(case, answers):
    """The case and C's answers as rows of getopts_vectors. None if one of them has what only C has: the mode REPEAT, mistakes in
    the table, bytes that aren't UTF-8, and characters that stand for such bytes."""
    modes, columns, table, names, words = case
    is_text = lambda text: re.fullmatch("[^\ud800-\udfff\U0010ff80-\U0010ffff]*", os.fsdecode(text))
    if answers[0] or modes & REPEAT or any(row[4] // 4 == 3 for row in table) or not all(map(is_text, words)):
        return
    it = iter(answers[1 + len(names):])
    fault, text, name = STATUSES[next(it)], next(it), next(it)
    order = [(place, next(it)) for place in iter(lambda: next(it), -1)]
    next(it), next(it)  # The status and the message of a loop.
    given = [(next(it), [[next(it) for _ in range(4)] for _ in range(next(it) + 2)][:-2]) for _ in names]
    free = [next(it) for _ in range(next(it) + 1)][:-1]
    start, _, line, usage, usage_in, short = next(it), next(it), [*iter(lambda: next(it), None)], *it
    accepted, refused = ("accepted", "-" if start < 0 else start, *free), ("refused", fault, name)
    order = [part for place, text in order for part in ([b"=" + text] if place == FREE_WORD else [place, model.optional(text)])]
    yield from [(("case", "c"),), (("style", "stop" if modes & STOP else "floating"),)]
    yield ("mode", "long-only" if modes & LONG_ONLY else "ordinary"),
    for *strings, kind in table:
        own, long, hint, description = map(in_bytes, strings)
        yield ("opt", own, long, description, hint, model.KINDS[kind % 4], OCCURS[kind // 4]),
    yield ("words", *words), refused if fault else accepted
    yield ("error",), ("error", text if fault else "nothing")
    yield ("canonical", *words), ("canonical", *(refused if fault else ["line", *line] if line else ["none"]))
    if not fault:
        yield ("parse_in_order", *words), ("parse_in_order", "order", *order)
    yield ("short", "brief"), ("short", short)
    if usage is not ...:
        yield from [(("usage", ""), ("usage", usage)), (("usage_in", columns, "brief"), ("usage_in", usage_in))]
    if not fault or fault.startswith("Option"):
        yield ("ignoring_counts", *words), accepted
        for name, (is_defined, own) in zip(names, given):
            if not is_text(name):
                continue
            yield ("opt_defined", name), ("opt_defined", name, "true" if is_defined else "false")
            if is_defined:
                yield ("opt_positions", name), ("opt_positions", name, *(at for at, *_ in own))
                yield ("opt_strs", name), ("opt_strs", name, *(value for _, value, *_ in own if value is not None))


@pytest.mark.full
def test_answers_match_definitions(cases, tmp_path):
    """What C answers to random cases is what the definitions give."""
    rows = [b"\n> ".join(model.line(*line) for line in row) for one in random_cases(cases(10_000))[1] for row in rows_of(*one)]
    (tmp_path / "c.rows").write_bytes(b"\n".join(rows))
    check_definitions(tmp_path / "c.rows")


# The linkers for wasm and Windows can't wrap malloc, and valgrind takes too long.
@pytest.mark.parametrize("build", builds("gcc", "clang", "gcc-san", "clang-san", "short-enums", "musl", "old", "aarch64", "i686"),
                         indirect=True)
def test_calls_when_allocations_fail(build, cases):
    printed, _ = run(*build(C / "tests/answers.c", "-DREFUSES", WRAPS), input=random_cases(cases(400))[0])
    assert re.fullmatch(r"\d+ allocations failed\s+", printed), printed


def test_answers_match_model(build, cases, tmp_path):
    fields, wanted = random_cases(cases(10_000 if build.name == "gcc" else 2_000))
    # With pipes, node would lose bytes.
    (tmp_path / "cases").write_bytes(fields)
    with open(tmp_path / "cases", "rb") as file, open(tmp_path / "answers", "wb") as to:
        subprocess.run([*build(C / "tests/answers.c")], stdin=file, stdout=to, check=True)
    printed = (tmp_path / "answers").read_bytes()
    printed = iter((printed.replace(b"\r\n", b"\n") if build.name == "windows" else printed).split(b"\0"))
    for case, answers in wanted:
        for nth, answer in enumerate(answers):
            got = next(printed)
            fits = got.startswith if str(answer).startswith("b'table[") else got.__eq__
            assert answer is ... or fits(said(answer)), (case, nth, answer, got)
    assert [*printed] == [b""]


def test_no_warnings_and_one_unsafe_file(tmp_path):
    """Clippy has no warnings, only one file has unsafe code, and no query changes anything that threads share: getopts.h names
    the functions that do."""
    folder = copy_tree(tmp_path, "bindings/c", "bindings/rust") / "bindings/c"
    cargo(folder, "clippy", "--release", "--", "-D", "warnings")
    sources = {path.name: path.read_text() for path in (C / "src").glob("*.rs")}
    assert {name for name, text in sources.items() if re.search(r"\bunsafe\b(?![_ ]code)", text)} == {"c.rs"}
    assert "#![deny(unsafe_code)]" in sources["lib.rs"]
    assert not re.search("Cell|Atomic", "".join(sources.values()))
    named = re.search(r"threads may share a struct getopts as long as none.*?calls(.*?) on it", HEADER, re.S)[1]
    changing = re.findall(r"^\w.*\b(getopts_\w+)\(struct getopts \*", HEADER, re.M)
    mutable = re.findall(r"fn (getopts_\w+)\(\s*options: \*mut Getopts\b", sources["c.rs"])
    assert {*re.findall(r"getopts_\w+", named)} == {*changing} == {*mutable}


@pytest.mark.parametrize("compiler", ["gcc -std=c99", "clang -std=c99", "g++ -std=c++11", "clang++ -std=c++20", "gcc -std=c2x"])
def test_header_has_no_warnings(compiler, tmp_path):
    need(compiler.split()[0])
    source = tmp_path / ("header.cc" if "++" in compiler else "header.c")
    source.write_text(f'#include "{C}/getopts.h"\n#include "{C}/getopts.h"\n')
    run(*compiler.split(), *"-Wall -Wextra -Wpedantic -Wredundant-decls -Wundef -Werror -fsyntax-only".split(), source)


MISUSES = [  # what a function does with the options that it creates, gcc's warning, and clang's
    ("getopts_delete(options); getopts_delete(options);", "-Wanalyzer-double-free", ""),
    ("free(options);", "-Wanalyzer-mismatching-deallocation", ""),
    ('char *text = getopts_usage(options, ""); puts(text ? text : ""); getopts_delete(options);', "-Wanalyzer-malloc-leak", ""),
    ('char *text = getopts_usage_in(options, "", 9); puts(text ? text : ""); getopts_delete(options);', "-Wanalyzer-malloc-leak", ""),
    ('getopts_short_usage(options, ""); getopts_delete(options);', "-Wunused-result", "-Wunused-result"),
    ("getopts_delete(options); getopts_new(table, GETOPTS_ORDINARY);", "-Wunused-result", "-Wunused-result"),
    ("getopts_delete(options); getopts_delete(getopts_new(table, GETOPTS_NO));", "-Wenum-conversion", "-Wenum-conversion"),
    ("getopts_delete(options); getopts_delete(getopts_new(table, GETOPTS_STOP | GETOPTS_LONG_ONLY));", "", ""),
    ('free(getopts_usage(options, "")); getopts_delete(options);', "-Wanalyzer-mismatching-deallocation", ""),
    ('getopts_free(getopts_usage(options, "")); getopts_free(getopts_short_usage(options, "")); getopts_delete(options);', "", ""),
]


@pytest.mark.parametrize("compiler", ["gcc -fanalyzer", "clang"])
def test_misuse_is_reported(compiler, tmp_path):
    need(compiler.split()[0])
    if compiler != "clang" and int(run("gcc", "-dumpversion")[0].partition(".")[0]) < 11:
        pytest.skip("gcc is older than 11")
    for body, *known in MISUSES:
        (tmp_path / "misuse.c").write_text(f"""#include "{C}/getopts.h"
#include <stdio.h>
#include <stdlib.h>
void misuse(const struct getopts_option *table);
void misuse(const struct getopts_option *table) {{
    struct getopts *options = getopts_new(table, GETOPTS_ORDINARY);
    {body}
}}
""")
        said = run(*compiler.split(), *WARNINGS[:-1], "-c", tmp_path / "misuse.c", "-o", tmp_path / "misuse.o")[1]
        warning = known[compiler == "clang"]
        assert warning in said if warning else said == "", (body, said)
    if compiler != "clang":
        read = [run("gcc", "-E", *flags, C / "getopts.h")[0].count("__malloc__") for flags in ((), ("-D__EDG__",))]
        assert read == [4, 0]


UTF8 = """#include <getopts.h>
#include <stdio.h>

int _dowildcard = -1;

int main(int argc, char **argv) {
    static const struct getopts_option table[] = {
        { NULL, "größe", "N", NULL, GETOPTS_YES }, { NULL, NULL, NULL, NULL, GETOPTS_NO },
    };
    struct getopts *options = getopts_new(table, GETOPTS_ORDINARY);
    if (getopts_read(options, argc - 1, argv + 1) != GETOPTS_OK)
        printf("%s\\n", getopts_message(options));
    for (char *const *name = getopts_free_words(options); *name != NULL; name++)
        printf("%s %s %d\\n", getopts_value(options, "größe", 0), *name, fopen(*name, "r") != NULL);
    getopts_delete(options);
}
"""


@pytest.mark.parametrize("build", builds("windows"), indirect=True)
def test_words_in_utf8_on_windows(build, tmp_path):
    """With the page's manifest, words are UTF-8, and names of files too. With the page's line, wildcards are expanded."""
    need("x86_64-w64-mingw32-windres")
    manifest, command = re.search(r"```xml\n(.*?)```.*?^    (.* -o utf8\.o)$", ON_WINDOWS, re.M | re.S).groups()
    assert "`int _dowildcard = -1;`" in ON_WINDOWS
    for name, text in [("utf8.c", UTF8), ("utf8.manifest", manifest), ("日本.txt", "")]:
        (tmp_path / name).write_text(text)
    run("sh", "-c", command, cwd=tmp_path)
    program = build(tmp_path / "utf8.c", "-I", C, tmp_path / "utf8.o")
    for word in ("日本.txt", "*.txt"):
        assert run(*program, "--größe=é", word, cwd=tmp_path)[0].split() == ["é", "日本.txt", "1"]
    program = build(tmp_path / "utf8.c", "-I", C)
    assert b"Unrecognized option" in answer(*program, "--größe=é", cwd=tmp_path)[0]


ORDER = [  # arguments, output lines
    ("-qv", "verbose"), ("-vq", "quiet"), ("-v --silent", "quiet"), ("--verbose -q --quiet -v -q", "quiet"),
    ("-q f -- -v", "take ./f,take ./-v,quiet"), ("-C a f -C b g", "take a/f,take b/g,verbose"),
    ("f -Ca g -vXb h --directory=c -X d=e -q i", "take ./f,take a/g,skip b,take a/h,skip d=e,take c/i,quiet"),
    ("-Xa -C- - --directory -- -- --", "skip a,take -/-,take --/--,verbose"),
]


def test_options_in_order_of_words(build):
    program = build(C / "order.c", "-I", C)
    for words, said in ORDER:
        assert run(*program, *words.split())[0].splitlines() == said.split(","), words
    assert run(*program, "-q", "-o", status=2)[1].strip() == "order: Unrecognized option: 'o'"


# ---- installed

HEAD = [  # status, output, errors, arguments
    (0, "1\n2\n", "", ["-n2", "FILE"]),
    (0, "Usage: head [options] FILE..\n", "", ["--help"]),
    (0, "Usage: head [options] FILE..\n", "", ["-h", "-h", "FILE"]),
    (2, "", "head: Unrecognized option: 'nope'\n", ["--nope"]),
    (2, "", "head: Unrecognized option: 'x'\n", ["--x"]),
    (2, "", "head: Unrecognized option: 'x'\n", ["-x"]),
    (2, "", "head: Unrecognized option: '5'\n", ["-5"]),
    (1, "", "head: -5: No such file or directory\n", ["--", "-5"]),
    (2, "", "head: Unrecognized option: 'x\udcff'\n", ["--x\udcff"]),
    (0, "1\n2\n", "", ["-n2", "\udcff.txt"]),
    (2, "", "head: '2x' isn't a number of lines\n", ["-n", "2x", "FILE"]),
    (2, "", "head: '-1' isn't a number of lines\n", ["--lines=-1", "FILE"]),
    (1, "1\n2\n", "head: nofile: No such file or directory\n", ["-n", "2", "nofile", "FILE"]),
    (1, "", "head: .: Is a directory\n", ["."]),
]


def need_install(compiler="cc"):
    """Skips the test if a tool of install.sh is missing."""
    need_compiler(compiler)
    need("ld", "objcopy", "ar")
    need_cargo(C)


@pytest.fixture(scope="module")
def prefix(tmp_path_factory):
    need_install()
    need("pkg-config")
    prefix = tmp_path_factory.mktemp("c") / "a prefix"
    run("sh", C / "install.sh", prefix)
    return prefix


@pytest.fixture(params=["getopts", "getopts-static"])
def flags(request, prefix, monkeypatch):
    if request.param == "getopts":
        monkeypatch.setenv("LD_LIBRARY_PATH", str(prefix / "lib"))
    env = {"PKG_CONFIG_PATH": str(prefix / "lib/pkgconfig")}
    assert run("pkg-config", "--modversion", request.param, env=env)[0] == f"{VERSION}\n"
    # As if another package of the same prefix came first.
    return [f"-L{prefix}/lib", *shlex.split(run("pkg-config", "--cflags", "--libs", request.param, env=env)[0])]


@pytest.mark.parametrize("compiler", ["gcc", "clang", "gcc-san", "clang-san"])
def test_example(compiler, flags, tmp_path):
    command = BUILDS[compiler][0]
    need_compiler(*command)
    run(*command, *WARNINGS, C / "head.c", *flags, "-o", tmp_path / "head")
    for name in ("FILE", "\udcff.txt"):
        (tmp_path / name).write_text("1\n2\n3\n")
    for status, output, errors, words in HEAD:
        out, err = run(tmp_path / "head", *words, status=status, cwd=tmp_path)
        assert (out if words[0] not in ("--help", "-h") else out[:len(output)], err) == (output, errors), words
    with open("/dev/full", "w") as full:
        done = subprocess.run([tmp_path / "head", tmp_path / "FILE"], stdout=full, stderr=subprocess.PIPE)
    assert (done.returncode, done.stderr) == (1, b"head: can't write its output\n")
    assert run(tmp_path / "head", "-h")[0] == re.search(r"^```text\n(.*?)^```", PAGE, re.M | re.S)[1]


def test_example_without_memory(prefix, tmp_path):
    """If there is no memory for the help, head's status is 3; if there is none before, 2."""
    for function, status, said in [("usage", 3, ""), ("new", 2, "head: Out of memory\n")]:
        (tmp_path / "wrap.c").write_text(f"void *__wrap_getopts_{function}(void);\n"
                                         f"void *__wrap_getopts_{function}(void) {{ return (void *)0; }}\n")
        run("cc", "-isystem", prefix / "include", C / "head.c", tmp_path / "wrap.c", f"-Wl,--wrap=getopts_{function}",
            prefix / "lib/libgetopts.a", "-o", tmp_path / "head")
        assert run(tmp_path / "head", "--help", status=status) == ("", said)


CMAKE = """cmake_minimum_required(VERSION 3.6)
project(program C)
%s
add_executable(program %s)
target_link_libraries(program %s)
"""
BY_PACKAGE = f"find_package(getopts {VERSION.rpartition('.')[0]} REQUIRED)"


def built_by_cmake(find, target, source, room, *flags, env=None):
    """The program that CMake builds from a source and a library."""
    need("cmake", "make")
    room.mkdir(exist_ok=True)
    (room / "CMakeLists.txt").write_text(CMAKE % (find, source, target))
    run("cmake", "-S", room, "-B", room, *flags, env=env)
    run("cmake", "--build", room)
    return room / "program"


@pytest.mark.parametrize("shared", [True, False])
@pytest.mark.parametrize("by_package", [True, False])
def test_cmake(by_package, shared, prefix, tmp_path):
    """CMake finds both libraries, by the package or by pkg-config."""
    need("readelf")
    module = "getopts" if shared else "getopts-static"
    find = f"find_package(PkgConfig REQUIRED)\npkg_check_modules(GETOPTS REQUIRED IMPORTED_TARGET {module})"
    target = "PkgConfig::GETOPTS"
    if by_package:
        find, target = 2 * f"{BY_PACKAGE}\n", f"getopts::{'shared' if shared else 'static'}"
        find = f"set(getopts_lib own)\n{find}if(DEFINED _getopts_lib OR NOT getopts_lib STREQUAL own)\nreturn()\nendif()"
    env = {"PKG_CONFIG_PATH": str(prefix / "lib/pkgconfig"), "getopts_ROOT" if by_package else "NONE": str(prefix)}
    program = built_by_cmake(f"cmake_policy(SET CMP0074 NEW)\n{find}", target, C / "head.c", tmp_path, env=env)
    assert run(program, "-n1", tmp_path / "CMakeLists.txt")[0] == CMAKE.splitlines(True)[0]
    assert (f"[{SONAME}]" in run("readelf", "-d", program)[0]) == shared


@pytest.mark.parametrize("version, fits", [(VERSION, True), ("0.9", False), ("1.99", False), ("2", False), (f"{VERSION} EXACT", True),
                                           ("", True), ("", False)])
def test_version_of_cmake_package(version, fits, prefix, tmp_path):
    """Without a version, whether the project's pointers have the library's size."""
    need("cmake")
    size = "" if version or fits else "set(CMAKE_SIZEOF_VOID_P 2)\n"
    (tmp_path / "CMakeLists.txt").write_text(f"{CMAKE.partition('%s')[0]}{size}find_package(getopts {version} REQUIRED)\n")
    said, status = answer("cmake", "-S", tmp_path, "-B", tmp_path, f"-DCMAKE_PREFIX_PATH={prefix}")
    assert (status == 0) == fits and (fits or b"version: " in said.lower()), said


@pytest.mark.parametrize("compiler", ["g++", "clang++"])
def test_installed_for_cpp(compiler, flags, tmp_path):
    need_compiler(compiler)
    run(compiler, *PLUS_WARNINGS, C / "tests/installed.cpp", *flags, "-o", tmp_path / "plus")
    assert run(tmp_path / "plus", *"--verbose -ox --verbose a --verbose".split())[0] == "2 x a --verbose\n"


def test_exports(prefix):
    """Both libraries export exactly the functions declared in getopts.h. Those of the shared one have a version. The
    archive has no variables, so there is no global state."""
    need("nm", "readelf")
    shared, archive = prefix / "lib/libgetopts.so", prefix / "lib/libgetopts.a"
    for words, version in ((["-D", shared], f"@@GETOPTS_{MAJOR}"), (["-g", archive], "")):
        listed = run("nm", "--defined-only", *words)[0].splitlines()
        names = {line.split()[-1] for line in listed if re.match(r"[0-9a-f]{8}.* [^A] ", line)}
        assert names == {name + version for name in FUNCTIONS}
    asked = {line.split()[-1] for line in run("nm", "-u", archive)[0].splitlines() if " U " in line}
    assert asked <= set("abort bcmp free malloc memcmp memcpy memmove memset realloc strlen write".split())
    # Of each section, name, type, address, offset and size. Rust 1.85 has a variable that nothing changes.
    filled = r" \.t?(?:bss|data)(?!\.rel\.ro|\.__rust_no_alloc_shim)\S* +\w+ +\w+ \w+ (?!0+ )"
    assert not re.search(filled, run("readelf", "-SW", archive)[0])


def page_blocks():
    """What getopts(3) shows: code as in getopts.h, and each paragraph or item of a comment as one line."""
    header = re.sub(r"^#if defined __GNUC__.*?^#endif\n|^GETOPTS_FREED_BY[^\n]*\n", "", HEADER, flags=re.M | re.S)
    calls = "".join(re.findall(r"^[a-z].*\);\n", header, re.M))
    yield from ["GETOPTS(3) Library Functions Manual GETOPTS(3)", "NAME"]
    yield from [f"{MARGIN}getopts - parse command-line options from a table", "SYNOPSIS", f"{MARGIN}#include <getopts.h>"]
    yield from [textwrap.indent(calls.strip(), MARGIN), "DESCRIPTION"]
    for block in re.findall(r"^/\*.*?(?=\n\n)", header.partition("#ifdef __cplusplus\n}")[0], re.M | re.S):
        comment, _, code = block.removeprefix("/*").partition("*/\n")
        front = "" if code.startswith("#ifndef") else "".join(f"{MARGIN}{line}\n" for line in code.splitlines())
        margin = f"{MARGIN}    " if front else MARGIN
        for part in re.sub(r"^ \*? ?|\*/$", "", comment, flags=re.M).split("\n\n"):
            first, *items = re.split("^- ", part.replace("`", ""), flags=re.M)
            texts = [" ".join(text.split()) for text in [first, *(f"• {item}" for item in items)] if text.strip()]
            for text in [part.rstrip()] if part.startswith("    ") else texts:
                yield front + textwrap.indent(text, margin)
                front = ""
    yield from ["SEE ALSO", f"{MARGIN}getopt_long(3)", f"getopts {VERSION} GETOPTS(3)"]


def test_manual_page(prefix):
    """getopts(3), which is generated from getopts.h. Each function's page refers to it."""
    page = prefix / "share/man/man3/getopts.3"
    check_page(page, page_blocks())
    for name in FUNCTIONS:
        assert (page.parent / f"{name}.3").read_text() == ".so man3/getopts.3\n"


def test_installed_documents(prefix):
    """The documents are installed. getopts.h names no file that isn't, and the page, otherwise as it is here, links to none."""
    named, papers = set(re.findall(r"[\w.-]+\.(?:c|md|sh)\b", HEADER)), prefix / "share/doc/getopts"
    assert {"head.c", "order.c"} <= named <= {path.name for path in prefix.rglob("*")}
    for name in ("WINDOWS.md", "head.c", "order.c", "within.c", "../../LICENSE-MIT", "../../LICENSE-APACHE", "../../NOTICE"):
        assert (papers / os.path.basename(name)).read_bytes() == (C / name).read_bytes()
    link, page = re.compile(r"\[([^]]*)\]\(([^)#]*)[^)]*\)"), (papers / "README.md").read_text()
    assert link.sub(r"\1", page) == link.sub(r"\1", PAGE)
    assert {it[2] for it in link.finditer(page)} == {"", "WINDOWS.md", "head.c", "order.c", "within.c"}


def test_program_size(prefix, tmp_path):
    ranges = re.search(r"by (\d+) to\s+(\d+) KB,\s+or\s+by (\d+) to\s+(\d+) KB\s+if\s+you\s+link", PAGE).groups()
    (tmp_path / "empty.c").write_text("int main(void) { return 0; }\n")
    library = ["-isystem", prefix / "include", prefix / "lib/libgetopts.a"]

    def size(*words):
        run("cc", "-O2", "-s", *words, "-o", tmp_path / "program")
        return (tmp_path / "program").stat().st_size / 1000

    for source in ("head.c", "order.c"):
        for more, least, most in ([], *ranges[:2]), (["-Wl,--gc-sections"], *ranges[2:]):
            grown = size(C / source, *library, *more) - size(tmp_path / "empty.c")
            assert int(least) < grown < int(most), (source, more, grown)


@pytest.mark.parametrize("compiler, env", [("clang", {"RUSTFLAGS": " -Cdebuginfo=2 --cap-lints  warn "}),
                                           pytest.param("musl-gcc", {}, marks=pytest.mark.full),
                                           pytest.param("gcc", {"RUSTFLAGS": ""}, marks=pytest.mark.full)])
def test_install_with_compiler(compiler, env, prefix, tmp_path):
    """With another compiler, and with DEBUG_INFO=1, which keeps debug information without the name of the temporary folder,
    whatever flags the environment sets."""
    need_install(compiler)
    need("readelf")
    to, room = tmp_path / "to", tmp_path / 'a"b\\'
    room.mkdir()
    run("sh", C / "install.sh", to, env={"CC": compiler, "DEBUG_INFO": "1", "TMPDIR": str(room), **env})
    for link in (["-static", to / "lib/libgetopts.a"], [f"-L{to}/lib", f"-Wl,-rpath,{to}/lib", "-lgetopts"]):
        run(compiler, "-isystem", to / "include", C / "order.c", *link, "-o", tmp_path / "linked")
        assert run(tmp_path / "linked", "-qv")[0] == "verbose\n"
    for file, kept in ((to / "lib/libgetopts.so", True), (prefix / "lib/libgetopts.so", False)):
        assert (".debug_info" in run("readelf", "-S", "-W", file)[0]) == (b"options.rs" in file.read_bytes()) == kept
        assert rust_minor() < 95 or os.environ["TMPDIR"].encode() not in file.read_bytes()


@pytest.mark.full
@pytest.mark.parametrize("target", ["aarch64-unknown-linux-gnu", WINDOWS])
def test_install_for_other_target(target, tmp_path):
    """Installs with Debian's cargo and rustc, with the flags that these old versions need. Programs use either library."""
    compiler, by = TARGETS[target][0], runner(target, tmp_path)
    need_target(target)
    need("pkg-config")
    env = {**OLD, "CARGO": "/usr/bin/cargo", "CARGO_FLAGS": "--ignore-rust-version", "RUSTFLAGS": "--cfg old_rustc",
           "CARGO_BUILD_TARGET": target, "CARGO_PROFILE_RELEASE_PANIC": "unwind"}
    to, windows = tmp_path / "to", target == WINDOWS
    run("sh", C / "install.sh", to, env={**env, "CC": compiler})
    for name in ("getopts", "getopts-static"):
        flags = run("pkg-config", "--cflags", "--libs", name, env={"PKG_CONFIG_PATH": str(to / "lib/pkgconfig")})[0]
        program = to / f"bin/{name}.exe"
        program.parent.mkdir(exist_ok=True)
        run(compiler, C / "order.c", *shlex.split(flags), *([] if windows else [f"-Wl,-rpath,{to}/lib"]), "-o", program)
        assert run(*by, program, "-qv")[0].split() == ["verbose"]
    if windows:
        check_files_for_windows(to, env, tmp_path, by)


# Prints whether a text is a block of the DLL's C library, before and after it is freed.
OTHER_RUNTIME = """#include <getopts.h>
#include <stdio.h>
#include <windows.h>

int main(void) {
    static const struct getopts_option table[] = { { NULL, NULL, NULL, NULL, GETOPTS_NO } };
    struct getopts *options = getopts_new(table, GETOPTS_STRICT);
    char *text = getopts_usage(options, "brief");
    size_t (*size)(void *) = (size_t (*)(void *))(void *)GetProcAddress(GetModuleHandleA("msvcrt.dll"), "_msize");
    bool had = size(text) != (size_t)-1;
    getopts_free(text);
    printf("%d %d\\n", had, size(text) != (size_t)-1);
    getopts_delete(options);
}
"""
UCRT = "-D_UCRT -nodefaultlibs -lmingw32 -lgcc -lgcc_eh -lmoldname -lmingwex -lucrt -lkernel32".split()


def check_files_for_windows(to, env, room, by):
    """Both libraries export the functions of getopts.h, have the same bytes each time, work with CMake, and are removed. The
    DLL's blocks can be freed in a program with another C library."""
    same = [f"bin/libgetopts-{MAJOR}.dll", "lib/libgetopts.dll.a", "lib/getopts.def", "lib/libgetopts.a"]
    other, compiler = room / "other", TARGETS[WINDOWS][0]
    run("sh", C / "install.sh", other, env={**env, "CC": compiler, "LIBDIR": "lib/own"})
    assert all((to / file).read_bytes() == (other / file.replace("lib/", "lib/own/")).read_bytes() for file in same)
    names = {line.split()[-1] for line in run("nm", "-g", "--defined-only", to / same[3])[0].splitlines() if " T " in line}
    listed = re.findall(r"^\t\[ *\d+\] (\w+)$", run("x86_64-w64-mingw32-objdump", "-p", to / same[0])[0], re.M)
    assert names == {*listed} == {*(to / same[2]).read_text().split()[3:]} == FUNCTIONS
    for kind in ("static", "shared"):
        flags = ["-DCMAKE_SYSTEM_NAME=Windows", f"-DCMAKE_C_COMPILER={compiler}", f"-Dgetopts_DIR={other}/lib/own/cmake/getopts"]
        program = built_by_cmake(BY_PACKAGE, f"getopts::{kind}", C / "order.c", room / kind, *flags).with_suffix(".exe")
        # The shared library isn't beside the program yet.
        assert (answer(*by, program, "-qv")[0].split() == [b"verbose"]) == (kind == "static")
    shutil.copy(other / same[0], room / "shared")
    assert run(*by, program, "-qv")[0].split() == ["verbose"]
    (room / "runtime.c").write_text(OTHER_RUNTIME)
    run(compiler, room / "runtime.c", f"-I{to}/include", f"-L{to}/lib", "-lgetopts", *UCRT, "-o", room / "shared/runtime.exe")
    assert run(*by, room / "shared/runtime.exe")[0].split() == ["1", "0"]
    run("sh", C / "install.sh", "--uninstall", other, env={"LIBDIR": "lib/own"})
    assert [file for file in other.rglob("*") if not file.is_dir()] == []


@pytest.mark.parametrize("env, cargo, said", [
    ({"CARGO": "no-cargo"}, "", "no-cargo not found: install Rust 1.68 or later (rustup.rs, or Debian's cargo"),
    ({"CC": "no-cc"}, "", "no-cc not found: install a C compiler (Debian's package gcc)"),
    ({"CARGO_BUILD_TARGET": "wasm32-wasi"}, "", "set CC to the C compiler for wasm32-wasi"),
    ({"CARGO_BUILD_TARGET": "wasm32-wasi", "CC": ""}, "", "set CC to the C compiler for wasm32-wasi"),
    ({"CC": "true"}, "exit 101", "librust-unicode-width-dev). RUSTFLAGS\nmust not"),
    ({"CC": "true"}, "", "cargo built no libgetopts.a. If cargo's configuration"),
    ({"CC": "true"}, 'mkdir -p "$CARGO_TARGET_DIR/release"; >"$CARGO_TARGET_DIR/release/getopts.lib"', "can't install for MSVC")])
def test_missing_tools(env, cargo, said, tmp_path, monkeypatch):
    monkeypatch.delenv("CC", raising=False)
    env = {"CARGO": str(script(tmp_path / "cargo", f"#!/bin/sh\n{cargo}\n")), **env}
    assert said in run("sh", C / "install.sh", tmp_path / "to", status=1, env=env)[1]
    assert not (tmp_path / "to").exists()


def test_failed_install_keeps_files(copies, tmp_path):
    """If the shared library can't be linked, the installed files stay. TMPDIR may contain a comma, which -Wl splits at."""
    need_install()
    to, room = tmp_path / "to", tmp_path / "a,b"
    room.mkdir()
    env = {**copies, "TMPDIR": str(room)}
    run("sh", C / "install.sh", to, env=env)
    files = {path: path.read_bytes() for path in to.rglob("*") if path.is_file()}
    assert to / f"lib/libgetopts.so.{VERSION}" in files
    assert "--nope" in run("sh", C / "install.sh", to, status=1, env={**env, "LDFLAGS": "-Wl,--nope"})[1]
    assert {path: path.read_bytes() for path in to.rglob("*") if path.is_file()} == files and not [*room.iterdir()]


@pytest.mark.parametrize("shell", ["dash", "busybox sh", "bash"])
def test_interrupted_install(shell, tmp_path):
    """An install that is interrupted leaves no temporary folder."""
    need(shell.split()[0])
    cargo = script(tmp_path / "cargo", f"#!/bin/sh\ntouch '{tmp_path}/started'\nexec sleep 600\n")
    (tmp_path / "tmp").mkdir()
    env = {**os.environ, "CARGO": str(cargo), "CC": "true", "TMPDIR": str(tmp_path / "tmp")}
    for number in (signal.SIGHUP, signal.SIGINT, signal.SIGTERM):
        # Under nohup, or in the background of a script, this signal would be ignored.
        done = subprocess.Popen([*shell.split(), C / "install.sh", tmp_path / "to"], env=env, start_new_session=True,
                                preexec_fn=lambda: signal.signal(number, signal.SIG_DFL))
        while not (tmp_path / "started").exists():
            time.sleep(0.01)
        os.killpg(done.pid, number)
        assert done.wait(300) == 1 and not list((tmp_path / "tmp").iterdir())
        (tmp_path / "started").unlink()


@pytest.fixture
def copies(library, tmp_path):
    """A cargo that copies the library that is already built, for tests of where files are installed."""
    text = f'#!/bin/sh\nmkdir -p "$CARGO_TARGET_DIR/release"\ncp "{library(None)}" "$CARGO_TARGET_DIR/release"\n'
    return {"CARGO": str(script(tmp_path / "cargo", text))}


def test_read_only_sources(copies, tmp_path):
    """From sources in which the user can't write. CARGO and CARGO_HOME may be relative, and CARGO have arguments."""
    need_install()
    room, home = tmp_path / "room", tmp_path / "home"
    room.mkdir()
    home.mkdir()
    script(tmp_path / "own", f'#!/bin/sh\n: >"$CARGO_HOME/ran$A"\nexec "{copies["CARGO"]}" "$@"\n')
    (tmp_path / "a b").symlink_to(tmp_path)
    sources = copy_tree(tmp_path / "sources")
    words = [*read_only(sources), "sh", sources / "bindings/c/install.sh", "to"]
    for cargo in ("a b/own", f"env A=1 {tmp_path}/own"):
        run(*words, cwd=tmp_path, env={"CARGO": cargo, "CARGO_HOME": "home", "TMPDIR": str(room)})
    assert {path.name for path in home.iterdir()} == {"ran", "ran1"} and not [*room.iterdir()]


# What a packager may begin with.
SPEC = r"""Name: getopts
Version: VERSION
Release: 1
Summary: Formally verified parser of command-line options
License: MIT OR Apache-2.0
Source: %{name}-%{version}.tar.gz
# In debug information, sources are named getopts/c/.., where rpmbuild doesn't find them.
%global _debugsource_template %{nil}

%description
A library for C and C++.

%package devel
Summary: What programs need to be built with getopts
Requires: %{name}%{?_isa} = %{version}-%{release}
%description devel
The header, the static library and documentation.

%prep
%autosetup

%install
DESTDIR=%{buildroot} LIBDIR=%{_lib} DEBUG_INFO=1 bindings/c/install.sh %{_prefix}

%check
cc bindings/c/order.c -I%{buildroot}%{_includedir} -L%{buildroot}%{_libdir} -lgetopts -o order
[ "$(LD_LIBRARY_PATH=%{buildroot}%{_libdir} ./order -qv)" = verbose ]

%files
%{_libdir}/libgetopts.so.*

%files devel
%{_includedir}/getopts.h
%{_libdir}/libgetopts.so
%{_libdir}/libgetopts*.a
%{_libdir}/pkgconfig/*
%{_libdir}/cmake/getopts
%{_mandir}/man3/*
%{_datadir}/doc/getopts
"""


def test_rpm(tmp_path):
    """rpmbuild, set up as on Fedora, packs all files, also the debug information."""
    need_install()
    need("rpmbuild", "eu-strip", "file")
    name = f"getopts-{VERSION}"
    copy_tree(tmp_path / "sources" / name)
    shutil.make_archive(tmp_path / f"SOURCES/{name}", "gztar", tmp_path / "sources", name)
    (tmp_path / "getopts.spec").write_text(SPEC.replace("VERSION", VERSION))
    defined = [*(f"_{it} {tmp_path}" for it in ("topdir", "tmppath", "dbpath")), "_debugsource_packages 1",
               "_missing_build_ids_terminate_build 1", "install %{debug_package}\\\n%%install\\\n%{nil}"]
    words = ["rpmbuild", "-bb", *(word for it in defined for word in ("-D", it)), tmp_path / "getopts.spec"]
    said = run(*words, env={"RUSTFLAGS": "-Cdebuginfo=2", "CARGO_HOME": ".cargo"})[0]
    for part in f"libgetopts.so.{MAJOR}(GETOPTS_{MAJOR})(", "pkgconfig(getopts-static)", f"libgetopts.so.{VERSION}-{VERSION}-1.":
        assert re.search(rf"^Provides: .*{re.escape(part)}", said, re.M), part
    kinds = sorted(path.name.removeprefix("getopts-").partition(VERSION)[0] for path in tmp_path.glob("RPMS/*/*.rpm"))
    assert kinds == ["", "debuginfo-", "devel-"]


def test_libdir(copies, tmp_path):
    """LIBDIR replaces lib. All users may read the folders, whatever the umask."""
    need_install()
    to = tmp_path / "to"
    run("sh", "-c", 'umask 077; exec sh "$0" "$1"', C / "install.sh", to, env={**copies, "LIBDIR": f"{to}/lib/own"})
    assert (to / "lib/own/libgetopts.so").is_file() and [*(to / "lib").iterdir()] == [to / "lib/own"]
    assert "libdir=${prefix}/lib/own\n" in (to / "lib/own/pkgconfig/getopts.pc").read_text()
    assert '"${_getopts_lib}/../.."' in (to / "lib/own/cmake/getopts/getoptsConfig.cmake").read_text()
    for path in [to, *to.rglob("*")]:
        assert path.stat().st_mode & 0o777 == (0o755 if path.is_dir() or ".so" in path.name else 0o644), path
    run("sh", C / "install.sh", "--uninstall", to, env={"LIBDIR": "lib/own"})
    assert not any(path.is_file() for path in to.rglob("*"))


def test_install_in_shared_folder(prefix, tmp_path):
    """The library is built in a temporary folder. Cargo and rustup read nothing that other users put beside it, and the
    libraries have the same bytes as those built in another folder (with Rust 1.95 or later), even if the environment sets
    panic=unwind."""
    room = tmp_path / "shared room"
    ran = shared_folder(room)
    planted = set(room.rglob("*"))
    run("sh", C / "install.sh", tmp_path / "to", env={"TMPDIR": str(room), "CARGO_PROFILE_RELEASE_PANIC": "unwind"})
    assert not ran.exists() and set(room.rglob("*")) == planted
    if rust_minor() >= 95:
        for name in ("libgetopts.a", "libgetopts.so"):
            assert (tmp_path / "to/lib" / name).read_bytes() == (prefix / "lib" / name).read_bytes()


@pytest.mark.parametrize("shell", ["dash", "zsh", "busybox"])
@pytest.mark.parametrize("relative", [False, True])
def test_destdir_and_uninstall(shell, relative, copies, tmp_path):
    """With dash, with zsh, and with nothing but busybox's shell and tools."""
    need_install()
    need(shell)
    stage = tmp_path / ("a/\nstage\n" if relative else "stage")
    env, words = {**copies, "DESTDIR": "a/\nstage\n" if relative else f"{stage}/"}, [shell]
    if shell == "busybox":
        tools, words = tmp_path / "tools", ["busybox", "sh"]
        tools.mkdir()
        for tool in "awk sed cp ln mkdir chmod rm rmdir dirname mktemp cat".split():
            (tools / tool).symlink_to(shutil.which("busybox"))
        # Debian's busybox prefers its own tools to those on the path, and its ar can't create archives.
        env.update(PATH=f"{tools}:{os.environ['PATH']}", AR=shutil.which("ar"))
    run(*words, C / "install.sh", "/usr/lo cal/", env=env, cwd=tmp_path)
    assert "prefix=/usr/lo cal\n" in (stage / "usr/lo cal/lib/pkgconfig/getopts.pc").read_text()
    for said in ("removed from", "nothing to remove in"):
        removed = run(*words, C / "install.sh", "--uninstall", "/usr/lo cal", env=env, cwd=tmp_path)
        assert removed == (f"{said} {stage}/usr/lo cal\n", "")
        assert not any(path.is_file() for path in stage.rglob("*"))
    assert {*tmp_path.iterdir()} <= {tmp_path / name for name in ("a", "stage", "tools", "cargo")}


def test_uninstall_keeps_other_files(copies, tmp_path):
    """Other files stay, also the target of a link that is replaced; a folder instead of a file is an error."""
    need_install()
    to, others = tmp_path / "to", ["share/doc/getopts/others", f"lib/{SONAME}.others", "others.h"]
    for other in others:
        (to / other).parent.mkdir(parents=True, exist_ok=True)
        (to / other).write_text("others'")
    (to / "include").mkdir()
    (to / "include/getopts.h").symlink_to(to / "others.h")
    for old in (f"{SONAME}.0", f"{SONAME}.0.new"):
        (to / "lib" / old).write_text("an old version, or a part of it")
    for link in (SONAME, "libgetopts.so", "libgetopts-static.a"):
        (to / "lib" / link).symlink_to(to / "share/doc")
    run("sh", C / "install.sh", to, env=copies)
    assert (to / "lib/libgetopts.so").resolve().name == f"libgetopts.so.{VERSION}"
    assert (to / "lib/libgetopts-static.a").resolve() == to / "lib/libgetopts.a"
    assert (to / "include/getopts.h").read_bytes() == (C / "getopts.h").read_bytes()
    for part in (f"lib/libgetopts.so.{VERSION}.new", "include/getopts.h.new"):
        (to / part).write_text("a part")
    run("sh", C / "install.sh", "--uninstall", to)
    left = {str(path.relative_to(to)): path.read_text() for path in to.rglob("*") if path.is_file()}
    assert left == {other: "others'" for other in others}
    (to / "include/getopts.h").mkdir()
    assert "include/getopts.h" in run("sh", C / "install.sh", to, status=1, env=copies)[1]


def test_links_of_another_user(copies, tmp_path):
    """Another user who can write in PREFIX, and plants links while the script runs, changes nothing that it installs."""
    need_install()
    run("sh", C / "install.sh", tmp_path / "to", env=copies)
    files = files_in(tmp_path / "to")
    with planted_links(tmp_path / "to"):
        for _ in range(3):
            run("sh", C / "install.sh", tmp_path / "to", env=copies)
    assert files_in(tmp_path / "to") == files


def test_full_disk(copies, tmp_path):
    """An older library stays as it was, also one of another version."""
    need_install()
    run("sh", C / "install.sh", tmp_path / "to", env=copies)
    (tmp_path / "own").mkdir()
    script(tmp_path / "own/mv", """#!/bin/sh
        for to; do :; done
        case $to in */"$FULL".new) head -c 9 /dev/zero >"$to"; exit 1 ;; esac
        exec /bin/mv "$@"
        """)
    other = tmp_path / f"to/lib/{SONAME}.0"
    other.write_text("an old version")
    for name in (f"libgetopts.so.{VERSION}", "libgetopts.a"):
        files, env = files_in(tmp_path / "to"), {"FULL": name, "PATH": f"{tmp_path}/own:{os.environ['PATH']}"}
        said = run("sh", C / "install.sh", tmp_path / "to", status=1, env={**copies, **env})[1]
        assert (said, files_in(tmp_path / "to")) == (f"bindings/c/install.sh: can't write {tmp_path}/to/lib/{name}\n", files)
        other.unlink(missing_ok=True)


@pytest.mark.parametrize("shell", ["sh", "busybox sh"])
def test_rejected_arguments(shell, tmp_path):
    need(shell.split()[0])
    def said(*words, status=1, **env):
        return run(*shell.split(), C / "install.sh", *words, status=status, cwd=tmp_path, env=env)[1]

    for words in ([], [""], ["--nope"], ["a", "b"]):
        assert said(*words, status=2) == "usage: bindings/c/install.sh [--uninstall] PREFIX\n", words
    for prefix in ("C:/getopts", "c:\\getopts", "D:"):
        assert "write PREFIX as in Git Bash and MSYS2: /c/getopts for C:/getopts" in said(prefix), prefix
    for name in [*'"$#\\:;()|,', "a\nb", "a\tb", "b\n", "b ", "b\t//", "b\r//"]:
        assert "PREFIX must not" in said(f"{tmp_path}/a{name}"), name
    for name in ("/elsewhere", "../lib", "./lib", "lib 64", "lib;64", str(tmp_path)):
        assert "LIBDIR must be" in said(tmp_path, LIBDIR=name), name
    (tmp_path / "link").symlink_to(C / "install.sh")
    assert "through a symbolic link" in run(*shell.split(), tmp_path / "link", tmp_path / "to", status=1)[1]
    assert [*tmp_path.iterdir()] == [tmp_path / "link"]


@pytest.mark.parametrize("build", builds("gcc", "clang-san"), indirect=True)
def test_claims_of_page(build):
    """What the page and getopts.h say of functions, modes and getopt_long is so."""
    said = " ".join(PAGE.split() + re.sub(r"^ \* ?", "", HEADER, flags=re.M).split())
    for sentence in run(*build(C / "tests/claims.c"))[0].splitlines():
        assert sentence in said


def test_example_that_stops_at_a_word(library, tmp_path):
    need("gcc", "sh")
    run("gcc", *WARNINGS, "-I", C, C / "within.c", library(None), "-o", tmp_path / "within")
    (tmp_path / "a").mkdir()

    def said(*words, status=0):
        return run(tmp_path / "within", *words, status=status, cwd=tmp_path)

    assert said("-C", "a", "-C..", "--", "sh", "-c", 'echo "$@"', "sh", "-o", "--", "-C") == ("-o -- -C\n", "")
    for words, written in [("-C a -o out", "a/out"), ("-o out -C a", "out")]:
        assert said(*words.split(), "pwd") == ("", "") and (tmp_path / written).read_text() == f"{tmp_path}/a\n"
    for words, status, error in [("-C a", 2, "within: no command"), ("-o", 2, "within: Argument to option 'o' missing"),
                                 ("-C nope pwd", 3, "nope: No such file or directory"),
                                 ("./nope", 3, "./nope: No such file or directory")]:
        assert said(*words.split(), status=status) == ("", f"{error}\n")


def test_page(library, tmp_path):
    """The page has a whole program, and its tables have all functions, kinds, modes and statuses."""
    need("gcc")
    calls = PAGE.partition("\n| to | call |\n")[2].partition("\n\n")[0]
    assert sorted(re.findall(r"`(getopts_\w+)`", calls)) == sorted(FUNCTIONS)
    rows = "".join(re.findall(r"^\|.*GETOPTS_.*\n", PAGE.partition("\n## Use\n")[2], re.M))
    constants = re.findall(r"^    (GETOPTS_\w+)\b", HEADER, re.M)
    assert {*re.findall(r"GETOPTS_\w+", rows)} == {it for it in constants if not it.endswith("_MAX")} and len(constants) == 20
    example = re.search(r"^```c\n(.*?)^```", PAGE, re.M | re.S)[1]
    (tmp_path / "head.c").write_text(example)
    run("gcc", *WARNINGS, "-I", C, tmp_path / "head.c", library(None), "-o", tmp_path / "head")
    usage = re.search(r"^```text\n(.*?)^```", PAGE, re.M | re.S)[1]
    for words, status, *said in [
        ("a b", 0, "10 lines of a\n10 lines of b\n", ""), ("-n3 a", 0, "3 lines of a\n", ""), ("-n3 --help", 0, usage, ""),
        ("--nope", 2, "", "head: Unrecognized option: 'nope'\n"), ("-nx", 2, "", "head: 'x' isn't a number of lines\n"),
    ]:
        assert run(tmp_path / "head", *words.split(), status=status) == tuple(said), words
