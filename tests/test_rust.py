"""The Rust crate: its source is the proved one, and it behaves like the crate getopts 0.2.24 on five targets."""

import functools
import os
import re
import shlex
import shutil
import subprocess
import sys
from pathlib import Path

import bench as bench_py
import generate
import pytest
import test_rows
from conftest import LINES, ROOT, ROWS, VECTORS, answer, check_definitions, check_page, copy_tree, need_rustfmt, run
from model import parts, rows_of
from targets import (REGISTRY, TARGETS, UNWINDS, cargo, cargo_for, commit_repository, need_cargo, offline,
                     passed, runner, shared_folder)
from test_try import check_random_lines

RUST = ROOT / "bindings/rust"
REFERENCE = ROOT / "tests/differential/reference"
ERASED = {"getopts": RUST / "src/proved", "getopts_bytes": RUST / "src/bytes",
          "getopts_shell": ROOT / "bindings/shell/src/program"}
# One worker runs all tests that use cargo.
pytestmark = pytest.mark.xdist_group("Rust")


# ---- the source

def same_tokens(source, folder):
    return answer(sys.executable, RUST / "same_tokens.py", source, folder)


def edited(file, right, wrong):
    """Replaces a right text with a wrong one."""
    text = file.read_text()
    assert right in text
    file.write_text(text.replace(right, wrong, 1))


@pytest.mark.parametrize("crate", ERASED)
def test_tokens_match_source(crate):
    assert same_tokens(ROOT / f"crates/{crate}/src", ERASED[crate]) == (b"", 0)


@pytest.mark.parametrize("file, right, wrong", [
    ("counts.rs", "count <= 1", "count < 1"),
    ("scan.rs", "copies.try_grow(words.len())?;", "copies.try_grow(words.len());"),
    ("table.rs", "entries.dedup_by", "entries.reverse(); entries.dedup_by"),
    ("occurrences.rs", "pub fn len", "#[doc(hidden)] pub fn len")])
def test_changed_tokens_are_found(file, right, wrong, tmp_path):
    shutil.copytree(ERASED["getopts"], tmp_path / "changed")
    edited(tmp_path / "changed" / file, right, wrong)
    said, status = same_tokens(ROOT / "crates/getopts/src", tmp_path / "changed")
    assert re.fullmatch(rf".*/{file}: differs from its source at '.*'\n", said.decode()) and status == 1


def test_hidden_code_is_found(tmp_path):
    """Rust may include files of any name, and ends no comment at a carriage return."""
    folder = shutil.copytree(ERASED["getopts"], tmp_path / "changed")
    (folder / "more").mkdir()
    for file in ("more/mod.rs", "more.inc"):
        (folder / file).write_text("")
    said = "".join(f"{folder / file}: is missing, or has no source\n" for file in ("more.inc", "more/mod.rs"))
    assert same_tokens(ROOT / "crates/getopts/src", folder) == (said.encode(), 1)
    edited(folder / "counts.rs", "\n", "\r")
    said += f"{folder}/counts.rs: contains a carriage return, at which not every program ends a comment\n"
    assert same_tokens(ROOT / "crates/getopts/src", folder) == (said.encode(), 1)


def test_source_that_ends_in_a_clause(tmp_path):
    source = shutil.copytree(ROOT / "crates/getopts/src", tmp_path / "getopts/src")
    text = (source / "names.rt").read_text()
    (source / "names.rt").write_text(text[:text.index("ensures {") + 20])
    said, status = same_tokens(source, ERASED["getopts"])
    assert said.decode().endswith("names.rs: differs from its source at ''\n") and status == 1


@pytest.fixture
def erase(tmp_path):
    """erase(TEXT, file=.., status=..) runs a copy of the eraser on a crate with this module: its errors."""
    need_rustfmt()
    source, eraser = tmp_path / "crates/getopts/src", tmp_path / "bindings/rust/erase.py"
    for folder in (source, eraser.parent):
        folder.mkdir(parents=True)
    shutil.copy(RUST / "erase.py", eraser)

    def erased(text, file="names", status=0):
        (source / "lib.rt").write_text(f"mod {file};\n")
        (source / f"{file}.rt").write_text(text)
        return run(sys.executable, eraser, status=status)[1]

    return erased


# The sources that erase.py has to reject: names, sources and errors.
REJECTED = re.findall(r"^(\w+): .*\n((?:  .*\n)+)  (.*)\n", (ROOT / "tests/eraser/rejected.txt").read_text(), re.M)
REJECTED += [("carriage_return", "// Code after\rfn f() {}\nfn g() {}\n", "'fn': no carriage return may be in it or before it"),
             ("direction_mark", "fn f() -> u8 { Vec::\u200enew() }\n", "'\u200e': code has to be ASCII")]


def compile_over_types(tmp_path, proved=ERASED["getopts"], program=ERASED["getopts_shell"]):
    """Compiles the erased crates over `core` and the types of tests/eraser/types. Returns rustc's messages."""
    need_rustfmt()
    folder = shutil.copytree(ROOT / "tests/eraser/types", tmp_path / "types")
    files = {"ALLOC": RUST / "src/alloc.rs", "PROVED": proved / "mod.rs", "BYTES": ERASED["getopts_bytes"] / "mod.rs",
             "PROGRAM": program / "mod.rs", "NAMES": RUST / "src/names.rs" if proved == ERASED["getopts"] else os.devnull}
    for crate in ("getopts", "program"):
        file = folder / f"{crate}.rs"
        file.write_text(re.sub('"([A-Z]+)"', lambda name: f'"{files[name[1]]}"', file.read_text()))
        words = ["--edition=2021", "--crate-type=lib", "--emit=metadata", f"--extern=getopts={folder}/libgetopts.rmeta"]
        done = subprocess.run(["rustc", *words, f"--out-dir={folder}", file], capture_output=True, text=True)
        if done.stderr or done.returncode:
            return f"{done.stderr}status {done.returncode}"
    return ""


def test_erased_sources_compile_over_types(tmp_path):
    assert compile_over_types(tmp_path) == ""
    program = shutil.copytree(ERASED["getopts_shell"], tmp_path / "program")
    edited(program / "words.rs", "Vec::empty(rt.alloc());", "Vec::empty(rt.alloc()); BYTES.to_string();")
    assert "no method named `to_string`" in compile_over_types(tmp_path / "edited", program=program)


def test_rustc_rejects_sources(erase, tmp_path):
    erase((ROOT / "tests/eraser/rejected_by_rustc.txt").read_text(), file="lib")
    proved = tmp_path / "bindings/rust/src/proved"
    said = compile_over_types(tmp_path, proved)
    lines = enumerate((proved / "mod.rs").read_text().splitlines(), 1)
    wanted = {(code, str(at)) for at, line in lines for code in re.findall(r"// error(\[E\d+\])?", line)}
    assert set(re.findall(r"^error(\[E\d+\])?: .*\n +--> .*/proved/mod.rs:(\d+)", said, re.M)) == wanted


@pytest.mark.parametrize("name, text, error", REJECTED, ids=[name for name, *_ in REJECTED])
def test_eraser_rejects_sources(name, text, error, erase):
    """Source that could mean something else after its contracts are erased."""
    file = "laws" if name.endswith("laws") else "names"
    said = erase(text[:-1], file=file, status=1)
    line, = re.findall(rf"erase.py: crates/getopts/src/{file}.rt:(\d+): {re.escape(error)}\n", said)
    assert 1 <= int(line) <= text.count("\n")


# ---- the crate

@pytest.fixture(scope="module")
def folder(tmp_path_factory):
    """A copy of the crate."""
    return copy_tree(tmp_path_factory.mktemp("rust"), "bindings/rust") / "bindings/rust"


@pytest.mark.parametrize("features, tests, programs", [
    ("std,unicode,proved", [], 9), ("std", ["--tests"], 7), ("proved", [], 5)])
def test_own_tests_of_the_crate(folder, features, tests, programs):
    said, _ = cargo(folder, "test", "--no-default-features", "--features", features, *tests)
    assert len(passed(said)) == programs


@pytest.mark.parametrize("features", ["", "std", "unicode", "proved", "std,unicode", "std,unicode,proved"])
def test_no_clippy_warnings(folder, features):
    cargo(folder, "clippy", "--all-targets", "--no-default-features", "--features", features, "--", "-D", "warnings")


def test_features_compose(folder, tmp_path):
    """Packages of one program ask for different features. Those of others don't change what `getopts::*` imports from the
    package that replaces the crate getopts."""
    for name, dependencies, source in (
        ("one", f'proved-getopts = {{ path = "{folder}", default-features = false, features = ["proved"] }}',
         "pub use getopts::proved::Options;"),
        ("other", f'proved-getopts = {{ path = "{folder}" }}\none = {{ path = "../one" }}', "pub use getopts::Options;"),
        ("glob", f'getopts = {{ path = "{folder}/getopts" }}\nother = {{ path = "../other" }}',
         "extern crate alloc;\npub mod cli {\nuse getopts::*;\npub use alloc::vec::Vec as List;\npub type All = (List<Fail>, "
         "HasArg, Matches, Occur, Options, OsGetError<()>, OsMatches, ParsingStyle, Result);\n}\n"
         "pub mod std_too {\nuse getopts::*;\nuse std::*;\npub type Same = iter::Repeat<Occur>;\n}"),
    ):
        (tmp_path / name / "src").mkdir(parents=True)
        (tmp_path / name / "src/lib.rs").write_text(f"{source}\n")
        head = f'package = {{ name = "{name}", version = "0.0.0", edition = "2021" }}'
        (tmp_path / name / "Cargo.toml").write_text(f"{head}\n[dependencies]\n{dependencies}\n")
    cargo(tmp_path / "glob", "check")


def test_names_of_the_replacement():
    """The package that replaces the crate getopts exports all that `proved-getopts` documents, except for `iter`: programs
    with `use getopts::*` may mean `std::iter`."""
    ours, theirs = ((RUST / f"{folder}src/lib.rs").read_text() for folder in ("", "getopts/"))
    lists = [re.findall(r"^ *pub use \S*?(?:::)?(?:\{([^}]*)\}|(\w+));", source, re.M) for source in (ours, theirs)]
    names, listed = (sorted(name for pair in found for name in re.findall(r"\w+", "".join(pair))) for found in lists)
    names = {*names, *re.findall(r"^ *(?:\$seen|pub) mod (\w+);", ours, re.M)}
    assert sorted(names - {"iter", *re.findall(r"hidden\)\]\n.*\b(\w+);", ours)}) == listed


@pytest.mark.parametrize("features", ["", "std", "std,unicode", "std,unicode,proved"])
def test_documentation_has_no_broken_links(folder, features):
    flags = ["--no-deps", "--no-default-features", "--features", features]
    cargo(folder, "doc", *flags, env={"RUSTDOCFLAGS": "-D warnings"})


def test_documentation(folder):
    cargo(folder, "doc", "--no-deps", "--all-features")
    shown = {str(page.relative_to(folder / "target/doc/getopts")) for page in (folder / "target/doc/getopts").rglob("*.html")}
    assert {"enum.HasArg.html", "iter/struct.Values.html", "fallible/trait.TryClone.html", "alloc/struct.Global.html"} <= shown
    # What the C library and the shell program need may change in any version.
    assert not {"bytes/index.html", "fn.bytes_of.html", "alloc/struct.AllocFailed.html"} & shown
    assert not {*map("fallible/trait.{}.html".format, ("TryText", "TryList", "TryCopies"))} & shown
    for name in ("fail", "iter", "options", "matches", "os"):
        example = False
        for line in (RUST / f"src/{name}.rs").read_text().splitlines():
            assert example or not line.startswith(("    pub fn", "pub struct", "pub enum")), f"no example for {line.strip()}"
            example = line.lstrip().startswith("/// ```") or example and not line.startswith(("    }", "}", "impl"))


def test_package(folder, tmp_path):
    """Both packages build from the files that would be uploaded. No registry is used."""
    names = cargo(folder, "package", "--allow-dirty", "--list")[0].split()
    assert set("README.md CHANGELOG.md LICENSE-MIT LICENSE-APACHE NOTICE src/proved/mod.rs src/bytes/mod.rs".split()) <= set(names)
    for name in set(names) - {"Cargo.lock", "Cargo.toml.orig", ".cargo_vcs_info.json"}:
        (RUST / name).read_text(encoding="utf-8")
    tree = cargo(folder, "tree", "--edges", "normal,build", "--prefix", "none")[0].splitlines()
    assert {line.split()[0] for line in tree} == {"proved-getopts", "unicode-width"}
    cargo(folder, "package", "--allow-dirty")
    for crate in REGISTRY.glob("unicode-width-*"):
        (tmp_path / crate.name).symlink_to(crate)
    archive, = folder.glob("target/package/proved-getopts-*.crate")
    shutil.unpack_archive(archive, tmp_path, "gztar")
    (tmp_path / archive.stem / ".cargo-checksum.json").write_text('{"files": {}}')
    if offline():
        cargo(folder / "getopts", "package", "--allow-dirty", registry=tmp_path)
    names = cargo(folder / "getopts", "package", "--allow-dirty", "--list", registry=tmp_path)[0].split()
    assert {"LICENSE-MIT", "LICENSE-APACHE", "NOTICE", "src/lib.rs"} <= set(names)


@pytest.mark.parametrize("package", ["rust", "rust/getopts", "c", "shell"])
def test_no_build_script(package, tmp_path):
    """A file build.rs is no part of a package, although cargo would run it by default, in dependencies, too."""
    folder = copy_tree(tmp_path, "bindings") / "bindings" / package
    (folder / "build.rs").write_text("")
    need_cargo(folder)
    assert "build.rs" not in run("cargo", "metadata", "--no-deps", "--format-version=1", cwd=folder)[0]


@pytest.mark.parametrize("package, taken", [("rust", "0.2.9"), ("c", "0.2.0"), ("shell", "0.2.0")])
def test_newest_unicode_width(package, taken, tmp_path):
    """From a registry with unicode-width 0.1.10, 0.2.0 and 0.2.9 (stand-ins), cargo takes the newest that the manifest allows."""
    need_cargo(RUST)
    for version in ("0.1.10", "0.2.0", "0.2.9"):
        (tmp_path / version / "src").mkdir(parents=True)
        (tmp_path / version / "src/lib.rs").write_text("")
        (tmp_path / version / ".cargo-checksum.json").write_text('{"files": {}}')
        (tmp_path / version / "Cargo.toml").write_text(f'package = {{ name = "unicode-width", version = "{version}" }}\n')
    flags = ["--config", 'source.crates-io.replace-with="debian"', "--config", f'source.debian.directory="{tmp_path}"']
    said, _ = run("cargo", "tree", "--offline", *flags, cwd=copy_tree(tmp_path / "copy", "bindings") / "bindings" / package)
    assert {*re.findall("unicode-width v([0-9.]*)", said)} == {taken}


def test_git_dependency(tmp_path):
    """From a folder or a git URL, with the README's lines and flags: `proved-getopts` as a dependency, and
    `getopts` as a patch of the crate getopts, with the feature that Rust's own library asks for. Documentation too."""
    need_cargo(RUST)
    clone = copy_tree(tmp_path / "clone", "bindings") / "bindings"
    url, page = commit_repository(clone), (RUST / "README.md").read_text()
    page = page.replace("URL", url).replace("COMMIT", run("git", "rev-parse", "HEAD", cwd=clone)[0].strip())
    page = page.replace("CLONE", str(clone.parent))
    folder, patch, flags = (it[1] for it in re.finditer(r"^```(?:toml|sh)\n(.*?)^```", page, re.M | re.S))
    direct = re.sub("\n.*path.*\n# ", "\n", folder)
    assert "git" in direct and "path" not in direct
    original = '[dependencies]\ngetopts = { version = "0.2", features = ["rustc-dep-of-std"] }\n'
    for name, dependencies in {"folder": folder, "direct": direct, "patch": original + patch}.items():
        (tmp_path / name / "src").mkdir(parents=True)
        (tmp_path / name / "src/main.rs").write_text("fn main() { let _ = getopts::Options::new(); }\n")
        head = f'package = {{ name = "{name}", version = "0.0.0", edition = "2021" }}\n'
        (tmp_path / name / "Cargo.toml").write_text(head + dependencies)
        env = {"CARGO_HOME": str(tmp_path / "home"), "CARGO_TARGET_DIR": str(tmp_path / "target")}
        for words in [["doc"], ["doc", "-p", "proved-getopts"]] if name == "patch" else [["run"]]:
            run("cargo", *words, *(shlex.split(flags) if offline() else []), cwd=tmp_path / name, env=env)
            assert (tmp_path / "target/doc/getopts/struct.Matches.html").exists() == ("-p" in words)


def test_small_program(tmp_path):
    """The README's program is the one that bench.py measures, and its size is near the record, which was made with one rustc."""
    program = (ROOT / "bench/join/proved-getopts.rs").read_text()
    assert f"```rust\n{program}```" in (RUST / "README.md").read_text()
    need_cargo(RUST)
    version = re.search(r"rustc (\S+)", (ROOT / "bench/last_run.txt").read_text())[1]
    if run("rustc", "--version")[0].split()[1] != version:
        pytest.skip(f"rustc isn't {version}")
    size, least = (bench_py.build_join(tmp_path, column, offline())[0] for column in ("bindings/rust", "none"))
    recorded = int(bench_py.recorded()[bench_py.SMALL, "kilobytes"]["bindings/rust"])
    assert abs((size - least) / 1000 - recorded) < 2, f"{size - least}: run bench/bench.py again"


def test_manual_page_of_declared_options(folder, tmp_path):
    page = tmp_path / "join.1"
    page.write_text(cargo(folder, "run", "--example", "manual")[0])
    check_page(page, [
        "JOIN(1) General Commands Manual JOIN(1)", "NAME", "       join - join files",
        "SYNOPSIS", "       join -o FILE [-I DIR].. [--color [WHEN]] [-v].. [-h]", "OPTIONS",
        "       -o, --output FILE\n              write to FILE (required)",
        "       -I DIR look into DIR, too (may be repeated)",
        "       --color [WHEN]\n              colour the output: 'always', ~never~ or `auto`",
        "       -v, --verbose\n              .\\say more, twice ^ as much with -vv (may be repeated)",
        "       -h, --help\n              print this help", "join 1.0 JOIN(1)"])


@pytest.fixture(scope="module")
def example(folder):
    cargo(folder, "build", "--release", "--example", "show")
    return folder / "target/release/examples/show"


@pytest.mark.parametrize("line", LINES)
def test_example_matches_getopts_show(line, example, show):
    assert answer(example, *line.split()) == answer(show, *line.split())


# ---- compared with the crate getopts 0.2.24

@pytest.fixture(scope="module")
def reference(tmp_path_factory):
    """reference(CRATE, FLAG..): the program of tests/differential, built with the crate in a folder (ours: with its package
    `getopts`). build.sh, which also builds the benchmarks' peers, reads nothing that other users put above its folder OUT."""
    @functools.cache
    def reference(over, *flags):
        need_cargo(RUST)
        room = tmp_path_factory.mktemp("reference") / "shared room"
        ran = shared_folder(room)
        crate = over / "getopts" if (over / "getopts").exists() else over
        run(ROOT / "tests/differential/build.sh", REFERENCE, room / "out", crate, env={"CARGO_FLAGS": " ".join(flags)})
        assert not ran.exists()
        return room / "out/target/release/reference"

    return reference


# With the feature `proved`, the package reports failed allocations in each call, and the program knows laws.
CANONICAL, PROVED = ("--features", "canonical"), ("--features", "proved,getopts/proved")
# Rows about calls that only getopts::proved has.
LACKS = {"opt_place", "occurrences_at", "parse_in_order", "usage_in", "usage_rows", "wrap"}


@pytest.fixture(scope="module")
def ours(reference):
    return reference(RUST, *CANONICAL)


def answered(command, room, name, asked):
    """A file of these test cases with the answers of a program, which writes to the file, because print! on WASI fails when
    a pipe is full."""
    (room / "asked.rows").write_bytes(asked)
    with open(room / name, "wb") as file:
        subprocess.run([*command, "answer", room / "asked.rows"], stdout=file, check=True)
    return room / name


def differences(command, text, room, skipped=LACKS):
    """The rows that the reference answers otherwise, each with its answer. Rows with some words are skipped. `{Z}` is U+0300,
    which takes no columns."""
    rows = [row for row in rows_of(text.replace(b"{Z}", "\u0300".encode())) if parts(row[0])[0] not in skipped]
    assert any(answers for _, answers in rows)
    found = rows_of(answered(command, room, "answered.rows", test_rows.written(rows)).read_bytes())
    return [(row, answers) for row, (_, answers) in zip(rows, found, strict=True) if row[1] != answers]


@pytest.mark.parametrize("flags", [CANONICAL, PROVED], ids=["package", "proved"])
def test_answers_match_stored_rows_and_model(reference, cases, flags, tmp_path):
    for text in test_rows.written(test_rows.all_rows()), test_rows.random_rows(cases(5_000)):
        assert differences([reference(RUST, *flags)], text, tmp_path) == []


def test_page_answers_like_the_package(ours, browser, cases, tmp_path):
    """For random options and lines, docs/try.html shows what the package answers."""
    check_random_lines(browser, cases(1_000), lambda rows: answered([ours], tmp_path, "answered.rows", rows).read_bytes())


@pytest.mark.parametrize("rows", [*ROWS, None], ids=lambda path: path.stem if path else "random")
def test_laws(reference, cases, rows, tmp_path):
    """The calls of getopts::proved answer like those of the package, and laws are true of what rows can't ask."""
    (tmp_path / "rows").write_bytes(rows.read_bytes() if rows else random_cases(7, cases(10_000)))
    run(reference(RUST, *PROVED), "laws", tmp_path / "rows")


def test_recorded_answers(reference, crate, tmp_path):
    """The Rust crate gives the answers that were recorded from it."""
    assert differences([reference(crate)], (VECTORS / "data/recorded.rows").read_bytes(), tmp_path) == []


random_cases = functools.cache(generate.written)


def random_rows(program, room, seed, count):
    """A file of all short lines and random cases, with the answers of a program."""
    return answered([program], room, f"{seed}.rows", random_cases(seed, count))


def test_proved_library_matches_rust_crate(vectors, reference, crate, cases, tmp_path):
    """The proved library gives the Rust crate's answers to random cases."""
    assert run(vectors, random_rows(reference(crate), tmp_path, 1, cases(20_000)))[0].endswith(" 0 differ\n")


@pytest.mark.parametrize("flags, seeds", [(CANONICAL, (1, 2)), (("--no-default-features",), (2, 3)), (PROVED, (3, 4))],
                         ids=["package", "bytes", "proved"])
def test_random_cases_match_rust_crate(reference, crate, cases, flags, seeds, tmp_path):
    ours, theirs = reference(RUST, *flags), reference(crate, *(flags if "--no-default-features" in flags else ()))
    for seed in seeds:
        assert differences([ours], random_rows(theirs, tmp_path, seed, cases(20_000)).read_bytes(), tmp_path) == []


@pytest.mark.full
@pytest.mark.parametrize("other", ["package", "original"])
def test_definitions_match_answers(other, request, cases, tmp_path, monkeypatch):
    """The definitions give the package's answers, and the Rust crate's, to random cases."""
    need_cargo(RUST)
    monkeypatch.setenv("GETOPTS", str(request.getfixturevalue("crate")) if other == "original" else "")
    (tmp_path / "asked.rows").write_bytes(random_cases(5, cases(3_000)))
    check_definitions(tmp_path / "asked.rows", how="--rust")


# ---- other targets

@pytest.mark.full
@pytest.mark.parametrize("target", TARGETS)
def test_crate_on_target(target, tmp_path, request, ours, example):
    """With Debian's rustc 1.63: getopts' public tests, the rows, the example, arguments of any bytes, and no `std`."""
    copy_tree(tmp_path, "bindings/rust", "tests/differential/reference")
    reference, tests = tmp_path / "tests/differential/reference", [tmp_path / "bindings/rust/tests/os.rs"]
    with open(reference / "Cargo.toml", "a") as file:
        file.write(f'\n[patch.crates-io]\ngetopts = {{ path = "{tmp_path}/bindings/rust/getopts" }}\n')
    for folder in ("src/bin", "tests"):
        (reference / folder).mkdir()
    shutil.copy(RUST / "examples/show.rs", reference / "src/bin")
    panics = [] if target in UNWINDS else ["panics", "test_long_name_too_short", "test_undefined_opt_present"]
    left_out = [word for name in panics for word in ("--skip", name)]
    crate = request.config.getoption("--getopts")
    if crate and (Path(crate) / "tests/public.rs").exists():
        tests.append(Path(shutil.copy(Path(crate) / "tests/public.rs", reference / "tests")))
    for file in tests:
        said, _ = cargo_for(target, file.parents[1], "test", "--release", "--test", file.stem, "--", *left_out)
        # With wine, a program that panics exits with status 0.
        names = re.findall(r"#\[test\]\n(?:#.*\n)*fn (\w+)", file.read_text())
        assert passed(said) == [len([name for name in names if not any(skip in name for skip in panics)])]
    cargo_for(target, reference, "build", "--release", "--features", "canonical")
    cargo_for(target, tmp_path / "bindings/rust", "build", "--no-default-features", "--features", "proved")
    by, built = runner(target, tmp_path), reference / "target" / target / "release"
    program = {path.stem: path for path in built.iterdir() if path.suffix in ("", ".exe", ".wasm") and path.is_file()}
    for rows in ROWS:
        skipped = LACKS if target in UNWINDS else LACKS | {"lawful"}
        assert differences([*by, program["reference"]], rows.read_bytes(), tmp_path, skipped) == []
    words = LINES[1].split()
    said, status = answer(example, *words)
    there = run(*by, program["show"], *words)[0].replace("\r", "")
    assert (there.encode(), status) == (said, 0)
