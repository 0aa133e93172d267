"""Mutants: each applies to the sources, and the body of each public function of getopts has one. `rt ci` tries those in
a folder `must-fail`, and this file, before a release, those in a folder `mutants`.

The checker may reject a mutant only because of its form. For each mutant that adds a loop, a `return` or a function, correct
code of the same form was proved, except for `equality_of_flat_lists`, `missing_before_duplicated` and, of the mutants of `opt`
and similar calls, all but `failed_opt_is_long_only`."""

import re
import shutil
from concurrent.futures import ThreadPoolExecutor

import pytest
from conftest import ROOT, answer, copy_tree, run, tracked

MUTANTS = [ROOT / name for name in tracked() if re.match(r"crates/\w+/(must-fail|mutants)/.*\.edit$", name)]
FOR_RELEASE = sorted({mutant.parts[-3] for mutant in MUTANTS if mutant.parent.name == "mutants"})
FUNCTION = re.compile(r"^( *)(pub )?fn (\w+)(.*?)^\1\{?\}$", re.M | re.S)
# Public functions that can't return anything else.
ONLY_RESULT = {"Fail::from"}


def changes(mutant):
    """Each file that a mutant changes, with each old text and its replacement."""
    name = None
    for line in mutant.read_text(encoding="utf-8").split("\n"):
        kind, _, text = line.partition(":")
        if kind == "file":
            name = text.strip()
        elif kind == "old":
            old = text[1:]
        elif kind == "new":
            yield mutant.parents[1] / name, old, text[1:]


def test_mutants_apply():
    failures = []
    for mutant in MUTANTS:
        texts = {}
        for path, old, new in changes(mutant):
            text = texts.get(path) or path.read_text(encoding="utf-8")
            if text.count(old) != 1:
                failures.append(f"{mutant.name}: found {text.count(old)} times in {path.name}, not once: {old}")
            texts[path] = text.replace(old, new)
    assert MUTANTS and not failures, "\n".join(failures)


def body_of(function):
    """Where the body of a function begins in its text. After clauses, the brace has a line of its own."""
    return (re.search(rf"^{function[1]}\{{", function[0], re.M) or re.search(r" \{$", function[0], re.M)).start()


def functions_in(text):
    """The functions of a source, each with the first line of its `impl`, and its name after its type's."""
    for it in FUNCTION.finditer(text):
        impl = re.findall(r"^impl.*", text[: it.start()], re.M)[-1] if it[1] else ""
        yield it, impl, re.sub(r"^impl(?:<.*?>)? (?:.* for )?(\w+).*", r"\1::", impl) + it[3]


def test_public_functions_have_mutants():
    crate = ROOT / "crates/getopts"
    uses = re.findall(r"^pub use.*", (crate / "src/lib.rt").read_text(encoding="utf-8"), re.M)
    types = set(re.findall(r"\b[A-Z]\w+", "".join(uses)))
    edits = [edit for mutant in MUTANTS for edit in changes(mutant)]
    names, without = [], []
    for path in sorted(crate.glob("src/*.rt")):
        text = path.read_text(encoding="utf-8")
        # What is only added after a clause is another body. A mutant that changes a clause says nothing about the body.
        places = [(text.find(old), new.startswith(old)) for of, old, new in edits if of == path]
        for it, impl, name in functions_in(text):
            is_public = it[2] or " for " in impl and name.split("::")[0] in types
            if not is_public or "->" not in re.split(r"\n *(?:ensures|requires|\{)", it[4])[0]:
                continue
            names.append(name)
            start, body = it.start(), it.start() + body_of(it)
            mutated = any((start if adds else body) <= place < it.end() for place, adds in places)
            if not mutated and name not in ONLY_RESULT:
                without.append(name)
    assert len(names) > 50 and not without, f"no mutant of their own: {without}"


def rejected(crate, mutants, copy):
    """How many of these mutants are rejected in a copy of the repository, and what `rt` prints."""
    copy_tree(copy)
    # What is already proved isn't proved again: libraries and, of this crate, what earlier checks kept.
    for kept in [*ROOT.glob("crates/*/out/rlib"), ROOT / f"crates/{crate}/out/incremental"]:
        if kept.is_dir() and kept.parts[-3:] != (crate, "out", "rlib"):
            shutil.copytree(kept, copy / kept.relative_to(ROOT))
    folder = copy / f"crates/{crate}/must-fail"
    shutil.rmtree(folder, ignore_errors=True)
    folder.mkdir()
    for mutant in mutants:
        shutil.copy(mutant, folder)
    said = answer("nice", "rt", "must-fail", crate, cwd=copy)[0].decode()
    shutil.rmtree(copy)
    # A mutant that only takes a name away says nothing about contracts: for these, `rt` adds words before the colon.
    return len(re.findall(": refused, as it must be(?::|$)", said, re.M)), said


@pytest.mark.release
@pytest.mark.rt
@pytest.mark.timeout(6 * 3600)
@pytest.mark.parametrize("crate", FOR_RELEASE)
def test_mutants_are_rejected(crate, tmp_path):
    """Tries them in copies with at most 25, side by side."""
    mutants = [mutant for mutant in MUTANTS if mutant.parts[-3:-1] == (crate, "mutants")]
    lanes = -(-len(mutants) // 25)
    if crate != "getopts":
        # Proves the library, unless an earlier command did: `rt ci` leaves none that other commands use.
        run("nice", "rt", "check", cwd=ROOT / "crates/getopts_bytes")
    with ThreadPoolExecutor(lanes) as pool:
        results = list(pool.map(rejected, *zip(*((crate, mutants[at::lanes], tmp_path / str(at)) for at in range(lanes)))))
    assert sum(count for count, _ in results) == len(mutants), "".join(said for _, said in results)
