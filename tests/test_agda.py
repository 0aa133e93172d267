"""The second prover: Agda proves the lemmas of laws.rt too, and rejects wrong definitions. It also compiles the definitions,
which answer test cases."""

import re
import shutil

import pytest
import test_rows
from conftest import ROOT, answer, check_definitions, run_definitions

CRATE = ROOT / "crates/getopts"
LAWS = (CRATE / "src/laws.rt").read_text(encoding="utf-8")


@pytest.mark.full
def test_theorems_are_proved_and_wrong_ones_rejected():
    said, status = run_definitions("--wrong")
    said = said.decode()
    lemmas = len(re.findall(r"^pub fn", LAWS, re.M))
    assert status == 0 and f"proves {LAWS.count('ensures ')} clauses of {lemmas} lemmas" in said, said
    assert ("the functions of Std.agda are those" if shutil.which("rt") else "only rt can compare") in said


@pytest.mark.full
def test_definitions_match_stored_rows_and_model(cases, tmp_path):
    """The definitions give the stored answers, and model.py's to the same rows as the library and the Rust package do."""
    (tmp_path / "all.rows").write_bytes(test_rows.written(test_rows.all_rows()))
    (tmp_path / "random.rows").write_bytes(test_rows.random_rows(cases(5_000)))
    check_definitions(tmp_path / "all.rows", tmp_path / "random.rows")


@pytest.mark.full
def test_wrong_answer(tmp_path):
    """An answer that isn't what the definitions give is reported, and so are calls that they don't answer."""
    (tmp_path / "some.rows").write_text("case\tone\noptflag\ta\t\t\nlawful\ta\t\n> lawful\ttrue\nwords\t-a\n> accepted\t0\n")
    said = check_definitions(tmp_path / "some.rows", wrong=1)
    assert "some.rows: words\t-a\n  stored:  accepted\t0\n  defined: accepted\t-\n" in said
    assert said.endswith("\nnot answered: 1 lawful\n")


@pytest.mark.parametrize("old, new, why", [
    ("    ensures parse {", "    requires never { ⊥ }\n    ensures parse {", "can't read equal_input_equal_results"),
    ("fn results_are_computed()", "fn results_are_computed<T>()", "can't read results_are_computed"),
    ("HasResults", "ReturnsResult", "a lemma needs this, but Fail isn't translated"),
    ("pub fn results", "/*\npub fn results", "can't read each lemma"),
    ("pub fn results", "#[cfg(test)]\npub fn results", "can't read each lemma")],
    ids=["premise", "parameter", "type", "comment", "cfg"])
def test_untranslated_parts_of_lemmas(tmp_path, old, new, why):
    """A lemma with a premise, with a type parameter, about a type of Rust, or that isn't part of the crate stops the
    translation."""
    for part in ("specs", "src"):
        shutil.copytree(CRATE / part, tmp_path / part)
    (tmp_path / "src/laws.rt").write_text(LAWS.replace(old, new), encoding="utf-8")
    said, status = answer("python3", ROOT / "agda/translate.py", tmp_path, tmp_path / "gen")
    assert status == 1 and why in said.decode(), said.decode()
