"""The library's answers to rows, compared with stored answers and with model.py."""

import functools

import generate
import pytest
from conftest import ROWS, VECTORS, run, run_definitions
from model import answer_rows, rows_of


@pytest.fixture
def compare(vectors, tmp_path):
    """Runs getopts_vectors on rows, and returns its output."""
    def compared(text, status=0):
        (tmp_path / "some.rows").write_bytes(text)
        return run(vectors, "some.rows", status=status, cwd=tmp_path)
    return compared


def written(rows):
    return b"".join(each + b"\n" for one, answers in rows for each in [one, *(b"> " + answer for answer in answers)])


@functools.cache
def all_rows():
    """All rows, and more that model.py answers: whether words give a flag, canonical lines, orders, and the positions of
    names."""
    rows = [row for file in ROWS for row in rows_of(file.read_bytes())]
    asked, given, differ = answer_rows(rows)
    assert not differ, b"\n  ".join(differ[0]).decode()
    assert given > 6_500 and len(asked) > len(rows) + 20_000
    return asked


@functools.cache
def random_rows(count):
    """All short lines, random cases, and more rows about their words, with the answers of model.py."""
    return written(answer_rows(rows_of(generate.written(7, count)), stored=False)[0])


def test_model_matches_stored_rows():
    assert all_rows()


def test_library_matches_model(compare, cases):
    for text in written(all_rows()), random_rows(cases(5_000)):
        assert compare(text)[0].endswith(" 0 differ\n")


@pytest.mark.full
def test_library_matches_definitions(compare, cases, tmp_path):
    (tmp_path / "asked.rows").write_bytes(generate.written(9, cases(2_000)))
    answers, status = run_definitions("--print", tmp_path / "asked.rows")
    assert status == 0 and compare(answers)[0].endswith(" 0 differ\n")


def test_library_matches_stored_rows(vectors):
    status = int((VECTORS / "status").read_text())
    said, _ = run(vectors, *(VECTORS / "args").read_text().split(), status=status, cwd=VECTORS / "data")
    assert said == (VECTORS / "stdout").read_text()


def test_difference(compare):
    """An answer that isn't as expected is reported, also if others are."""
    said, _ = compare(b"case\tone\nlawful\ta\t\n> lawful\ttrue\nlawful\tab\t\n> lawful\ttrue\n", status=1)
    assert said == "some.rows: line 4 of one, expected:\nlawful\ttrue\nanswered:\nlawful\tfalse\n1 differ\n"
