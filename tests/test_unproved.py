"""Tests without proofs: programs with their stored arguments, and the crates' own tests."""

import subprocess

import pytest
from conftest import ROOT, VECTORS, run
from test_rows import all_rows, written

CRATES = sorted(path.parent.name for path in (ROOT / "crates").glob("*/src"))
# Without proofs, getopts_vectors takes minutes for all rows, so test_rows leaves the large ones out.
PROGRAMS = [crate for crate in CRATES if (ROOT / f"crates/{crate}/stdout").exists() and crate != "getopts_vectors"]
pytestmark = [pytest.mark.quick, pytest.mark.rt]


def rt_try(crate, *words, status=0, root=ROOT):
    """The output of `rt try` in a crate. On a busy machine, the default limit of 60 seconds is too short."""
    command = ["nice", "rt", "try", "--seconds", "3000", *words]
    return run(*command, status=status, cwd=root / "crates" / crate, stdin=subprocess.DEVNULL)


@pytest.mark.parametrize("crate", PROGRAMS)
def test_stored_output_without_proofs(crate):
    """The program's output matches the stored one."""
    folder = ROOT / "crates" / crate
    words = (folder / "args").read_text().splitlines() if (folder / "args").exists() else []
    words = [folder / "data" / word if (folder / "data" / word).is_file() else word for word in words]
    status = int((folder / "status").read_text()) if (folder / "status").exists() else 0
    assert rt_try(crate, "--", *words, status=status)[0] == (folder / "stdout").read_text()


@pytest.mark.parametrize("crate, count", [("getopts_greet", 3), ("getopts_show", 2)])
def test_own_tests_of_crate(crate, count):
    assert f"test result: ok. {count} passed" in rt_try(crate, "--test")[0]


def test_stored_answers_without_proofs(tmp_path):
    """All rows except the large ones, which would take minutes unproved."""
    (tmp_path / "beyond.rows").write_bytes(written(all_rows()))
    files = tmp_path / "beyond.rows", VECTORS / "data/allocations.rows", VECTORS / "data/calls.rows"
    assert rt_try("getopts_vectors", "--", *files)[0].count(" 0 differ\n") == len(files)
