"""The built programs when allocations fail: the first, then the second, and so on until a run has no failure, once with
only that failure and once with all later allocations failing too."""

import subprocess

import pytest
from conftest import LINES, VECTORS, fail_each_allocation

TABLE = "[-v|--verbose]..  say more\n-o|--output FILE  write to FILE\n[-V|--version]!  print it\n[-h|--help]  print this help"
# The program's own help, a script's help, parsed words, an option given alone, a completion script, and variables.
SHELL_LINES = ["-h", "-u backup TABLE", "backup TABLE -h", "backup TABLE -V", "-V o_ backup TABLE -vV",
               "-c zsh backup TABLE", "backup TABLE -vo x y"]
# What programs report.
NO_MEMORY = b"getopts_%s: out of memory\n"


def failures(vectors, failing_malloc, rows, keeps=0):
    done = subprocess.run([vectors, rows], stdout=subprocess.PIPE, check=True)
    return fail_each_allocation(failing_malloc, [vectors, rows], (done.stdout, 3), NO_MEMORY % b"vectors", keeps, marks=True)


def test_library_when_allocations_fail(vectors, failing_malloc):
    """All calls of the library but those that the Rust tests make (allocations.rs). After a failure, the row is answered
    again, which shows that borrowed values didn't change."""
    assert failures(vectors, failing_malloc, VECTORS / "data/allocations.rows") > 600


def test_long_line(vectors, failing_malloc, tmp_path):
    """100,000 options in one word, and values of 1,100 bytes. Lists grow while words are read, and `words` reports out of
    memory for each failed allocation: the status is 3. Only if the list of options or the text of values can't be made
    smaller at the end, the answer is right."""
    rows, words = tmp_path / "line.rows", f"-{'v' * 100_000}\t-o{'x' * 1_000}\t-o{'x' * 100}"
    rows.write_text(f"case\tlong line\noptflagmulti\tv\t\td\noptmulti\to\t\td\tH\n! words\t{words}\n> accepted\t-\n")
    assert failures(vectors, failing_malloc, rows, keeps=2) > 40


@pytest.mark.parametrize("line", LINES[:4])
def test_getopts_show_when_allocations_fail(show, failing_malloc, line):
    assert fail_each_allocation(failing_malloc, [show, *line.split()])


@pytest.mark.parametrize("line", SHELL_LINES)
def test_getopts_shell_when_allocations_fail(shell, failing_malloc, line):
    words = [TABLE if word == "TABLE" else word for word in line.split()]
    assert fail_each_allocation(failing_malloc, [shell, *words], errors=NO_MEMORY % b"shell")
