"""The conditions of a reading: without one, some line has two readings, and the main theorem isn't proved."""

import re

import pytest
from conftest import ROOT, answer, copy_tree

# Each condition, and a line that has two readings without it. Here, `v` and `verbose` are flags, `o` and `output` require an
# argument, and `c` and `color` may have one. Below is the condition's line in a file of `specs`: in brackets what states it, and
# what to write instead.
LINES = """\
a free word isn't dashed: `-v` is free `-v`; or flags `v`
IsLawfulItem grammar (free word) = ⟨(is_dashed word ≡ false) × |⟩(grammar.style ≡ FloatingFrees)
under `StopAtFirstFree`, free words are the rest: `x` (`StopAtFirstFree`) is rest `x`; or free `x`
IsLawfulItem grammar (free word) = (is_dashed word ≡ false)⟨ × (grammar.style ≡ FloatingFrees)|⟩
the rest isn't empty: no words (`StopAtFirstFree`) are no items; or an empty rest
IsLawfulTail grammar (rest []) = ⟨⊥|⊤⟩
the rest doesn't begin with a dashed word: `-v` (`StopAtFirstFree`) is rest `-v`; or flags `v`
    ⟨(is_dashed word ≡ false) × |⟩(grammar.style ≡ StopAtFirstFree)
there is a rest only under `StopAtFirstFree`: `x` is rest `x`; or free `x`
    (is_dashed word ≡ false)⟨ × (grammar.style ≡ StopAtFirstFree)|⟩
one dash precedes a name only in long-only mode: `-v` is option `v`; or flags `v`
MayPrecede long_only one name = ⟨(long_only ≡ true) × |⟩(begins_with_dash name ≡ false)
a name after one dash doesn't begin with `-`: `--v` (long-only, name `-v`) is option `v`; or option `-v`
MayPrecede long_only one name = (long_only ≡ true)⟨ × (begins_with_dash name ≡ false)|⟩
a name in long form contains no `=`: `--p=x` (name `p`, name `p=x`) is option `p` = `x`; or option `p=x`
pub cut_once : ⟨holds_equals name ≡ false|⊤⟩
in long form, an option without argument has none: `--verbose x` is option `verbose`, free `x`; or option `verbose` = `x`
FitsKind No (Some value) = ⟨⊥|⊤⟩
in long form, a required argument isn't left out: `--output x` is option `output`, free `x`; or option `output` = `x`
FitsKind Yes None = ⟨⊥|⊤⟩
in long form, an optional argument isn't separate: `--color x` is option `color`, free `x`; or option `color` = `x`
FitsLong Maybe (separate word) = ⟨⊥|⊤⟩
in long-only mode, there are no clusters: `-v` (long-only) is option `v`; or flags `v`
pub ordinary : ⟨grammar.long_only ≡ false|⊤⟩
no `-` follows a cluster's dash: `--` (name `-`) is stop; or flags `-`
pub short_form : ⟨begins_with_dash (bytes ++ end_text end) ≡ false|⊤⟩
a cluster isn't empty: `-` is free `-`; or flags empty
IsLawfulEnd grammar bytes flags = ⟨bytes ≢ []|⊤⟩
flags are of kind `No`: `-cv` is option `c` = `v`; or flags `cv`
IsFlag grammar name = grammar.kind (name ∷ []) ⟨≡ Some No|≢ None⟩
a cluster's last option isn't of kind `No`: `-v` is option `v`; or flags `v`
FitsEnd kind none = kind ⟨≡ Maybe|≢ Yes⟩
in a cluster, a required argument isn't left out: `-o -v` is option `o`, flags `v`; or option `o` = `-v`
FitsEnd kind none = kind ⟨≡ Maybe|≢ No⟩
in a cluster, an option without argument has no attached one: `-vv` is option `v` = `v`; or flags `vv`
FitsEnd kind (attached argument) = ⟨(kind ≢ No) × |⟩(argument ≢ [])
in a cluster, an attached argument isn't empty: `-o x` is option `o` = empty, free `x`; or option `o` = `x`
FitsEnd kind (attached argument) = (kind ≢ No)⟨ × (argument ≢ [])|⟩
in a cluster, an option without argument has no separate one: `-v x` is option `v` = `x`; or flags `v`, free `x`
FitsEnd kind (separate word) = ⟨(kind ≢ No) × |⟩(kind ≡ Maybe → is_dashed word ≡ false)
in a cluster, an optional separate argument isn't dashed: `-c -v` is option `c`, flags `v`; or option `c` = `-v`
FitsEnd kind (separate word) = (kind ≢ No)⟨ × (kind ≡ Maybe → is_dashed word ≡ false)|⟩
after a bare cluster, the line ends or a dashed word follows: `-c x` is option `c`, free `x`; or option `c` = `x`
EndsOrIsDashed (word ∷ words) = ⟨is_dashed word ≡ true|⊤⟩
a group has a name: `--` (name empty) is stop; or option empty
pub named : 0 ⟨<|≤⟩ length short + length long
""".splitlines()
CONDITIONS = dict(zip(LINES[::2], LINES[1::2]))


def without(condition, specs):
    """The file of `specs` that states a condition, and its text without it."""
    front, stated, instead, back = re.split("[⟨|⟩]", CONDITIONS[condition])
    texts = {file: file.read_text(encoding="utf-8") for file in (specs / "Reading.antt", specs / "Names.antt")}
    (file, text), = (it for it in texts.items() if front + stated + back in it[1])
    return file, text.replace(front + stated + back, front + instead + back, 1)


@pytest.mark.parametrize("condition", CONDITIONS)
def test_conditions_are_stated(condition):
    assert without(condition, ROOT / "crates/getopts/specs")


@pytest.mark.release
@pytest.mark.rt
@pytest.mark.parametrize("condition", [None, *CONDITIONS])
def test_theorem_needs_each_condition(condition, tmp_path):
    """Without a condition, `rt check` rejects the main theorem, and not only its changed definition. With all, it accepts it."""
    crate = copy_tree(tmp_path / "copy") / "crates/getopts"
    if condition:
        file, text = without(condition, crate / "specs")
        file.write_text(text, encoding="utf-8")
    said, status = answer("nice", "rt", "check", "--jobs", "1", "--only", "one_reading_one_canonical_line", cwd=crate)
    proved = re.search(rb"^only=(\d+) proved=\1$", said, re.M)
    assert (proved is not None, status == 0) == (condition is None, condition is None), said.decode()[-2000:]
    assert condition is None or b"\n./proofs/" in said and b" is not in scope" not in said, said.decode()[:2000]
