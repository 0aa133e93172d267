"""The fuzzers of tests/fuzz can be built, and find nothing in some seconds, always from the same seed."""

from pathlib import Path

import pytest
from conftest import ROOT, copy_tree, need, run
from targets import need_cargo


@pytest.mark.full
@pytest.mark.parametrize("target, runs", [("shell", 20_000), ("c", 8_000)])
def test_fuzzer(target, runs, tmp_path):
    need("clang")
    need_cargo(ROOT / "bindings/c")
    libraries = Path(run("rustc", "--print", "target-libdir")[0].strip())
    if not list(libraries.glob("librustc*_rt.asan.a")):
        pytest.skip("rustc has no AddressSanitizer: install Rust from https://rustup.rs")
    fuzz = copy_tree(tmp_path, "bindings/c", "bindings/rust", "bindings/shell", "tests/fuzz") / "tests/fuzz"
    (tmp_path / "inputs").mkdir()
    run(ROOT / "tests/fuzz/seeds.py", target, tmp_path / "inputs")
    run(fuzz / "build.sh", target, tmp_path)
    _, said = run(tmp_path / target, "-max_len=600", "-len_control=0", "-seed=1", f"-runs={runs}", tmp_path / "inputs", cwd=tmp_path)
    assert f"\nDone {runs} runs" in said
