"""Generated files that are checked in: the shell binaries, which `test.sh` compares with what their source gives; and the
erased Rust, which is generated again, and has to be up to date."""

import hashlib
import importlib.util
import shutil
from pathlib import Path

import pytest
from conftest import ROOT, copy_tree, kit, need_rustfmt, run, shell_binary

SAME = "bindings/shell/{}/getopts_shell is what its source gives, byte for byte\n"


@pytest.fixture
def build(tmp_path):
    """build.py as a module, for a copy of bindings/shell, with stand-ins for musl and the compiler, which gives the same
    binaries."""
    shell_binary()
    spec = importlib.util.spec_from_file_location("build", ROOT / "bindings/build.py")
    build = importlib.util.module_from_spec(spec)
    spec.loader.exec_module(build)
    binaries = {it: (build.FOLDER / it / "getopts_shell").read_bytes() for it in build.PROCESSORS}
    for file in (tmp_path / it / name for it in build.PROCESSORS for name in build.MUSL):
        file.parent.mkdir(exist_ok=True)
        file.write_text("")
    vars(build).update(
        ROOT=copy_tree(tmp_path, "bindings/shell"), FOLDER=tmp_path / "bindings/shell", built=[],
        musl_for=lambda processor: tmp_path / processor, build=lambda processor, to: build.built.append(processor),
        link=lambda processor, to, of: Path(to).write_bytes(binaries[processor]))
    (build.FOLDER / "proved.sha256").write_text("\n".join(build.versions(build.PROCESSORS)))
    return build


def check_sums(folder):
    """Both binaries have their checksums beside them."""
    for processor in ("x86_64", "aarch64"):
        checksum = hashlib.sha256((folder / processor / "getopts_shell").read_bytes()).hexdigest()
        assert (folder / processor / "getopts_shell.sha256").read_text() == f"{checksum}  getopts_shell\n"


def test_binaries_match_checksums():
    shell_binary()
    check_sums(ROOT / "bindings/shell")


@pytest.mark.rt
def test_rebuilt_binaries(build, capsys):
    """Both binaries are replaced by what was built and linked for their processors. With `--check`, they are only compared."""
    build.build = lambda processor, to: Path(to).write_text(f"object for {processor}\n")
    build.link = lambda processor, to, of: Path(to).write_text(Path(of).read_text() + processor)
    (build.FOLDER / "proved.sha256").unlink()
    build.main([])
    for processor in build.PROCESSORS:
        binary = build.FOLDER / processor / "getopts_shell"
        assert binary.read_text() == f"object for {processor}\n{processor}" and binary.stat().st_mode & 0o777 == 0o755
    check_sums(build.FOLDER)
    capsys.readouterr()
    build.main(["--check"])
    assert capsys.readouterr().out == SAME.format("x86_64") + SAME.format("aarch64")


@pytest.mark.rt
def test_missing_musl(build, capsys, tmp_path):
    """Nothing is proved if one of the programs couldn't be linked. `--check` then compares the other."""
    shutil.rmtree(tmp_path / "aarch64")
    lacking = f"{tmp_path}/aarch64/libc.a is missing: apt-get install musl-dev, or musl-dev:arm64"
    with pytest.raises(SystemExit, match=f"^build.py: {lacking}$"):
        build.main([])
    assert build.built == []
    build.main(["--check"])
    assert build.built == ["x86_64"] and capsys.readouterr().out == (
        f"bindings/shell/aarch64/getopts_shell isn't compared with its source: {lacking}\n" + SAME.format("x86_64"))
    assert "aarch64/libc.a" in (build.FOLDER / "proved.sha256").read_text()


@pytest.mark.rt
def test_changed_binary_is_found(build, capsys):
    """A changed checksum doesn't hide a change."""
    binary = build.FOLDER / "aarch64/getopts_shell"
    binary.write_bytes(binary.read_bytes() + b"\n")
    Path(f"{binary}.sha256").write_text(f"{build.sum_of(binary)}  getopts_shell\n")
    with pytest.raises(SystemExit, match="^build.py: bindings/shell/aarch64/getopts_shell isn't what its source gives: "):
        build.main(["--check"])
    assert capsys.readouterr().out == SAME.format("x86_64")


@pytest.mark.rt
def test_other_musl(build, tmp_path):
    """Another musl isn't mistaken for a changed binary."""
    (tmp_path / "x86_64/libc.a").write_text("other")
    said = f"build.py: the shell binaries weren't built with this machine's {tmp_path}/x86_64/libc.a"
    with pytest.raises(SystemExit, match=f"^{said}$"):
        build.main(["--check"])
    assert build.built == []


def test_erased_rust_matches_source():
    need_rustfmt()
    assert run(ROOT / "bindings/rust/erase.py", "--check") == ("the erased Rust is up to date\n", "")


def test_stale_rust_is_found(tmp_path):
    """`--check` reports files that differ, are missing or have no source, also in subfolders, and changes nothing. A carriage
    return is a difference: rustc doesn't end a comment there, so it could hide code."""
    need_rustfmt()
    folder = copy_tree(tmp_path / "copy") / "bindings/rust/src/proved"
    with open(folder / "scan.rs", "a", encoding="utf-8") as changed:
        changed.write("// A comment.\n")
    (folder / "counts.rs").write_bytes((folder / "counts.rs").read_bytes().replace(b"\n", b"\r", 1))
    (folder / "more").mkdir()
    for file in ("more/mod.rs", "more.inc"):
        (folder / file).write_text("")
    (folder / "wrap.rs").unlink()
    before = {path: path.read_bytes() for path in folder.rglob("*.*")}
    said, _ = run(tmp_path / "copy/bindings/rust/erase.py", "--check", status=1)
    stale = ("counts.rs", "more.inc", "more/mod.rs", "scan.rs", "wrap.rs")
    assert said == "".join(f"{folder / file} is out of date: run bindings/rust/erase.py\n" for file in stale)
    assert run(tmp_path / "copy/bindings/rust/erase.py", "--chek", status=2)[1] == "usage: bindings/rust/erase.py [--check]\n"
    assert {path: path.read_bytes() for path in folder.rglob("*.*")} == before


@pytest.mark.parametrize("file", ["LICENSE-MIT", "LICENSE-APACHE", "NOTICE"])
def test_licences(file):
    for folder in ("crates/getopts", "bindings/rust", "bindings/rust/getopts"):
        assert (ROOT / folder / file).read_bytes() == (ROOT / file).read_bytes()


@pytest.mark.rt
def test_licence_of_unicode_width():
    """The shell binaries contain the toolchain's unicode_width, whose licences have to come with them."""
    for file in ("LICENSE-MIT", "LICENSE-UNICODE"):
        assert (kit() / "rattle/unicode_width" / file).read_text() in (ROOT / "bindings/shell/LICENSE-unicode").read_text()
