"""test.sh and bindings/release.sh, with stand-ins for programs that take long."""

import os
import re
import shutil
import struct
import tarfile

import pytest
from conftest import NOBODY, ROOT, answer, copy_tree, need, run, script, tracked
from targets import commit_repository

VERSION = re.search(r'^version = "(.*)"', (ROOT / "bindings/rust/Cargo.toml").read_text(), re.M)[1]
# Logs how a program is called. Its status is 1 if the variable FAIL names one of its arguments, or the program.
LOGS = '#!/bin/sh\nline="{name} $*"\necho "$line" >>"{log}"\ncase $line in *${{FAIL:-nothing}}*) exit 1 ;; esac\n'


# ---- test.sh

@pytest.fixture
def test_sh(tmp_path):
    """test_sh(WORD.., FAIL=.., status=..) runs a copy of test.sh: its output, its errors, and the calls of rt and pytest."""
    for folder in ("copy", "bin", "home", "cache"):
        (tmp_path / folder).mkdir()
    shutil.copy(ROOT / "test.sh", tmp_path / "copy")
    log = tmp_path / "log"
    (tmp_path / "copy/bindings").mkdir()
    script(tmp_path / "copy/bindings/build.py", LOGS.format(name="build.py", log=log))
    for name in ("rt", "python3"):
        # To find pytest, test.sh tries to import it.
        script(tmp_path / "bin" / name, LOGS.format(name=name, log=log).replace("line=", '[ "$1" != -c ] || exit 0\nline=', 1))

    def called(*words, status=0, **env):
        log.write_text("")
        said, errors = run("bash", tmp_path / "copy/test.sh", *words, status=status, cwd=tmp_path, env={
            "PATH": f"{tmp_path}/bin:/usr/bin:/bin", "HOME": str(tmp_path / "home"), "XDG_CACHE_HOME": str(tmp_path / "cache"),
            "FAIL": "", "CI": "", **env})
        return said, errors, sorted(log.read_text().splitlines())

    return called


@pytest.mark.parametrize("fail, parts", [
    ("rt ci", "proofs"), ("build.py", "shell binaries"), ("-m not built", "tests"), ("-m built", "tests of what is built"),
    ("pytest", "tests; tests of what is built"), (" ", "proofs; tests; tests of what is built")])
def test_failed_parts_are_reported(test_sh, fail, parts):
    said, _, _ = test_sh("--no-install", FAIL=fail, status=1)
    assert said.splitlines()[-1] == f"failed: {parts}" and "all passed" not in said
    assert re.findall("^== (.*): status 1", said, re.M) == parts.split("; ")


@pytest.mark.parametrize("folder, mode, owner, group, shared", [
    ("", 0o1777, -1, -1, True), ("copy", 0o757, -1, -1, True), ("", 0o775, 0, 100, True), ("", 0o755, 65534, -1, True),
    ("home", 0o757, -1, -1, True), ("cache", 0o757, -1, -1, True), ("home", "list", -1, -1, True),
    ("", 0o775, 0, 0, False), ("", 0o755, 0, 100, False)])
def test_shared_folders(test_sh, tmp_path, folder, mode, owner, group, shared):
    """Python, cargo and rustup would read what other users put into the clone, HOME or the cache, or beside them."""
    if (owner, group) != (-1, -1) and os.getuid() != 0:
        pytest.skip("needs root, for chown")
    os.chown(tmp_path / folder, owner, group)
    if mode == "list":
        # With this access list, nobody may write, and `mode` would be 775.
        fields = [*(1, 7, 2**32 - 1), *(2, 7, NOBODY), *(4, 5, 2**32 - 1), *(16, 7, 2**32 - 1), *(32, 5, 2**32 - 1)]
        try:
            os.setxattr(tmp_path / folder, "system.posix_acl_access", struct.pack("<I" + "HHI" * 5, 2, *fields))
        except OSError:
            pytest.skip("this file system has no access lists")
    else:
        (tmp_path / folder).chmod(mode)
    _, errors, calls = test_sh("--no-install", "--quick", status=2 * shared)
    said = f"test.sh: other users can put programs into {tmp_path / folder}: "
    assert errors.startswith(said if shared else "") and len(calls) == (not shared)
    assert len(test_sh("--no-install", "--quick", CI="true")[2]) == 1


# ---- release.sh

@pytest.fixture(scope="module")
def clone(tmp_path_factory):
    """A clean clone in which these scripts only log how they are called, and `rt` on which crates."""
    need("git", "cargo", "gzip")
    if answer("cargo", "package", "--exclude-lockfile", "--help")[1]:
        pytest.skip("cargo is older than 1.84: install a newer one from https://rustup.rs")
    room = tmp_path_factory.mktemp("release")
    clone = copy_tree(room / "clone")
    for name in ("test.sh", "bindings/build.py", "bindings/rust/erase.py"):
        script(clone / name, LOGS.format(name=name.split("/")[-1], log=room / "log"))
    (room / "bin").mkdir()
    script(room / "bin/rt", LOGS.format(name="$(sed 's/:.*//' crates.txt | xargs): rt", log=room / "log"))
    page = (clone / "CHANGELOG.md").read_text()
    for copy in ("CHANGELOG.md", "bindings/rust/CHANGELOG.md"):
        (clone / copy).write_text(re.sub("^## .*", f"## {VERSION}, 2026-11-28", page, count=1, flags=re.M))
    commit_repository(clone)
    return clone


def unpacked(archive, folder):
    """The files of an archive, by their paths in this folder: the mode and the contents of each."""
    with tarfile.open(archive) as files:
        return {it.name.removeprefix(f"{folder}/"): (it.mode & 0o777, files.extractfile(it).read())
                for it in files if it.isfile()}


CHECKS = ["test.sh --quick --no-install -k versions or changelog -q", "erase.py --check"]
OF_KIT = "getopts getopts_uses: rt ci"


def release(clone, *words, status=0, **env):
    """Runs release.sh: its errors, the calls that it logs, and its last line."""
    (clone.parent / "log").write_text("")
    env = {"TESTED": "1", "FAIL": "nothing", "PATH": f"{clone.parent}/bin:{os.environ['PATH']}", **env}
    said, errors = run(clone / "bindings/release.sh", *words, status=status, env=env)
    return errors, (clone.parent / "log").read_text().splitlines(), said.rpartition("release.sh: ")[2]


def test_files_of_a_release(clone):
    (clone / "tests/out/release").mkdir(parents=True)
    (clone / "tests/out/release/old").write_text("")
    errors, calls, said = release(clone, VERSION, clone)
    assert (errors, calls) == ("", [*CHECKS, OF_KIT])
    assert said.startswith("without tests, and without comparing the shell binaries with their source, all is checked. ")
    out, name = clone / "tests/out/release", f"getopts-{VERSION}"
    binaries = {f"getopts_shell-{VERSION}-{machine}": machine for machine in ("x86_64", "aarch64")}
    files = {f"{name}.tar.gz", f"{name}-kit.tar.gz", f"proved-getopts-{VERSION}.crate", *binaries}
    assert {path.name for path in out.iterdir()} == {"SHA256SUMS", *files}
    sums = (out / "SHA256SUMS").read_text()
    assert run("sha256sum", "-c", "SHA256SUMS", cwd=out)[0] == "".join(f"{file}: OK\n" for file in sorted(files))
    for file, machine in binaries.items():
        assert (out / file).read_bytes() == (ROOT / f"bindings/shell/{machine}/getopts_shell").read_bytes()
    source = unpacked(out / f"{name}.tar.gz", name)
    assert sorted(source) == sorted(tracked()) and source["bindings/release.sh"][0] == 0o775
    taken = [it for it in tracked() if re.match(r"crates/getopts(_uses)?/(?!must-fail|mutants)", it)]
    of_kit = {file: text for file, (_, text) in unpacked(out / f"{name}-kit.tar.gz", "getopts").items()}
    before, after = (ROOT / "crates/getopts/README.md").read_bytes().split(b"<!-- promises -->\n")
    promises = of_kit["README.md"].removeprefix(before).removesuffix(after)
    assert re.findall(rb"^(\d)\. ", promises, re.M) == [b"%d" % n for n in range(1, 9)] and b"](" not in promises
    assert b"\n#" not in promises and of_kit == {
        re.sub(r"crates/getopts(_uses)?/", lambda of: "uses/" if of[1] else "", it): (ROOT / it).read_bytes() for it in taken
    } | {"README.md": before + promises + after}
    packed = unpacked(out / f"proved-getopts-{VERSION}.crate", f"proved-getopts-{VERSION}")
    assert {"LICENSE-MIT", "LICENSE-APACHE", "NOTICE", "src/proved/mod.rs", "Cargo.toml"} <= packed.keys()
    assert "Cargo.lock" not in packed
    assert packed["CHANGELOG.md"][1] == (clone / "CHANGELOG.md").read_bytes()
    settings = clone.parent / "settings"
    settings.write_text("[core]\nautocrlf = true\n[tar]\numask = 0077\n")
    release(clone, VERSION, clone, GIT_CONFIG_GLOBAL=str(settings))
    assert sums == (out / "SHA256SUMS").read_text()


def test_attributes_that_change_the_tarball(clone):
    (clone / "bindings/rust/src/convert.rs").write_text("// $Format:%b$\n")
    commit_repository(clone)
    for attribute in ("bindings/rust/src/convert.rs export-subst", "agda export-ignore"):
        (clone / ".git/info/attributes").write_text(attribute)
        errors, calls, _ = release(clone, VERSION, clone, status=1)
        assert attribute.split()[0] in errors and calls == []
        assert errors.endswith("\nrelease.sh: the tarball would differ from a clone: see 'git help attributes'\n")
