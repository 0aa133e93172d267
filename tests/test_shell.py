"""getopts_shell: its output, and what each installed shell does with its code. Also: installation, start.c, the manual
page.

All programs have to print the same: the proved one, the checked-in ones (for aarch64 in qemu), and the one that cargo
builds, also for Windows. So only one of them is tried in each shell."""

import os
import random
import re
import shlex
import shutil
import subprocess
import tempfile
import textwrap
from pathlib import Path

import pytest
from conftest import (MACHINE, MARGIN, ROOT, answer, check_definitions, check_page, copy_tree, files_in, need, need_compiler,
                      planted_links, read_only, rows_in, run, script, shell_binary)
from shell import lines
from targets import cargo, cargo_for, commit_repository, need_cargo, offline, passed, runner, rust_minor

SHELL = ROOT / "bindings/shell"
SHELLS = ["dash", "bash", "bash --posix", "zsh", "ksh93", "mksh", "yash", "busybox sh"]
START = ["-std=c11", "-Wall", "-Wextra", "-Wpedantic", "-Wshadow", "-Wconversion", "-Wno-sign-conversion", "-Werror",
         "-Wl,--wrap=main", ROOT / "tests/system/start.c", SHELL / "start.c", "-o"]


def stored_rows():
    """The rows of answers.rows, with a row for each item instead of the rows 'invalid'."""
    above = None
    for (first, *fields), text in rows_in("tests/shell/answers.rows"):
        if first == "invalid":
            for item in fields:
                # A newline tells a table from a word.
                table = item + "\n" * (item.startswith("-") and " " not in item)
                yield ["5", "x", table], f"getopts_shell: line 1 of the table: {item}: {text}"
        else:
            above = above if first == "=" else (first, text)
            yield [above[0], *fields], above[1]


ROWS = [*stored_rows()]
TABLE = next(fields[3] for fields, _ in ROWS if fields[1:3] == ["-u", "backup"])

# The programs, by the names of their fixtures. One worker builds everything that cargo builds.
PROVED = pytest.param("shell", id="proved", marks=pytest.mark.built)
BY_CARGO = pytest.param("by_cargo", marks=pytest.mark.xdist_group("getopts_shell by cargo"))
BY_WINE = pytest.param("by_wine", marks=[pytest.mark.xdist_group("getopts_shell by wine"), pytest.mark.full])
EACH = pytest.mark.parametrize("program", [PROVED, "checked_in", BY_CARGO, "by_qemu", BY_WINE], indirect=True)
HERE = pytest.mark.parametrize("program", [PROVED, "checked_in", BY_CARGO], indirect=True)
# The program that is tried in each shell.
ONE = pytest.param("checked_in") if (SHELL / MACHINE / "getopts_shell").exists() else BY_CARGO
IN_SHELLS = pytest.mark.parametrize("program", [ONE], indirect=True)
# The indices of rows whose arguments are too long for Windows.
LONG = [at for at, (fields, _) in enumerate(ROWS) if sum(map(len, fields)) > 10_000]


@pytest.fixture(scope="session")
def by_qemu(tmp_path_factory):
    if MACHINE == "aarch64":
        pytest.skip("this machine is an aarch64")
    need("qemu-aarch64")
    text = f'#!/bin/sh\nexec qemu-aarch64 "{shell_binary("aarch64")}" "$@"\n'
    return script(tmp_path_factory.mktemp("qemu") / "by_qemu", text)


@pytest.fixture(scope="session")
def by_cargo(tmp_path_factory):
    """The program as cargo installs it from a clone."""
    need_cargo(SHELL)
    room = tmp_path_factory.mktemp("cargo")
    clone = commit_repository(copy_tree(room, "bindings/rust", "bindings/shell") / "bindings")
    words = ["install", *offline()[1:], "--quiet", "--git", clone, "--root", room / "root", "getopts_shell"]
    run("cargo", *words, env={"CARGO_HOME": str(room / "home")})
    return room / "root/bin/getopts_shell"


WINDOWS = "x86_64-pc-windows-gnu"


@pytest.fixture(scope="session")
def for_windows(tmp_path_factory):
    """A copy of the crate's folder, and a function that runs Debian's cargo there, for Windows."""
    folder = copy_tree(tmp_path_factory.mktemp("wine"), "bindings/rust", "bindings/shell") / "bindings/shell"
    # This old cargo can't read today's lock files, and its rustc needs a flag for newer features in the source.
    return folder, lambda word: cargo_for(WINDOWS, folder, word, "--release", "--ignore-rust-version",
                                          env={"RUSTFLAGS": "-Zcrate-attr=feature(let_else)"})[0]


@pytest.fixture(scope="session")
def by_wine(for_windows):
    room, cargo_here = for_windows
    cargo_here("build")
    wine = shlex.join(shutil.which(word) or word for word in runner(WINDOWS, room))
    by = script(room / "by_wine", f'#!/bin/sh\nexec {wine} "{room}/target/{WINDOWS}/release/getopts_shell.exe" "$@"\n')
    # Keep the server running, so that no run meets one that is shutting down. The first run creates wine's folder, and
    # starts processes that would otherwise keep a later run's pipes open.
    (room / "wine").mkdir(exist_ok=True)
    server = shutil.which("wineserver") or next(map(str, Path("/usr/lib/wine").glob("wineserver*")), None)
    alone = {"stdin": subprocess.DEVNULL, "stdout": subprocess.DEVNULL, "stderr": subprocess.DEVNULL, "timeout": 1800}
    if server:
        subprocess.run([server, "-p"], **alone)
    subprocess.run([by, "--help"], **alone)
    yield by
    if server:
        subprocess.run([server, "-k"], **alone)


@pytest.fixture
def program(request, tmp_path_factory, monkeypatch):
    """One of the programs, called getopts_shell and first on the path."""
    folder = tmp_path_factory.getbasetemp() / f"bin-{request.param}"
    if not folder.exists():
        built = request.getfixturevalue(request.param)
        folder.mkdir()
        (folder / "getopts_shell").symlink_to(built)
    monkeypatch.setenv("PATH", f"{folder}:{os.environ['PATH']}")
    return folder / "getopts_shell"


@pytest.fixture
def in_shells(request):
    """The program that is tried in each shell."""
    return request.getfixturevalue(ONE.values[0])


@pytest.fixture(params=SHELLS)
def one_shell(request):
    """The command of one of the shells."""
    words = request.param.split()
    need(words[0])
    return words


# ---- output

@EACH
def test_stored_answers(program):
    wrong = []
    for at, ((status, *words), text) in enumerate(ROWS):
        if at not in LONG or program.parent.name != "bin-by_wine":
            done = subprocess.run([program, *words], capture_output=True)
            said = [str(done.returncode), os.fsdecode(done.stdout), os.fsdecode(done.stderr)]
            if said != [status, *((text, "") if status == "0" else ("", text))]:
                wrong.append(f"{words}: status {said[0]}, {said[1]!r} and {said[2]!r}")
    assert not wrong, "\n".join(wrong)


@EACH
def test_control_characters(program):
    """Errors and usage lines show control characters as octal numbers, and also bytes from 128 to 159 that belong to no
    character below U+10FF80."""
    chars = "".join(map(chr, [*range(1, 61), *range(62, 0x180)]))
    others = b"".join(b"a%c" % byte for byte in range(128, 256)).decode("utf-8", "surrogateescape")
    for word in [chars, "\udcf4\udc8f\udcbf\udcbf"] + [others] * (program.parent.name != "bin-by_wine"):
        shown = re.sub("[\1-\x1f\x7f-\x9f\udc80-\udc9f]", lambda it: f"\\{ord(it[0]) & 0xff:03o}", word)
        line = os.fsencode(f"{shown}: Unrecognized option: '{shown}'\nUsage: {shown} [-a]\n")
        assert answer(program, word, "[-a]\tx", f"--{word}") == (line, 2)


@EACH
def test_completion_matches_other_program(program, in_shells):
    for name in ("bash", "zsh", "fish"):
        words = ["--complete", name, "backup", TABLE]
        assert run(program, *words) == (run(in_shells, *words)[0], "")


@HERE
@pytest.mark.parametrize("way", ["words", "variables", "arrays"])
def test_random_code_matches_other_program(program, in_shells, cases, way):
    count = cases(100, 50)
    assert lines.random_scripts(program, way, count) == lines.random_scripts(in_shells, way, count)


@pytest.mark.full
@pytest.mark.xdist_group("getopts_shell by wine")
def test_arguments_on_windows(by_wine, for_windows):
    """The tests in host.rs, one of them of arguments that aren't Unicode."""
    assert passed(for_windows[1]("test")) == [2]


@HERE
def test_closed_streams(program):
    """The proved program reports failed writes; in the one by cargo, Rust's library has opened /dev/null instead."""
    by_rust = program.parent.name == "bin-by_cargo"
    for words, status, closed in (["--version"], 0, 1), (["n", "[-a]", "-b"], 2, 2), (["n"], 5, 2):
        said = b"getopts_shell: writing the output failed\n" if closed == 1 and not by_rust else b""
        assert answer("sh", "-c", f'exec getopts_shell "$@" {closed}>&-', "sh", *words) == (said, status if by_rust else 4)


def read_by_getopt(options, words):
    """The canonical line of what getopt(1) reads, or None if it rejects the words."""
    colons = {"no": "", "yes": ":", "maybe": "::"}
    shorts = "".join(short + colons[kind] for short, _, kind, _ in options if short)
    longs = ",".join(long + colons[kind] for _, long, kind, _ in options if long)
    wrote, status = answer("getopt", "-o", shorts, "--long", longs, "--", *words)
    if status == 1 and b"getopt: " in wrote:
        return None
    assert status == 0, wrote
    names = {name: place for place, (short, long, _, _) in enumerate(options) for name in (f"-{short}", f"--{long}")}
    wrote, given = shlex.split(os.fsdecode(wrote)), []
    while (name := wrote.pop(0)) != "--":
        kind = options[names[name]][2]
        value = wrote.pop(0) if kind != "no" else None
        given.append((names[name], None if kind == "maybe" and not value else value))
    return lines.canonical(options, given, wrote)


@IN_SHELLS
def test_matches_getopt_and_definitions(program, tmp_path):
    need("getopt")
    if answer("getopt", "--test")[1] != 4:
        pytest.skip("needs getopt from util-linux")
    rng, asked, rows = random.Random(44), 0, []
    while asked < 500:
        options, words, given, _ = lines.case_of(rng, alone=0)
        # With getopt(1), an optional argument must be attached, and an empty one counts as none.
        if any(options[place][2] == "maybe" and value in ["", *words] for place, value in given):
            continue
        if rng.random() < 0.2:
            short, long, kind, _ = rng.choice(options)
            flags = ([f"-{short}x"] if short else []) + ([f"--{long}=a"] if long else []) if kind == "no" else []
            words.insert(0, rng.choice(["-x", "--nope", "--nope=b"] + flags))
        if rng.random() < 0.1 and "--" not in words:
            words += [f"-{short}" if short else f"--{long}" for short, long, kind, _ in options if kind == "yes"][:1]
        said, status = answer(program, "try", lines.written(options), *words)
        assert status == 0 or status == 2 and said.startswith(b"try: "), (words, said)
        ours = None if status else shlex.split(os.fsdecode(said))[2:]
        assert ours == read_by_getopt(options, words), words
        asked += 1
        rows += lines.rows_of(options, words, ours, said)
    (tmp_path / "shell.rows").write_bytes(b"\n".join(rows))
    check_definitions(tmp_path / "shell.rows")


# ---- in each shell

WAYS = [(way, name) for name in SHELLS for way in ("words", "variables", "arrays")
        if way != "arrays" or name.split()[0] in lines.WITH_ARRAYS]


@IN_SHELLS
@pytest.mark.parametrize("way, one_shell", WAYS, indirect=["one_shell"])
def test_random_lines(program, one_shell, tmp_path, cases, way):
    lines.run_in_shell(one_shell, tmp_path, *lines.random_scripts(program, way, cases(500, 40)))


@IN_SHELLS
def test_scripts_on_page(program, one_shell, tmp_path, monkeypatch):
    """The README's first script and its usage line, two loops over options, one with output added, and the examples. Each exits
    if the code fails, as some shells do after a readonly variable."""
    page = (SHELL / "README.md").read_text()
    scripts = [page, *(path.read_text() for path in (SHELL / "examples").iterdir())]
    assert {line for text in scripts for line in re.findall('^ *(eval "\\$code".*)', text, re.M)} == {'eval "$code" || exit'}
    (first, loop), values = re.findall(r"```sh\n(.*?)```", page, re.S)[:2], re.search(r"^    show_folders.*\n.*\n", page, re.M)[0]
    usage, _ = run(program, "--usage", "backup", first.split("'")[1])
    assert f"\n    {usage.splitlines()[0]}\n" in page
    show = "printf '%s\\n' \"$input|$output|$verbose|$color|$folders\"\nfor word do printf '%s\\n' \"$word\"; done\n"
    (tmp_path / "first").write_text(first)
    (tmp_path / "values").write_text(first.replace("for file", values + "for file"))
    (tmp_path / "loop").write_text(first[:first.index("code=")] + loop + show)
    for name in ("backup", "notes"):
        (tmp_path / name).symlink_to(SHELL / "examples" / name)
    (tmp_path / "notes.txt").write_text("")
    # Variables of the environment mustn't influence the scripts.
    for name in ("input", "output", "verbose", "color", "folders", "L", "help"):
        monkeypatch.setenv(name, "1")
        monkeypatch.setenv(f"opt_{name}", "1")
    for (status, *words), text in rows_in("tests/shell/scripts.rows"):
        said = run(*one_shell, *words, status=int(status), cwd=tmp_path)
        wrote, other = said if status == "0" else said[::-1]
        begin = text.removesuffix("...\n")
        assert (wrote if begin == text else wrote[:len(begin)], other) == (begin, ""), words
    code, _ = run(*one_shell, "backup", "--completion", "fish", cwd=tmp_path)
    assert "\n_getopts_shell_complete 'backup' '\n-i|--input FILE " in code


# What the page says about shells, with each shell that it is about.
SENTENCES = [pytest.param(row, name, id=f"{row[0][0]}-{name}") for row in rows_in("tests/shell/sentences.rows")
             for name in SHELLS if row[0][1] == "all" or name.split()[0] in row[0][1].split()]


@IN_SHELLS
@pytest.mark.parametrize("row, one_shell", SENTENCES, indirect=["one_shell"])
def test_sentence_on_page(program, one_shell, row):
    (_, _, out), script = row
    assert subprocess.run([*one_shell, "-c", script], capture_output=True).stdout == out.encode()


@IN_SHELLS
@pytest.mark.parametrize("locale, charmap, word", [("zh_TW", "EUC-TW", b"\x8e\xa1"), ("zh_CN", "GB18030", b"\x810")])
def test_locales_of_bash(program, tmp_path, locale, charmap, word):
    """As the README warns, an argument can run code in these locales, unless the script sets LC_ALL=C."""
    need("bash", "localedef")
    if not Path(f"/usr/share/i18n/charmaps/{charmap}.gz").exists():
        pytest.skip(f"no charmap {charmap}: apt-get install locales")
    answer("localedef", "-i", locale, "-f", charmap, tmp_path / "own")
    assert (tmp_path / "own").exists()
    for setting, runs in ("", True), ("LC_ALL=C", False):
        code = f"""{setting}
code=$(getopts_shell --variables o_ n 'FILE..  x' "$@") || exit
eval "$code\""""
        for shell in ["bash"], ["bash", "--posix"]:
            subprocess.run([*shell, "-c", code, "sh", word, b"\n touch canary #"], cwd=tmp_path, capture_output=True,
                           env={**os.environ, "LOCPATH": str(tmp_path), "LC_ALL": "own"})
            assert (tmp_path / "canary").exists() == runs, (setting, shell)
            (tmp_path / "canary").unlink(missing_ok=True)


# Settings that not every shell has; the others go on without them.
OF_SOME = ["alias set=false unset=false", "(set -k) && set -k", "typeset -i o_v o_L", "typeset -u o_v o_L", "typeset -A o_v o_L",
           "x=1 && typeset -n o_L=x", "setopt RC_QUOTES KSH_ARRAYS GLOB_SUBST SH_WORD_SPLIT", "emulate ksh",
           "shopt -s failglob extglob expand_aliases"]
# Commands that a script may run before it reads its options, each with the shells that fork endlessly after it even
# without getopts_shell.
SETTINGS = {"set -eu": [], "set -fx": [], "set -v": [], "IFS=-_o2": [], "PS4='$(date)'; set -x": ["yash"],
            "trap 'date >/dev/null' CHLD": ["dash", "mksh", "yash", "busybox"],
            **dict.fromkeys((f"{it} 2>/dev/null || :" for it in OF_SOME), [])}
SET = [(setting, name) for setting, forking in SETTINGS.items() for name in SHELLS if name.split()[0] not in forking]


@IN_SHELLS
@pytest.mark.parametrize("setting, one_shell", SET, indirect=["one_shell"])
def test_same_options_after_a_setting(program, one_shell, setting):
    """After such a command, a script reads the same options, and starts few processes. It runs as a user of its own with
    at most thirty processes at a time, and is killed after five minutes."""
    need("unshare", "setpriv", "prlimit")
    if os.getuid() != 0:
        pytest.skip("needs root, to limit another user's processes")
    user, counted = 100_000 + os.getpid(), """timeout -s KILL 300 "$@"; printf '\\0'; sh -c 'echo $$'; :"""
    with tempfile.TemporaryDirectory(dir="/tmp") as room:
        shutil.copy2(program, f"{room}/getopts_shell")
        Path(room, "script").write_text(f"""{setting}
code=$(getopts_shell --variables o_ n "[-v]  say more
[-L DIR]..  a folder" -v -L 1 -L '2 3' "a b") || exit
eval "$code"
printf '%s|' "$o_v" "$o_L" "$1"
""")
        os.chown(room, user, user)
        wrote, _ = run("unshare", "--pid", "--fork", "--kill-child=KILL", "setpriv", f"--reuid={user}", f"--regid={user}",
                       "--clear-groups", "prlimit", "--nproc=30", "sh", "-c", counted, "sh", *one_shell, "script",
                       cwd=room, env={"PATH": f"{room}:{os.environ['PATH']}", "TMPDIR": room})
    wrote, _, count = wrote.rpartition("\0")
    assert wrote == "1|'1' '2 3'|a b|" and int(count) < 25


@pytest.mark.parametrize("words, status", [
    ("-vi a x", 0), ("--input=a -v -- -v", 0), ("--help", 0), ("-x", 2), ("--completion fish", 0)])
def test_root_with_only_busybox(words, status, checked_in, tmp_path):
    """In a root with only busybox, the program and a script, the script has the same output as here."""
    need("busybox")
    busybox = Path(shutil.which("busybox"))
    if answer("ldd", busybox)[1] == 0:
        pytest.skip("needs a static busybox: apt-get install busybox-static")
    if os.getuid() != 0:
        pytest.skip("needs root, for chroot")
    folder = tmp_path / "root/bin"
    folder.mkdir(parents=True)
    for file in (busybox, checked_in, SHELL / "examples/backup"):
        shutil.copy2(file, folder / file.name)
    (folder / "sh").hardlink_to(folder / "busybox")
    run_there = ["busybox", "chroot", tmp_path / "root", "/bin/busybox", "env", "-i", "PATH=/bin", "sh"]
    inside = answer(*run_there, "/bin/backup", *words.split())
    here = answer("busybox", "sh", SHELL / "examples/backup", *words.split(), env={"PATH": f"{folder}:{os.environ['PATH']}"})
    assert inside == here and here[1] == status and here[0]


# ---- build and installation

@pytest.mark.parametrize("compiler", ["gcc", "clang", "musl-gcc", "aarch64-linux-gnu-gcc"])
def test_functions_of_start_c(compiler, tmp_path):
    """The functions of start.c do what their declarations say."""
    flags = ["-static", "-O2"] if "-gcc" in compiler else ["-fsanitize=undefined", "-fno-sanitize-recover=all", "-g"]
    by = ["qemu-aarch64"] if compiler.startswith("aarch64") and MACHINE != "aarch64" else []
    need_compiler(compiler, *flags)
    need(*by)
    run(compiler, *flags, *START, tmp_path / "start")
    assert run(*by, tmp_path / "start", "", "three") == ("as declared\n", "")


LICENCES = [SHELL / "LICENSE-musl", SHELL / "LICENSE-unicode", ROOT / "LICENSE-MIT", ROOT / "LICENSE-APACHE", ROOT / "NOTICE"]


def files_of(program, licences=LICENCES):
    """What is installed. The page, from which the manual page is generated, names the examples."""
    page, papers = SHELL / "README.md", "share/doc/getopts_shell"
    examples = set(re.findall(r"`(examples/\w+)`", page.read_text()))
    assert examples == {f"examples/{name}" for name in os.listdir(SHELL / "examples")}
    return {"bin/getopts_shell": (0o755, program.read_bytes()),
            "share/man/man1/getopts_shell.1": (0o644, run("awk", "-f", SHELL / "man.awk", page)[0].encode()),
            **{f"{papers}/{it.name}": (0o644, it.read_bytes()) for it in licences},
            **{f"{papers}/{name}": (0o755, (SHELL / name).read_bytes()) for name in examples}}


@pytest.fixture(params=["sh", "zsh"])
def install(request, tmp_path):
    """install(WORD.., status=.., NAME=TEXT..) runs the script under a strict umask: its output and its errors."""
    need(request.param)
    return lambda *words, status=0, **env: run(
        request.param, SHELL / "install.sh", *words, status=status, env=env, cwd=tmp_path, umask=0o077)


def test_install(install, checked_in, tmp_path):
    """--uninstall leaves only files of others, and removes what a stopped installation left."""
    to = tmp_path / "a prefix"
    said = f"installed {to}/bin/getopts_shell, its manual page and examples\n"
    assert install("a prefix") == (said, "") and files_in(to) == files_of(checked_in)
    assert all(path.stat().st_mode & 0o555 == 0o555 for path in to.rglob("**"))
    (to / "share/doc/getopts_shell/examples/own").write_text("others'")
    (to / "bin/getopts_shell.new").write_text("a part")
    for said in said.replace("installed", "removed"), f"nothing to remove in {to}\n":
        assert install("--uninstall", "a prefix") == (said, "")
    assert [*files_in(tmp_path)] == ["a prefix/share/doc/getopts_shell/examples/own"]


def test_install_for_each_machine(install, tmp_path):
    for program in map(shell_binary, ("x86_64", "aarch64")):
        install("/usr", DESTDIR="stage\n", MACHINE=program.parent.name)
        assert files_in(tmp_path / "stage\n/usr") == files_of(program)
    install("--uninstall", "/usr", DESTDIR="stage\n/")
    assert not files_in(tmp_path) and not (tmp_path / "stage\n/usr/share/doc/getopts_shell").exists()


def test_install_of_own_program(install, tmp_path):
    """A program built by cargo contains nothing of musl. Links are replaced by files, and their targets stay."""
    program, page = script(tmp_path / "built", "own"), script(tmp_path / "page", "others'")
    for name in ("bin/getopts_shell.new", "share/man/man1/getopts_shell.1"):
        (tmp_path / "to" / name).parent.mkdir(parents=True)
        (tmp_path / "to" / name).symlink_to(page)
    install("to", PROGRAM="built")
    assert files_in(tmp_path / "to") == files_of(program, LICENCES[1:]) and page.read_text() == "others'"


def test_links_of_another_user(install, tmp_path):
    """Nothing is written through links that another user, who can write in PREFIX, plants while the script runs."""
    install("to", PROGRAM=str(script(tmp_path / "built", "own")))
    with planted_links(tmp_path / "to", ["bin/getopts_shell.new"]):
        for _ in range(20):
            install("to", PROGRAM="built")
    assert (tmp_path / "to/bin/getopts_shell").read_text() == "own"


def test_failed_installations(install, checked_in, tmp_path):
    """Nothing is left of a file that can't be written, and the installed one stays."""
    install("to")
    (tmp_path / "folder/bin/getopts_shell").mkdir(parents=True)
    (tmp_path / "own").mkdir()
    script(tmp_path / "own/uname", '#!/bin/sh\n[ "$1" = -s ] && echo FreeBSD || echo amd64\n')
    script(tmp_path / "own/cat", '#!/bin/sh\nhead -c 9 "$1"; echo "no space left" >&2; exit 1\n')
    path = {"PATH": f"{tmp_path}/own:{os.environ['PATH']}"}
    build = "build the program with cargo, and set PROGRAM (see README.md)"
    for prefix, env, error in [
            ("folder", {}, f"install.sh: {tmp_path}/folder/bin/getopts_shell is a folder"),
            ("to", {"MACHINE": "m68k"}, f"install.sh: no binary for m68k: {build}"),
            ("to", {"PROGRAM": "built"}, f"install.sh: no file {tmp_path}/built"),
            ("to", path, f"install.sh: no binary for FreeBSD: {build}"),
            ("to", path | {"MACHINE": MACHINE}, f"no space left\ninstall.sh: can't write {tmp_path}/to/bin/getopts_shell")]:
        assert install(prefix, status=1, **env) == ("", f"{error}\n")
    (tmp_path / "link").symlink_to(SHELL / "install.sh")
    assert "through a symbolic link" in run("sh", tmp_path / "link", tmp_path / "to", status=1)[1]
    assert files_in(tmp_path / "to") == files_of(checked_in)


def test_damaged_binary(checked_in, tmp_path):
    folder = copy_tree(tmp_path, "bindings/shell") / "bindings/shell"
    with open(folder / MACHINE / "getopts_shell", "ab") as binary:
        binary.write(b"x")
    errors = run("sh", folder / "install.sh", tmp_path / "to", status=1)[1]
    assert errors == (f"install.sh: {MACHINE}/getopts_shell is damaged: run 'git checkout -- {MACHINE}' in {folder}, "
                      "or clone the repository again\n")
    assert not (tmp_path / "to").exists()


@pytest.mark.parametrize("words", [[], [""], ["--nope"], ["a", "b"], ["--uninstall"]])
def test_install_usage(words):
    said = run("sh", SHELL / "install.sh", *words, status=2)
    assert said == ("", "usage: bindings/shell/install.sh [--uninstall] PREFIX\n")


def page_blocks(readme):
    """What getopts_shell(1) shows: code as in README.md, and each paragraph, item or cell as one line."""
    def plain(text):
        return " ".join(re.sub("`([^`]*)`", r"\1", text).replace("\\|", "|").split())

    body = re.sub(r"^## (?:Install|Building|What).*?(?=^## )", "", readme.partition("\n\n")[2], flags=re.M | re.S)
    body = re.sub(r"^```.*?\n(.*?)^```$", lambda it: textwrap.indent(it[1], "    "), body, flags=re.M | re.S)
    yield from ["GETOPTS_SHELL(1) User Commands GETOPTS_SHELL(1)", "NAME", f"{MARGIN}getopts_shell - options for shell scripts"]
    yield from ["SYNOPSIS", f"{MARGIN}getopts_shell [option]... NAME TABLE [WORD]...", "DESCRIPTION"]
    for block in re.split(r"\n\n+", body.strip("\n")):
        if block.startswith("    "):
            yield textwrap.indent(block, "   ")
        elif block.startswith("## "):
            yield block[3:].upper()
        elif block.startswith("|"):
            for row in block.splitlines()[2:]:
                term, text = (plain(cell) for cell in row[2:-2].split(" | "))
                yield f"{MARGIN}{term} {text}" if len(term) < 7 else f"{MARGIN}{term}\n{2 * MARGIN}{text}"
        else:
            first, *items = re.split("^- ", block, flags=re.M)
            yield from (f"{MARGIN}{text}" for text in [plain(first), *(f"• {plain(item)}" for item in items)] if text)
    yield from ["SEE ALSO", f"{MARGIN}getopt(1)", "getopts_shell GETOPTS_SHELL(1)"]


@pytest.mark.parametrize("machine", ["x86_64", "aarch64"])
def test_size_of_binary(machine):
    least, most = map(int, re.search(r"static binary of\s+(\d+) to (\d+) KB", (SHELL / "README.md").read_text()).groups())
    assert least <= round(shell_binary(machine).stat().st_size / 1000) <= most


def test_manual_page(tmp_path):
    """getopts_shell(1), which is generated from README.md."""
    page, readme = tmp_path / "getopts_shell.1", SHELL / "README.md"
    page.write_text(run("awk", "-f", SHELL / "man.awk", readme)[0])
    check_page(page, page_blocks(readme.read_text()))


def test_same_bytes_in_any_folder(tmp_path):
    """By `cargo build`, and by `cargo install` in a read-only folder. Before Rust 1.95, the folder is in the program."""
    one, other = (copy_tree(tmp_path / name, "bindings") / "bindings" for name in ("one", "another place"))
    cargo(one / "shell", "build", "--release")
    words = ["install", *offline(), "--quiet", "--path", other / "shell", "--root", tmp_path]
    run(*read_only(other), "cargo", *words, env={"CARGO_TARGET_DIR": str(tmp_path / "target")})
    built, installed = (path.read_bytes() for path in (one / "target/release/getopts_shell", tmp_path / "bin/getopts_shell"))
    assert built == installed or rust_minor() < 95


def test_cargo_without_warnings(tmp_path):
    folder = copy_tree(tmp_path, "bindings/rust", "bindings/shell") / "bindings/shell"
    cargo(folder, "check", env={"RUSTFLAGS": "-D warnings"})
