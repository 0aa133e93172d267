"""What the tests share: how to require tools, how to run programs, and the programs that `rt ci` builds."""

import collections
import contextlib
import functools
import itertools
import multiprocessing
import os
import platform
import re
import shutil
import subprocess
import sys
import tempfile
import time
from pathlib import Path

import pytest
from browser import Browser

sys.dont_write_bytecode = True
os.environ["LC_ALL"] = "C.UTF-8"
os.environ.pop("POSIXLY_CORRECT", None)
# Cargo reads configurations in all folders above. So tests use no folder below /tmp, where other users may put them.
CACHE = Path(os.environ.get("XDG_CACHE_HOME", ""))
ROOM = (CACHE if CACHE.is_absolute() else Path.home() / ".cache") / "proved-getopts/tmp"
ROOM.mkdir(mode=0o700, parents=True, exist_ok=True)
os.environ["TMPDIR"] = tempfile.tempdir = str(ROOM)
ROOT = Path(__file__).resolve().parents[1]
MACHINE = platform.machine()
VECTORS = ROOT / "crates/getopts_vectors"
# Test cases with the expected answers.
ROWS = [VECTORS / f"data/{name}.rows" for name in ("rules", "recorded")]
# Command lines for which the example in each language has to print the same as getopts_show.
LINES = ["--output=x.txt --verbose in.txt", "-vvLd -La -Lb -c auto -o x.txt f -- g -v", "-v --help", "--nope", "-o",
         "-o a -o b", "--verbose=x", "", "-c", "--output= é --color=日本"]

# A user who isn't root.
NOBODY = 65534

# What man writes before a paragraph.
MARGIN = " " * 7


def pytest_addoption(parser):
    parser.addoption("--quick", action="store_true", help="fewer random cases, no other targets, no proofs")
    parser.addoption("--many", action="store_true", help="ten times as many random cases")
    parser.addoption("--release", action="store_true", help="also run the tests for a release, such as mutants")
    parser.addoption("--fix", action="store_true", help="update figures, tables and contracts on the pages")
    parser.addoption("--getopts", help="a folder with the Rust crate getopts 0.2.24")


# Fixtures for programs built by `rt ci`, which proves the crates of EARLY first.
EARLY = {"show", "vectors", "bench"}
PROGRAMS = {*EARLY, "shell", "built"}


def pytest_collection_modifyitems(config, items):
    """Marks tests by the programs that they use, and deselects those that this run leaves out."""
    for item in items:
        # In some tests, `shell` is a parameter.
        parameters = item.callspec.params if hasattr(item, "callspec") else {}
        if item.get_closest_marker("built") or PROGRAMS & set(item.fixturenames) - set(parameters):
            item.add_marker("built")
            item.add_marker("rt")
        # These wait for proofs, until `rt ci` ends.
        if "CI_LOG" in os.environ and item.get_closest_marker("built"):
            item.add_marker(pytest.mark.timeout(24 * 3600))
    quick = config.getoption("--quick")
    absent = {"full": quick, "quick": not quick, "release": not config.getoption("--release"), "rt": not shutil.which("rt")}
    out = {item for item in items if any(absent.get(mark.name) for mark in item.iter_markers())}
    config.hook.pytest_deselected(items=list(out))
    # A test that waits for a crate keeps its worker from all others.
    items[:] = sorted((item for item in items if item not in out),
                      key=lambda item: bool(item.get_closest_marker("built")) and not EARLY & set(item.fixturenames))


def pytest_terminal_summary(terminalreporter):
    """Reports skipped tests with one line per reason; pytest would write one for each reason and place."""
    skipped = terminalreporter.stats.get("skipped", [])
    for reason, count in sorted(collections.Counter(report.longrepr[2] for report in skipped).items()):
        terminalreporter.write_line(f"SKIPPED [{count}] {reason.removeprefix('Skipped: ')}")


@pytest.fixture(scope="session")
def cases(request):
    """cases(N, MANY) returns how many random cases to try: N, with --many N * MANY, with --quick N / 10."""
    option = request.config.getoption
    return lambda count, many=10: count * many if option("--many") else max(1, count // 10) if option("--quick") else count


@pytest.fixture(scope="session")
def browser(tmp_path_factory):
    started = Browser(tmp_path_factory.mktemp("browser"))
    yield started
    started.close()


@pytest.fixture(scope="session")
def crate(request):
    """The folder with the Rust crate getopts 0.2.24."""
    folder = request.config.getoption("--getopts")
    if not folder:
        pytest.skip("needs the Rust crate getopts 0.2.24: --getopts FOLDER")
    return Path(folder).resolve()


def need(*tools):
    """Skips the test if one of these tools is missing."""
    for tool in tools:
        # rustup links its tools to itself. They fail if they aren't installed.
        if not shutil.which(tool) or re.match("rustc|rustfmt|cargo", tool) and not succeeds(tool, "--version"):
            pytest.skip(f"{tool} not found: see tests/packages.txt")


def need_rustfmt():
    """Skips the test if rustfmt is missing, or too old for the style that the sources have."""
    need("rustc", "rustfmt", "cargo-fmt")
    if not succeeds("rustfmt", "--config", "style_edition=2024", "a.rs", **{"a.rs": "\n"}):
        pytest.skip("rustfmt is too old: install a newer one from https://rustup.rs")


def need_compiler(*command):
    """Skips the test if this compiler, with these flags, makes no programs, for example because it has no libc."""
    need(command[0])
    if not succeeds(*command, "a.c", "-o", "a", **{"a.c": "#include <stdlib.h>\nint main(void) { return 0; }\n"}):
        pytest.skip(f"'{' '.join(command)}' makes no programs: see tests/packages.txt")


@functools.cache
def succeeds(*command, **files):
    """Whether a command succeeds in a folder with these files."""
    with tempfile.TemporaryDirectory() as room:
        for name, text in files.items():
            (Path(room) / name).write_text(text)
        return answer(*command, cwd=room)[1] == 0


def run(*words, status=0, env=None, **how):
    """Runs a command that has to exit with this status. Returns its standard output and its standard error."""
    done = subprocess.run([str(word) for word in words], capture_output=True, env={**os.environ, **(env or {})}, **how)
    said = os.fsdecode(done.stdout), os.fsdecode(done.stderr)
    assert done.returncode == status, f"{words[0]}: status {done.returncode}\n{said[0][-3000:]}{said[1][-3000:]}"
    return said


def answer(*words, env=None, **how):
    """The output of a program, and its exit status."""
    done = subprocess.run([str(word) for word in words], capture_output=True, env={**os.environ, **(env or {})}, **how)
    return done.stdout + done.stderr, done.returncode


def run_definitions(*words):
    """What agda/check.sh reports, and its status."""
    need("node")
    said, status = answer(ROOT / "agda/check.sh", *words)
    if b"agda not found" in said:
        pytest.skip(said.decode().strip())
    return said, status


def check_definitions(*files, how="--run", wrong=0):
    """Checks the answers to rows with the definitions, and that so many are wrong. Returns what was reported."""
    said, status = run_definitions(how, *files)
    assert status == (wrong > 0) and b" what the definitions give, %d answers differ\n" % wrong in said, said.decode()[-3000:]
    return said.decode()


def check_page(page, blocks):
    """Checks what a manual page shows on a screen so wide that each paragraph is one line: these blocks, with empty lines
    between them, except after headings. In lines that aren't code, man may add spaces after a sentence."""
    need("man", "groff")
    assert run("groff", "-man", "-Tutf8", "-ww", page)[1] == run("man", "--warnings", "-l", page)[1] == ""
    wanted = re.sub(r"^([A-Z_ ]+)\n\n", r"\1\n", "\n\n".join(blocks), flags=re.M).split("\n")
    shown = run("man", "-l", page, env={"MANWIDTH": "9000", "MANROFFOPT": ""})[0].splitlines()
    pairs = itertools.zip_longest(shown, wanted, fillvalue="")
    assert [line if line == want else re.sub(r"(?<=\S)  +", " ", line) for line, want in pairs] == wanted


def script(path, text):
    """Writes an executable script."""
    path.write_text(text)
    path.chmod(0o755)
    return path


def wait_for(crate):
    """If test.sh is running `rt ci`, waits until this crate is proved, or kept since an earlier run proved it."""
    log = Path(os.environ.get("CI_LOG", "/nowhere"))
    while log.exists() and not re.search(rf"^rt: {crate} (proved$|is kept:)", log.read_text(errors="replace"), re.M):
        if Path(f"{log}.ended").exists():
            pytest.fail(f"{crate} wasn't proved")
        time.sleep(1)


def program(crate):
    """The program of a crate, as `rt ci` or `rt run` built it."""
    wait_for(crate)
    built = ROOT / f"crates/{crate}/out/{crate}"
    if not built.exists():
        pytest.skip(f"{crate} isn't built: run 'rt ci', or 'rt run' in crates/{crate}")
    return built


def built(name, crate):
    return pytest.fixture(lambda: program(crate), scope="session", name=name)


show, shell = built("show", "getopts_show"), built("shell", "getopts_shell")
vectors, bench = built("vectors", "getopts_vectors"), built("bench", "getopts_bench")


def shell_binary(machine=MACHINE):
    """The program for a processor that is checked in under bindings/shell."""
    there = ROOT / f"bindings/shell/{machine}/getopts_shell"
    if not there.exists():
        pytest.skip(f"bindings/shell has no program for {machine}")
    return there


checked_in = pytest.fixture(lambda: shell_binary(), scope="session", name="checked_in")


def rows_in(file):
    """The test cases of a file: the tab-separated fields of each row, and the text below it, whose lines begin with
    '> '. A row 'text' defines {NAME} for later rows: as the text below it, or as a repeated string."""
    rows, texts = [], {}

    def whole(text):
        return re.sub(r"\{([A-Z]+)\}", lambda it: texts[it[1]], text)

    def field(text):
        return whole(re.sub(r"\\(.)", lambda it: {"t": "\t", "n": "\n", "r": "\r"}.get(it[1], it[1]), text))

    for row in re.findall(r"^[^#>\n].*(?:\n>.*)*", (ROOT / file).read_text(encoding="utf-8"), re.M):
        first, *below = row.split("\n")
        fields = [field(one) for one in first.split("\t")]
        text = "".join(f"{whole(line[2:])}\n" for line in below)
        if fields[0] == "text":
            texts[fields[1]] = fields[3] * int(fields[2]) if fields[2:] else text[:-1]
        else:
            rows.append((fields, text))
    return rows


@functools.cache
def kit():
    """The folder of the toolchain."""
    need("rt")
    return Path(shutil.which("rt")).resolve().parents[1]


def tracked():
    """All files of the repository except those that git ignores."""
    if not (ROOT / ".git").exists() or not shutil.which("git"):
        # An unpacked release contains only tracked files, until something is built.
        names = [str(path.relative_to(ROOT)) for path in sorted(ROOT.rglob("*"))]
        return [name for name in names if (ROOT / name).is_file() and not re.search(r"(^|/)(out|target|__pycache__)/", name)]
    names = run("git", "ls-files", "-co", "--exclude-standard", cwd=ROOT)[0].splitlines()
    return [name for name in names if (ROOT / name).is_file()]


def copy_tree(to, *folders):
    """Copies the repository's files, or those of these folders, to a folder."""
    for name in tracked():
        if folders and not name.startswith(tuple(f"{folder}/" for folder in folders)):
            continue
        (to / name).parent.mkdir(parents=True, exist_ok=True)
        shutil.copy2(ROOT / name, to / name)
    return to


def files_in(folder):
    """The files of a folder: the mode and the contents of each."""
    return {str(path.relative_to(folder)): (path.stat().st_mode & 0o777, path.read_bytes())
            for path in folder.rglob("*") if not path.is_dir()}


def read_only(folder):
    """Makes a folder read-only. Returns what has to precede a command that can't write there, even root's."""
    for path in [folder, *folder.rglob("*")]:
        path.chmod(path.stat().st_mode & ~0o222)
    if os.getuid() != 0:
        return []
    need("setpriv")
    return ["setpriv", "--bounding-set", "-dac_override"]


@contextlib.contextmanager
def planted_links(folder, more=()):
    """While this runs, links to a private file are planted in the places of a folder's files, and in more places, whenever
    there is nothing: by another user, if root runs the tests. The file has to stay as it is."""
    target, places = folder.with_name("private"), [path.relative_to(folder) for path in folder.rglob("*") if not path.is_dir()]
    target.write_text("others'")
    target.chmod(0o600)

    def plant():
        os.chdir(folder)
        if os.getuid() == 0:
            os.setgroups([]), os.setgid(NOBODY), os.setuid(NOBODY)
        while True:
            for place in [*places, *more]:
                with contextlib.suppress(OSError):
                    os.symlink(target, place)

    for path in [folder, *folder.rglob("*")] if os.getuid() == 0 else []:
        os.chown(path, NOBODY, NOBODY, follow_symlinks=False)
    planting = multiprocessing.get_context("fork").Process(target=plant)
    planting.start()
    try:
        yield
    finally:
        planting.kill()
        planting.join()
    assert (target.read_text(), target.stat().st_mode & 0o777) == ("others'", 0o600)


def preload_library(source, room):
    """A library for LD_PRELOAD."""
    need_compiler("cc")
    run("cc", *"-O2 -Wall -Wextra -Werror -shared -fPIC".split(), source, "-o", room / "it.so")
    return room / "it.so"


@pytest.fixture(scope="session")
def failing_malloc(tmp_path_factory):
    """A library for LD_PRELOAD that makes allocations fail."""
    return preload_library(ROOT / "tests/memory/failing_malloc.c", tmp_path_factory.mktemp("malloc"))


def fail_each_allocation(preload, words, failure=(b"", 3), errors=b"", keeps=0, marks=False):
    """Makes each allocation fail in turn, once alone and once with all later ones, and returns how many failed. A run
    with a failure has to have the output and status `failure`, and to report `errors`. A run without one has to end like
    the first run, and so do just `keeps` others, which only keep a long block that they would have made smaller. With
    marks, only allocations between the program's marks are counted."""
    def outcome(at, on):
        settings = {"LD_PRELOAD": preload, "FAIL_AT": at, "FAIL_ON": on, "FAIL_MARKS": int(marks)}
        env = {**os.environ, **{name: str(value) for name, value in settings.items()}}
        done = subprocess.run([str(word) for word in words], capture_output=True, env=env)
        # A program killed by a signal doesn't report its failures.
        said = re.search(rb"^failed (\d+) kept (\d+) marks (\d+)\n\Z", done.stderr, re.M)
        ended = (done.stdout, done.returncode, done.stderr[:said.start()] if said else done.stderr)
        return ended, *(map(int, said.groups()) if said else (1, 0, None))

    ever, _, _, marked = outcome(0, 0)
    assert (marked > 0) == marks and marked % 2 == 0
    count = kept_only = 0
    for on in (0, 1):
        for at in range(1, 10_001):
            ended, failed, kept, met = outcome(at, on)
            assert met == marked or (met is None and ended[1] < 0), f"allocation {at}: {met} of {marked} marks: {ended}"
            if failed == kept:
                assert ended == ever
            if failed == 0:
                break
            assert failed == kept or ended == (*failure, errors), f"allocation {at}, with all later ones: {on}"
            count += 1
            kept_only += failed == kept
        else:
            pytest.fail("more than 10,000 allocations")
    assert kept_only == keeps
    return count
