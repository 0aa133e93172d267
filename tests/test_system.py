"""The built programs under unusual conditions: with arguments that aren't UTF-8, with none at all, and with long ones;
with output that accepts nothing, little, or fails midway; with little memory and little stack.

Every run exits with the documented status, is never killed by a signal that the system didn't send, and writes the
documented text. The program for shell scripts is the static one in bindings/shell for this machine or, in runs with a
preloaded library, the one that `rt ci` built.
"""

import errno
import os
import resource
import shlex
import signal
import subprocess

import pytest
from conftest import MACHINE, ROOT, preload_library, program

SHOW = ROOT / "crates/getopts_show/out/getopts_show"
BUILT = ROOT / "crates/getopts_shell/out/getopts_shell"
SHELL = ROOT / f"bindings/shell/{MACHINE}/getopts_shell"

# Exit statuses: shown, rejected, out of memory or arguments that aren't UTF-8, and failed output.
SHOWN, REJECTED, NOTHING, NOT_WRITTEN = 0, 2, 3, 4
# Exit status of the system's loader if it can't start the program; standard error says why.
NOT_LOADED = 127

MIB = 1 << 20
# The longest argument, without its NUL, that Linux passes to a program.
LONGEST = 131_071
LONG_WORDS = ["x" * 100_000] * 15
ERROR = b"getopts_show: Unrecognized option: 'nope'\n"
# What each program writes to standard error if its output fails.
FAILED = {SHOW: b"", SHELL: b"getopts_shell: writing the output failed\n"}
FAILED[BUILT] = FAILED[SHELL]
# And if memory runs out.
NO_MEMORY = {SHOW: b"", SHELL: b"getopts_shell: out of memory\n"}


@pytest.fixture(autouse=True)
def built():
    program("getopts_show"), program("getopts_shell")


@pytest.fixture(scope="module")
def preload(tmp_path_factory):
    """A library for LD_PRELOAD that wraps calls to the C library."""
    return {"LD_PRELOAD": str(preload_library(ROOT / "tests/system/between.c", tmp_path_factory.mktemp("between")))}


def run(words=(), program=SHOW, limits=None, closed=(), name=None, stdout=subprocess.PIPE, stderr=subprocess.PIPE,
        environment=None, **how):
    """Runs a program with closed files and limits: its status (negative for a signal), and its output."""
    def before():
        for which, most in (limits or {}).items():
            resource.setrlimit(which, (most, most))
        for file in closed:
            os.close(file)

    done = subprocess.run([name or program, *words], executable=program, preexec_fn=before, stdout=stdout, stderr=stderr,
                          env={**os.environ, **(environment or {})}, **how)
    return done.returncode, (done.stdout or b"") + (b"" if done.returncode == NOT_LOADED else done.stderr or b"")


def described(text):
    return f"{text[:60]!r} of {len(text)} bytes"


def check(what, ended, status, text):
    """Checks the status and the output of a run."""
    ended_with, wrote = ended
    assert ended_with == status, f"{what}: {described(wrote)}"
    assert wrote == text, f"{what}: wrote {described(wrote)}, expected {described(text)}"


def output(given=(), free=()):
    """The output of getopts_show for options (name, position and value of each) and free words."""
    lines = []
    for name in ("output", "help", "verbose", "L", "color"):
        own = [(at, value) for each, at, value in given if each == name]
        lines.append(" ".join([f"{name}: {len(own)}", *(f"@{at}" for at, _ in own)]))
        lines += [f"{name} @{at} = {value}" for at, value in own if value is not None]
    lines += [f"free: {word}" for word in free]
    lines += [f"line: --{name}" + ("" if value is None else f"={value}") for name, _, value in given]
    lines += ["line: --", *(f"line: {word}" for word in free)]
    return "".join(f"{line}\n" for line in lines).encode()


V_X = output([("verbose", 0, None)], ["x"])


def test_words_that_are_not_utf8():
    for word in (b"\xff", b"-o\xc3", b"--\xed\xa0\x80", b"--output=\xc0\x80", b"\xf4\x90\x80\x80"):
        for words in ([word], [b"-v", word, b"x"], [b"-v", b"x", word], [b"--", b"x", word], [b"-o", word],
                      [b"--nope", word], [word, b"--help"]):
            check(f"words {words}", run(words), NOTHING, b"")
    check("a program name that isn't UTF-8", run(["--nope"], name=b"\xff"), REJECTED, ERROR)
    check("a program name that isn't UTF-8, and a word", run(["-v", "x"], name=b"\xc3"), SHOWN, V_X)


def test_no_words(preload):
    check("no words", run(), SHOWN, output())
    check("an empty name", run(name=b""), SHOWN, output())
    check("no words and no name", run(["-v"], environment={**preload, "NO_WORDS": "1"}), SHOWN, output())


# Arguments of getopts_shell, and the beginning of its output.
GIVEN = ["try", "[-v]..  say more\n[-o FILE]  write to FILE", "-vo", "it's"]
CODE = rb"\set -- '--v' '--o=it'\''s' '--' 'x'" + b"\n"


def each(*calls):
    """Parametrizes a test by calls: a program and its arguments."""
    return pytest.mark.parametrize("program, words", calls, ids=[f"{call[0].name} {call[1][-1][:9]}" for call in calls])


@each((SHOW, ["-v", "x"]), (SHOW, ["--help"]), (SHOW, ["--nope"]), (SHELL, [*GIVEN, "x"]))
def test_output_that_accepts_nothing(program, words):
    check("a closed output", run(words, program, closed=[1], stdout=None), NOT_WRITTEN, FAILED[program])
    check("all files closed", run(words, program, closed=[0, 1, 2], stdout=None, stderr=None), NOT_WRITTEN, b"")
    with open("/dev/null", "rb") as only_read, open("/dev/full", "wb") as full:
        check("a read-only output", run(words, program, stdout=only_read), NOT_WRITTEN, FAILED[program])
        check("a full output", run(words, program, stdout=full), NOT_WRITTEN, FAILED[program])
    for restore in (True, False):
        reader, writer = os.pipe()
        os.close(reader)
        check(f"a closed pipe, with the signal {'' if restore else 'not '}restored",
              run(words, program, stdout=writer, restore_signals=restore), NOT_WRITTEN, FAILED[program])
        os.close(writer)


@each((SHELL, [*GIVEN, "--nope"]), (SHELL, ["try", "-ab"]), (SHELL, ["--nope"]))
def test_error_stream_that_accepts_nothing(program, words):
    check("a closed error stream", run(words, program, closed=[2], stderr=None), NOT_WRITTEN, b"")
    with open("/dev/full", "wb") as full:
        check("a full error stream", run(words, program, stderr=full), NOT_WRITTEN, b"")


@each((SHOW, ["-v", "x"]), (SHOW, ["-h"]), (SHELL, [*GIVEN, "x"]), (SHELL, ["-h"]))
def test_single_write(program, words):
    """Each write to a pipe with O_DIRECT is a packet, and each read takes one packet."""
    text = run(words, program)[1]
    reader, writer = os.pipe2(os.O_DIRECT)
    run(words, program, stdout=writer)
    os.close(writer)
    with os.fdopen(reader, "rb", buffering=0) as packets:
        wrote = packets.read(MIB)
        assert wrote == text and not packets.read(MIB), described(wrote)


@each((SHOW, ["x" * 200]), (SHELL, [*GIVEN, "x" * 200]))
@pytest.mark.parametrize("ignored", [True, False])
def test_limited_file_size(program, words, ignored, tmp_path):
    """With a limit on file sizes. The system sends a signal unless that is ignored, as Python does."""
    text = run(words, program)[1]
    for most in (0, 1, 100, len(text) - 1, len(text)):
        with open(tmp_path / "file", "wb") as file:
            status, said = run(words, program, {resource.RLIMIT_FSIZE: most}, stdout=file, restore_signals=not ignored)
        wanted = SHOWN if most == len(text) else NOT_WRITTEN if ignored else -signal.SIGXFSZ
        # If the signal isn't ignored, the first write is cut short, and the next one raises it.
        check(f"at most {most} bytes", (status, said + (tmp_path / "file").read_bytes()), wanted,
              (FAILED[program] if wanted == NOT_WRITTEN else b"") + text[:most])


@pytest.mark.parametrize("program, words, status, text", [
    (SHOW, ["-v", "x"], SHOWN, V_X), (SHOW, ["--nope"], REJECTED, ERROR),
    (BUILT, ["x", "[-a]", "-a"], SHOWN, b"\\set -- '--a' '--'\n"),
    (BUILT, ["x", "[-a]", "-b"], REJECTED, b"x: Unrecognized option: 'b'\nUsage: x [-a]\n")])
def test_short_and_failing_writes(program, words, status, text, preload):
    for most in (1, 2, 3, 7, 4096):
        check(f"writes of {most} bytes", run(words, program, environment={**preload, "WRITE_MOST": str(most)}), status, text)
    for error in (0, errno.EIO, errno.ENOSPC, errno.EAGAIN, errno.EBADF, errno.EPIPE, errno.EINTR):
        fails = {**preload, "WRITE_MOST": "1", "WRITE_ERROR": str(error)}
        for at in range(1, len(text) + 1):
            ended = run(words, program, environment={**fails, "WRITE_AT": str(at)})
            # An interrupted write may be retried.
            again = error == errno.EINTR and ended == (status, text)
            assert again or ended == (NOT_WRITTEN, text[:at - 1] + FAILED[program]), f"write {at} fails with error {error}"


def test_large_words():
    word = "x" * LONGEST
    check("the longest word that the system allows", run([word]), SHOWN, output(free=[word]))
    value = word[:-len("--output=")]
    check("the longest value", run([f"--output={value}"]), SHOWN, output([("output", 0, value)]))
    check("the longest name", run([f"--{word[2:]}"]), REJECTED, b"getopts_show: Unrecognized option: '%s'\n" % word[2:].encode())
    check("many long words", run(LONG_WORDS), SHOWN, output(free=LONG_WORDS))
    for what, free in (("words", ["x", ""]), ("the longest word", [word]), ("long words", LONG_WORDS),
                       ("many words", ["f"] * 20_000), ("no words", [])):
        status, wrote = run([*GIVEN, *free], SHELL)
        read = shlex.split(wrote.decode())
        assert (status, read) == (SHOWN, ["set", "--", "--v", "--o=it's", "--", *free]), f"static, {what}: {status}: {read[:9]}"
    with pytest.raises(OSError) as longer:
        run(["x" * (LONGEST + 1)])
    assert longer.value.errno == errno.E2BIG


def try_limits(what, limits, status, text, **how):
    """Runs with increasing limits on memory. With too little, the system can't start the program, and nothing is
    written; with more, the program reports that it is out of memory, and writes nothing else; with enough, it works."""
    begun = enough = 0
    nothing = NOTHING, NO_MEMORY[how.get("program", SHOW)]
    for most in limits:
        try:
            ended = run(limits={resource.RLIMIT_AS: most}, **how)
        except OSError as error:
            ended = (-error.errno, b"")
        begun += ended in (nothing, (status, text))
        enough += ended == (status, text)
        # Status 3 without its error is wrong, and doesn't mean that the system couldn't start the program.
        not_started = not begun and not ended[1] and ended[0] != NOTHING
        assert not_started or ended in (nothing, (status, text)), \
            f"{what} in {most} bytes: status {ended[0]}, wrote {described(ended[1])}"
    assert 0 < enough < begun, f"{what}: started {begun} times, with enough memory {enough} times"


def test_little_memory():
    try_limits("long words", range(MIB // 4, 20 * MIB, MIB // 4), SHOWN, output(free=LONG_WORDS), words=LONG_WORDS)
    try_limits("an error", range(MIB // 8, 4 * MIB, MIB // 32), REJECTED, ERROR, words=["--nope"])
    try_limits("static, words", range(MIB // 8, MIB, 4096), SHOWN, CODE, words=[*GIVEN, "x"], program=SHELL)
    try_limits("static, long words", range(MIB // 4, 20 * MIB, MIB // 4), SHOWN, run([*GIVEN, *LONG_WORDS], SHELL)[1],
               words=[*GIVEN, *LONG_WORDS], program=SHELL)


@pytest.mark.parametrize("program, words, text, sizes", [
    (SHOW, ["-v", "x"], V_X, (24, 32, 48, 64, 96, 128, 256, 1024)), (SHELL, [*GIVEN, "x"], CODE, (24, 32, 64, 256)),
    (SHOW, ["f"] * 20_000, output(free=["f"] * 20_000), (2048, 4096, 8192))], ids=["show", "shell", "many words"])
def test_little_stack(program, words, text, sizes):
    """Limits on the stack. Before the program starts, the system itself puts the arguments and the environment there, and
    leaves up to 8 KiB unused at random."""
    for kib in sizes:
        check(f"a stack of {kib} KiB", run(words, program, {resource.RLIMIT_STACK: kib * 1024}), SHOWN, text)
