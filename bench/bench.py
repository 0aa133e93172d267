#!/usr/bin/env python3
"""Counts with valgrind what jobs cost in this library and in other libraries, its peers.

usage: bench.py OUT [--getopts FOLDER] [JOB..]      prints the tables of all or some jobs: > bench/last_run.txt
       bench.py --count WHAT A B PROGRAM WORD..     prints what one iteration of a program costs
       bench.py --rows LINE                         prints a command line as rows
       bench.py --join OUT [--getopts FOLDER]       prints what libraries cost a small program in Rust

It needs rt, cargo, a C compiler and valgrind; without a network, --getopts and the librust-* packages of
tests/packages.txt. The peers' programs are built in OUT, a folder outside the repository. FOLDER contains the Rust crate
getopts; without it, cargo downloads the crate. OURS may name a getopts_bench that is already built; otherwise `rt run`
proves and builds one.

WHAT is `instructions` or `peak` (the most bytes allocated at once). The program's last argument is the number of
iterations. One iteration costs the difference between B and A iterations, divided by B - A: so work before the
iterations isn't counted.

--join builds the programs of bench/join, stripped, in release mode. It prints by how many KB (1000 bytes) each is larger
than `none`, which only prints its words; the seconds of processor time that cargo takes to build it, the least of three
builds; and the number of packages that the library depends on. These figures depend on the version of rustc, and the
seconds on the machine and on what else it does.

Programs run in OUT, with relative paths: the length of a path decides where malloc places the words, on which the count
of the Rust crate depends.
"""

import concurrent.futures
import os
import platform
import random
import re
import resource
import shutil
import subprocess
import sys
from pathlib import Path

HERE = Path(__file__).resolve().parent
CRATE = HERE.parent / "crates/getopts_bench"
# Cachegrind is several times faster than callgrind. If it joined blocks of code (--vex-guest-chase), it would also
# count instructions that a jump skips.
TOOLS = {"instructions": ("--tool=cachegrind --cache-sim=no --vex-guest-chase=no --cachegrind-out-file=/dev/null",
                          r"refs: *([\d,]+)"),
         "peak": ("--tool=dhat --dhat-out-file=/dev/null", r"At t-gmax: *([\d,]+)")}

# Long lines are parsed once, as in a program. Short ones are parsed 300 times, and the first 100 aren't counted, since
# the first iteration also does what a program does once, such as binding symbols.
LONG = {"long", "many", "many11", "files", "equal", "4000"}


def job_of(name):
    """A job: what an iteration does, its line, and two numbers of iterations."""
    work, _, line = name.rpartition("-")
    return work or (name if name in ("equal", "usage") else "whole"), line, *((0, 1) if line in LONG else (100, 300))


JOBS = {name: job_of(name) for name in """small read-small canonical-small copied-small os-small typical read-typical
    copied-typical long read-long canonical-long copied-long os-long many read-many canonical-many copied-many many11 front
    read-front asked-front none rustc sub60 files equal usage defined-4000 order-small order-typical order-long
    loop-small loop-typical loop-long""".split()}
OF_C = {name: JOBS[name] for name in "small read-small typical long none order-small order-typical order-long".split()}
# Jobs that keep their matches.
HELD = {f"held-{line}": ("held", line, few, more) for line, few, more in
        [("small", 10, 110), ("long", 10, 110), ("described", 10, 110), ("cluster", 1, 2), ("values", 1, 2)]}
# The tables: what is counted, the title, and the jobs.
TABLES = [("instructions", "Instructions per iteration", JOBS), ("instructions", "Instructions per iteration in C", OF_C),
          ("peak", "Peak bytes while parsing, besides the words and the options", {"memory": ("read", "memory", 0, 1)}),
          ("peak", "Bytes that matches take", HELD)]


def stored(line):
    """A command line stored in getopts_bench: its options, each with the method that declares it, and its words."""
    rows = [row.split("\t") for row in (CRATE / f"data/{line}.rows").read_text(encoding="utf-8").splitlines()]
    return [row for row in rows if row[0].startswith("opt")], [row[1] for row in rows if row[0] == "word"]


def flags(names):
    return [("optflagmulti", *name, "d") for name in names]


def long(rounds):
    return stored("small")[0], [word for at in range(rounds) for word in ("-v", f"-Ldir{at}", "--verbose", f"file{at}")]


def shuffled(options):
    """The options in an order that differs from that of their names, but is the same in each run."""
    return random.Random(1).sample(options, len(options))


def many(front):
    options, words = [], []
    for at in range(200):
        name = f"{front}{at:03}"
        options.append(("optmulti", "", name, "d", "H") if at % 2 else ("optflagmulti", "", name, "d"))
        words += [f"--{name}=value{at}" if at % 2 else f"--{name}", f"file{at}"]
    return shuffled(options), words


def sub60():
    names = [f"{front}{noun}" for front in ("", "no-", "max-", "show-", "skip-", "log-")
             for noun in "color depth files index level lines merge order paths width".split()]
    options = [("optmulti", "", name, "d", "H") if name[:4] in ("max-", "log-") else ("optflagmulti", "", name, "d")
               for name in names]
    words = "--color --no-index --max-depth 3 --show-paths --log-files=log.txt --skip-merge src tests".split()
    return shuffled(options), words


def described():
    options, words = stored("typical")
    return [[*option[:3], "d" * 1000, *option[4:]] for option in options], words


# Stored lines: `typical` has options like those of grep; `rustc` those of rustc, and a command line that cargo passes to
# it; `none` no options, and one word; `front` options whose names begin alike (`asked-front` asks whether each was
# given). `os-small` is `parse_os` of proved-getopts, `equal` compares two matches, and `usage` formats the help.
# In Rust, libraries get the words as from `args_os().skip(1)`, and free them or move them into their results; copying
# them before the first iteration isn't counted. In Rattle and C, libraries borrow them. In Rattle and with
# proved-getopts, programs borrow values (`opt_place` and `occurrences_at`; `occurrences`), except in the jobs `copied-`.
# The program for lexopt stores what it reads in a struct, except in the jobs `order-` and `loop-`, which take options and
# free words in command-line order. In `loop-`, programs with proved-getopts first convert the words to `String`s, and
# those with the original parse as in `whole`, since it has no loop. pico-args searches the words for each option, and
# again for each repetition. In C, the programs for getopt_long and argp add up the results but don't store them;
# `getopts_new` is counted.
# Generated lines: their options and their words.
LINES = {
    "long": lambda: long(250), "memory": lambda: long(25_000),
    "files": lambda: (stored("small")[0], [f"src/file{at:05}.rs" for at in range(100_000)]),
    "many": lambda: many("name"), "many11": lambda: many("the-name"), "sub60": sub60, "described": described,
    "cluster": lambda: (stored("small")[0], ["-" + "v" * 100_000]),
    "values": lambda: (stored("small")[0], ["-L" + "x" * 1_000_000] * 3),
    "equal": lambda: (flags([*(("", f"n{at:04}") for at in range(998)), ("a", ""), ("b", "")]),
                      ["-ab"] * 1000 + ["-ba"] * 1000),
    "4000": lambda: (shuffled(flags(("", f"n{at:04}") for at in range(4000))), []),
}


def parts(line):
    """The options and the words of a line."""
    return LINES.get(line, lambda: stored(line))()


def rows(line):
    """A line as the rows that getopts_bench and the peers read."""
    options, words = parts(line)
    said = [*options, ("words", str(len(words))), *(("word", word) for word in words)]
    return "".join("\t".join(row) + "\n" for row in said)


def lexopt_line(line):
    """The options of a line for the peer lexopt. An option with at most one value on the line is an `Option`."""
    options, words = parts(line)
    text = f'    "{line}" {{\n'
    for at, (call, short, long, *_) in enumerate(options):
        times = sum(word.split("=")[0] == f"--{long}" or bool(short) and word.startswith(f"-{short}") for word in words)
        held = "usize" if call == "optflagmulti" else "Vec<String>" if times > 1 else "Option<String>"
        names = [f"Short('{short}')"] * bool(short) + [f'Long("{long}")'] * bool(long)
        text += f"        option{at}: {held} = {' | '.join(names)},\n"
    return text + "    }\n"


def lexopt_lines(work, head):
    """The lines of the jobs that do this work, for the peer lexopt."""
    lines = dict.fromkeys(line for of_job, line, *_ in JOBS.values() if of_job == work)
    return f"lines! {{{head}\n{''.join(lexopt_line(line) for line in lines)}}}\n"


def counted(what, words, cwd=None):
    """What a run costs, as valgrind counts it."""
    flag, found = TOOLS[what]
    done = subprocess.run(["valgrind", *flag.split(), *map(str, words)], stdout=subprocess.DEVNULL, stderr=subprocess.PIPE, text=True,
                          errors="replace", cwd=cwd)
    return int(re.findall(found, done.stderr)[-1].replace(",", ""))


def of_an_iteration(what, few, more, words, cwd=None):
    """What one iteration costs in a program whose last argument is the number of iterations."""
    return int((counted(what, [*words, more], cwd) - counted(what, [*words, few], cwd)) / (more - few))


def sum_of(words, cwd):
    """The checksum of one iteration, or None if the program doesn't do the job."""
    done = subprocess.run([*(str(word) for word in words), "1"], capture_output=True, text=True, cwd=cwd)
    return done.stdout if done.returncode == 0 else None


def built(out, getopts):
    """The programs by their columns, each as the start of its command line."""
    for tool in ("cargo", "cc", "valgrind", os.environ.get("OURS", "rt")):
        shutil.which(tool) or sys.exit(f"bench.py: {tool} not found")
    build = HERE.parent / "tests/differential/build.sh"
    drop_in = HERE.parent / "bindings/rust/getopts"
    for name, crate, flags in ("peers", getopts, ""), ("over_ours", drop_in, " --features over_ours"):
        (out / name / "src").mkdir(parents=True, exist_ok=True)
        lines = lexopt_lines("whole", "") + lexopt_lines("order", " in order")
        (out / name / "src/lines.rs").write_text(lines, encoding="utf-8")
        subprocess.run(["bash", build, HERE / "peers", out / name, *([crate] if crate else [])], check=True,
                       env={**os.environ, "CARGO_FLAGS": os.environ.get("CARGO_FLAGS", "") + flags})
    if "OURS" not in os.environ:
        print("bench.py: proving and building getopts_bench, which may take some minutes ..", file=sys.stderr)
        subprocess.run(["rt", "run", "--", "whole", CRATE / "data/small.rows", "1"], cwd=CRATE, check=True,
                       stdout=subprocess.DEVNULL)
    peers, ours = (out / f"{name}/target/release/peers" for name in ("peers", "over_ours"))
    return {"this library": [Path(os.environ.get("OURS", CRATE / "out/getopts_bench")).absolute()], "Rust crate": [peers, "getopts"],
            "bindings/rust": [ours, "getopts"], **{name: [peers, name] for name in ("lexopt", "pico-args", "clap")}}


def built_of_c(out):
    """The C programs by their columns."""
    subprocess.run(["sh", HERE.parent / "bindings/c/install.sh", out / "c"], check=True, stdout=subprocess.DEVNULL)
    subprocess.run(["cc", "-O2", HERE / "c_peers.c", "-I", out / "c/include", out / "c/lib/libgetopts.a", "-o", out / "c_peers"],
                   check=True)
    return {"bindings/c": [out / "c_peers", "getopts"], **{name: [out / "c_peers", name] for name in ("getopt_long", "argp")}}


def row(out, programs, what, job, work, line, few, more):
    """Prints a row of a table. A figure has a star if its checksum differs from that of the row's first program."""
    file = Path(f"{line}.rows")
    (out / file).write_text(rows(line), encoding="utf-8")
    # The peers in Rust, a program for all, consume copies of the words, which are made before the iterations.
    calls = [[f"./{program.relative_to(out)}" if program.is_relative_to(out) else program, *peer, work, file,
              *([more] if program.name == "peers" else [])] for program, *peer in programs.values()]
    sums = [sum_of(words, out) for words in calls]
    first = next((total for total in sums if total), None)

    def cell(words, total):
        return "-" if total is None else f"{of_an_iteration(what, few, more, words, out)}{'*' * (total != first)}"

    with concurrent.futures.ThreadPoolExecutor(os.cpu_count()) as pool:
        cells = pool.map(cell, calls, sums)
    print(f"{job:<16} " + " ".join(f"{cell:>14}" for cell in cells), flush=True)


SMALL = "A small program in Rust"
REGISTRY = Path("/usr/share/cargo/registry")


def library(column, getopts):
    """The dependency of the program of this column, as a line of Cargo.toml."""
    if column == "bindings/rust":
        return f"proved-getopts = {{ path = '{HERE.parent / 'bindings/rust'}' }}"
    if column == "Rust crate":
        return f"getopts = {{ path = '{Path(getopts).resolve()}' }}" if getopts else 'getopts = "=0.2.24"'
    return {"none": "", "lexopt": 'lexopt = "0.2"', "pico-args": 'pico-args = "0.4"', "clap": 'clap = "4"'}[column]


def build_join(out, column, getopts):
    """Builds the program of bench/join for a column: its size, the seconds that this took, and the packages of its library."""
    room = Path(out).resolve() / f"join-{column.replace('/', '-').replace(' ', '-')}"
    shutil.rmtree(room, ignore_errors=True)
    (room / "src").mkdir(parents=True)
    source = {"bindings/rust": "proved-getopts", "Rust crate": "getopts"}.get(column, column)
    shutil.copy(HERE / f"join/{source}.rs", room / "src/main.rs")
    (room / "Cargo.toml").write_text('package = { name = "join", version = "0.0.0", edition = "2021" }\nworkspace = {}\n'
                                     f"profile.release.strip = true\n[dependencies]\n{library(column, getopts)}\n")
    flags = ["--offline", "--config", 'source.crates-io.replace-with="debian"',
             "--config", f"source.debian.directory='{REGISTRY}'"] if getopts and REGISTRY.exists() else []
    before = resource.getrusage(resource.RUSAGE_CHILDREN)
    # Cargo looks for configurations above the current folder.
    subprocess.run(["cargo", "build", "--release", "--quiet", *flags, "--manifest-path", room / "Cargo.toml"], cwd="/", check=True)
    after = resource.getrusage(resource.RUSAGE_CHILDREN)
    # In the tree, lines without `(*)` name each package once.
    tree = subprocess.check_output(["cargo", "tree", "--prefix", "none", "--edges", "normal", *flags,
                                    "--manifest-path", room / "Cargo.toml"], cwd="/", text=True)
    packages = {line.split()[0] for line in tree.splitlines()}
    size = (room / "target/release/join").stat().st_size
    return size, sum(after[:2]) - sum(before[:2]), max(len(packages) - 2, 0)


def join_table(out, getopts):
    """Prints what libraries cost the programs of bench/join."""
    least, columns = build_join(out, "none", getopts)[0], ("bindings/rust", "Rust crate", "lexopt", "pico-args", "clap")
    builds = [[build_join(out, column, getopts) for _ in range(3)] for column in columns]
    cells = {"kilobytes": [f"{(its[0][0] - least) / 1000:.0f}" for its in builds],
             "seconds": [f"{min(it[1] for it in its):.1f}" for its in builds], "packages": [str(its[0][2]) for its in builds]}
    print(f"\n{SMALL}\n{'job':<16} " + " ".join(f"{column:>14}" for column in columns))
    for job, row in cells.items():
        print(f"{job:<16} " + " ".join(f"{cell:>14}" for cell in row), flush=True)


def tables(out, getopts, asked):
    out = Path(out).resolve()
    out.mkdir(parents=True, exist_ok=True)
    programs, of_c = built(out, getopts), built_of_c(out)
    lock = (out / "peers/Cargo.lock").read_text()
    versions = re.findall(r'^name = "(getopts|lexopt|pico-args|clap|unicode-width)"\nversion = "(.*)"', lock, re.M)
    said = [subprocess.check_output([tool, "--version"], text=True).strip() for tool in ("valgrind", "rustc")]
    system = [platform.freedesktop_os_release()["PRETTY_NAME"], re.search(r"model name\s*: (.*)", Path("/proc/cpuinfo").read_text())[1]]
    print("# " + ", ".join([*(" ".join(it) for it in versions), *said, "glibc " + platform.libc_ver()[1], *system]))
    for what, title, jobs in TABLES:
        columns = of_c if jobs is OF_C else programs
        chosen = [job for job in jobs if not asked or job in asked]
        if chosen:
            print(f"\n{title}\n{'job':<16} " + " ".join(f"{column:>14}" for column in columns))
        for job in chosen:
            row(out, columns, what, job, *jobs[job])
    if not asked:
        join_table(out, getopts)
    print("\n* its checksum differs from that of the first column")


def recorded():
    """The tables of last_run.txt: for each title and job, the figures by column."""
    tables = {}
    text = (HERE / "last_run.txt").read_text(encoding="utf-8")
    for title, heads, rows in re.findall(r"^(.+)\njob (.*)\n((?:.+\n)*)", text, re.M):
        columns = re.split(r"\s{2,}", heads.strip())
        for job, *cells in (re.split(r"\s{2,}", row) for row in rows.splitlines()):
            tables[title, job] = dict(zip(columns, cells))
    return tables


def main(words):
    known = {job for *_, jobs in TABLES for job in jobs}
    match words:
        case ["--help" | "-h", *_]:
            print(__doc__.strip())
        case ["--count", what, few, more, *program]:
            print(of_an_iteration(what, int(few), int(more), program))
        case ["--rows", line]:
            print(rows(line), end="")
        case ["--join", out]:
            join_table(out, None)
        case ["--join", out, "--getopts", crate]:
            join_table(out, crate)
        case [out, "--getopts", crate, *jobs] if known >= {*jobs}:
            tables(out, crate, jobs)
        case [out, *jobs] if out and not out.startswith("-") and known >= {*jobs}:
            tables(out, None, jobs)
        case _:
            print(__doc__.strip(), file=sys.stderr)
            sys.exit(2)


if __name__ == "__main__":
    main(sys.argv[1:])
