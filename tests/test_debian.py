"""Programs of Debian 12 behave the same with the crate getopts 0.2.24 and with the package that replaces it.

This needs root and a mirror of Debian, and takes four minutes of processor time, mostly to compile the programs twice."""

import os
import random
import re

import pytest
from conftest import ROOT, answer, run
from targets import REGISTRY, cargo

# For each program: its crate, its source there, the words for which it prints its options, and words that it accepts.
PROGRAMS = {
    "pulldown-cmark": ("pulldown-cmark", "src/main.rs", ["--help"], ["a.md"]),
    "difference": ("difference", "src/main.rs", [], ["a b", "a c", "char", "word", "line"]),
    "pngcheck": ("png", "examples/pngcheck.rs", [], ["a.png", "a.rs"]),
    "dwarfdump": ("gimli", "examples/dwarfdump.rs", [], ["a.o", "a.rs"]),
    "syncat": ("syntect", "examples/syncat.rs", [], ["a.rs", "a.md", "base16-ocean.dark"]),
}
# What they use, besides what the packages of their crates depend on.
USED = ("getopts glob term crossbeam fallible-iterator memmap2 num_cpus object rayon regex typed-arena "
        "pulldown-cmark difference png gimli").split()
FILES = {
    "a.md": b"# x\n\n* [ ] \"t\" ~~s~~\n\n|a|b|\n|-|-|\n|1|2|\n\nx[^1]\n\n[^1]: f\n",
    "a.rs": b"fn main() { println!(\"{}\", 1); }\n",
    "a.c": b"int main(void) { return 0; }\n",
    "a.png": bytes.fromhex("89504e470d0a1a0a0000000d49484452000000010000000108060000001f15c4890000000d49444154789c6360"
                           "000002000001e221bc330000000049454e44ae426082"),
}
# Words that fit no option, or are read in unusual ways.
ODD = [b"", b"-", b"--", b"--=", b"-=", b"---", b"-?", b"--nope", b"--nope=1", b"-@", b"a b", b"x\ny", b"-\xc3\xa9",
       b"--\xc3\xa9=1", b"\xff", b"-\xff", b"--x\xfe=1", b"\xf0\x9f\x98\x80", b"-\xf4\x8f\xbf\xbf", b"--help=", b"-h=x"]
OPTION = re.compile(rb"^ {4}(?:-(\S)(?:, --([^ \[=]+))?|    --([^ \[=]+))", re.M)


@pytest.fixture(scope="module")
def registry(tmp_path_factory):
    """Debian's packages of the crates, downloaded and unpacked but not installed, beside those that this machine has."""
    room = tmp_path_factory.mktemp("debian")
    for folder in ("debs/partial", "registry"):
        (room / folder).mkdir(parents=True)
    packages = [f"librust-{name.replace('_', '-')}-dev" for name in [*USED, "syntect"]]
    run("apt-get", "install", "-y", "--download-only", "--no-install-recommends", "-o", "APT::Sandbox::User=root",
        "-o", f"Dir::Cache::archives={room}/debs", *packages)
    for package in (room / "debs").glob("librust-*.deb"):
        run("dpkg", "-x", package, room)
    for crate in [*(room / "usr/share/cargo/registry").glob("*"), *REGISTRY.glob("*")]:
        if not (room / "registry" / crate.name).exists():
            (room / "registry" / crate.name).symlink_to(crate.resolve())
    return room / "registry"


def lines(options, fitting):
    """Each option alone, twice, with arguments and among other words; odd words; and 200 random lines."""
    names = [name for short, long in options for name in ([b"-" + short] * bool(short) + [b"--" + long] * bool(long))]
    for name in names:
        yield from ([name], [name, b"v"], [name + b"=v"], [name + b"="], [name + b"v"], [name, name], [b"--", name],
                    [b"x", name], [name, b"-"], [name[:-1]])
    yield from ([word, *rest] for word in ODD for rest in ([], [b"x"]))
    rng, shorts = random.Random(1), b"".join(short for short, _ in options) or b"x"
    for _ in range(200):
        line = []
        for _ in range(rng.randint(1, 5)):
            name, value = rng.choice(names), rng.choice([*fitting, b"", b"-x", b"1", b"=v"])
            cluster = b"-" + bytes(rng.choices(shorts, k=rng.randint(2, 4)))
            line += rng.choice([[name], [name, value], [name + b"=" + value], [name + value], [cluster], [value],
                                [rng.choice(ODD)]])
        yield line


def answers(room, registry, crate):
    """Builds the programs with the crate getopts in a folder. Returns how many options each has, and its answers."""
    manifest = ('package = { name = "programs", version = "0.0.0", edition = "2018" }\n'
                'features = { bin = [], default = ["bin"] }\n[dependencies]\n'
                'syntect = { version = "*", default-features = false, features = ["default-fancy"] }\n')
    manifest += "".join(f'{name} = "*"\n' for name in USED)
    for program, (name, source, *_) in PROGRAMS.items():
        folder, = registry.glob(f"{name}-[0-9]*")
        manifest += f'[[bin]]\nname = "{program}"\npath = "{folder.resolve()}/{source}"\n'
    (room / "Cargo.toml").write_text(f'{manifest}[patch.crates-io]\ngetopts = {{ path = "{crate}" }}\n')
    (room / "Cargo.lock").unlink(missing_ok=True)
    cargo(room, "build", "--quiet", registry=registry, env={
        "RUSTFLAGS": "--cap-lints=allow", "CARGO_PROFILE_DEV_OPT_LEVEL": "1", "CARGO_PROFILE_DEV_DEBUG": "0"})

    def answered(program, *words):
        said, status = answer(room / "target/debug" / program, *map(os.fsdecode, words), cwd=room, input=FILES["a.md"],
                              env={"RUST_BACKTRACE": "0", "TERM": "dumb"})
        # A panic prints the number of the thread.
        return re.sub(rb"^thread 'main' \(\d+\)", b"", said, flags=re.M), status

    for program, (_, _, help_words, fitting) in PROGRAMS.items():
        options = [(short, long or alone) for short, long, alone in OPTION.findall(answered(program, *help_words)[0])]
        asked = lines(options, [word.encode() for word in fitting])
        yield program, len(options), [(line, answered(program, *line)) for line in asked]


@pytest.mark.release
def test_programs_of_debian(registry, crate, tmp_path):
    for name, text in FILES.items():
        (tmp_path / name).write_bytes(text)
    run("cc", "-g", "-c", "a.c", cwd=tmp_path)
    theirs, ours = (list(answers(tmp_path, registry, folder)) for folder in (crate, ROOT / "bindings/rust/getopts"))
    for (program, options, said), (*_, same) in zip(theirs, ours):
        assert options and 50 < sum(status == 0 for _, (_, status) in said) < len(said)
        differ = [f"{line}: {answer}, not {wanted}" for (line, wanted), (_, answer) in zip(said, same) if answer != wanted]
        assert not differ, f"{program}, {len(differ)} lines: {differ[0]}"
