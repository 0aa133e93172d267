"""The targets on which the Rust crate and the C library are tested, with Debian's rustc 1.63.

Debian can't install libstd-rust-dev and libstd-rust-1.63 for arm64 and i386 next to those of this machine. Unpack them
(dpkg --add-architecture, apt-get download, dpkg -x), and copy their usr/lib/rustlib/TARGET to /usr/lib/rustlib."""

import os
import re
from pathlib import Path

import pytest
from conftest import need, need_compiler, run, script, succeeds

# Cargo has to build in the folders of the tests.
os.environ.pop("CARGO_TARGET_DIR", None)
REGISTRY = Path("/usr/share/cargo/registry")
LOADER = "/usr/i686-linux-gnu/lib/ld-linux.so.2"
# Lets rustc 1.63 use features that later versions have.
OLD = {"RUSTC": "/usr/bin/rustc", "RUSTC_BOOTSTRAP": "1"}
WASI = """import { WASI } from "node:wasi";
import { readFile } from "node:fs/promises";
import { argv, env } from "node:process";
const wasi = new WASI({ version: "preview1", args: argv.slice(2), env, preopens: { "/": "/" }, returnOnExit: true });
const module = await WebAssembly.compile(await readFile(argv[2]));
process.exitCode = wasi.start(await WebAssembly.instantiate(module, { wasi_snapshot_preview1: wasi.wasiImport }));
"""
# A program that uses the crate unicode-width.
USES_WIDTH = {"main.rs": "fn main() { unicode_width::UnicodeWidthStr::width(\"\"); }\n", "Cargo.toml": """
package = { name = "program", version = "0.0.0", edition = "2021" }
bin = [{ name = "program", path = "main.rs" }]
dependencies.unicode-width = ">=0.1.5, <0.3"
"""}
# For each target, the compiler that links its programs (None: rustc does), and the command that runs them.
TARGETS = {
    "x86_64-unknown-linux-gnu": ("cc", []),
    "aarch64-unknown-linux-gnu": ("aarch64-linux-gnu-gcc", ["qemu-aarch64", "-L", "/usr/aarch64-linux-gnu"]),
    "i686-unknown-linux-gnu": ("i686-linux-gnu-gcc", [LOADER, "--library-path", str(Path(LOADER).parent)]),
    # By default, V8 crashes at random: its concurrent marking fails while WebAssembly's memory grows.
    "wasm32-wasi": (None, ["node", "--single-threaded-gc", "{room}/wasi.mjs"]),
    "x86_64-pc-windows-gnu": ("x86_64-w64-mingw32-gcc", ["wine"]),
}
# Targets that unwind. On others a panic ends the program, so tests that panic are skipped.
UNWINDS = {target for target in TARGETS if "linux" in target}


def offline(registry=REGISTRY):
    """Flags that make cargo use Debian's crates, or those of a folder, if unicode-width is installed."""
    if not list(REGISTRY.glob("unicode-width-*")):
        return []
    return ["--offline", "--config", 'source.crates-io.replace-with="debian"',
            "--config", f'source.debian.directory="{registry}"']


def rust_minor():
    """The N of the rustc 1.N that cargo uses. Before 1.95, the path of the sources may be in what it builds."""
    return int(re.search(r"1\.(\d+)", run("rustc", "--version")[0])[1])


def need_cargo(folder):
    """Skips the test if cargo can't build the crate in this folder."""
    need("cargo", "rustc", "cc")
    least = re.search(r'rust-version = "1\.(\d+)"', (folder / "Cargo.toml").read_text()) or (0, 63)
    if rust_minor() < int(least[1]):
        pytest.skip(f"rustc is older than 1.{least[1]}: install a newer one from https://rustup.rs")
    flags = ["--config", "net.retry=0", "--config", "http.timeout=10", *offline()]
    if not succeeds("cargo", "build", *flags, **USES_WIDTH):
        pytest.skip("cargo can't build with unicode-width: apt-get install librust-unicode-width-dev libc6-dev")


def cargo(folder, *words, env=None, registry=REGISTRY):
    """Runs cargo in a folder, and returns its output."""
    need_cargo(folder)
    if words[0] == "clippy":
        need("cargo-clippy")
    return run("cargo", words[0], *offline(registry), *words[1:], cwd=folder, env=env)


def shared_folder(room):
    """Makes a folder in which everybody may write, with files that cargo and rustup would read in a folder above theirs.
    Returns a file: it exists as soon as one of them ran a program named there."""
    ran = room.with_name("ran")
    for folder in (".cargo", "own/bin"):
        (room / folder).mkdir(parents=True)
    room.chmod(0o1777)
    wrapper = script(room / "wrapper", f"#!/bin/sh\necho \"$0\" >>'{ran}'\nexec \"$@\"\n")
    for tool in ("cargo", "rustc"):
        script(room / "own/bin" / tool, f"#!/bin/sh\necho \"$0\" >>'{ran}'\nexit 1\n")
    (room / ".cargo/config.toml").write_text(f'[build]\nrustc-wrapper = "{wrapper}"\n')
    (room / "Cargo.toml").write_text("[workspace]\n")
    (room / "rust-toolchain.toml").write_text(f'[toolchain]\npath = "{room}/own"\n')
    return ran


def commit_repository(clone):
    """Commits a folder to a new repository, and returns its URL."""
    need("git")
    for words in (["init", "-q"], ["add", "-A"], ["-c", "user.name=a", "-c", "user.email=a@b", "commit", "-q", "-m", "a"]):
        run("git", *words, cwd=clone)
    return f"file://{clone}"


def runner(target, room):
    """The command that runs a target's programs."""
    (room / "wasi.mjs").write_text(WASI)
    words = [word.format(room=room) for word in TARGETS[target][1]]
    need(*words[:1])
    if words[:1] == ["wine"]:
        # The heap of 64-bit Wine begins at a random address within a GB. In about one of 2,000 runs, it covers the page
        # that Wine needs at 0x7ffe0000, and Wine ends with status 1, without a message unless err+virtual is set.
        os.environ.update(WINEPREFIX=str(room / "wine"), WINEDEBUG="-all,err+virtual")
        words = ["setarch", "-R", *words] if succeeds("setarch", "-R", "true") else words
    os.environ["NODE_NO_WARNINGS"] = "1"
    return words


def need_target(target):
    """Skips the test if Debian's cargo can't build for a target."""
    if not Path("/usr/bin/cargo").exists() or not offline():
        pytest.skip("/usr/bin/cargo or unicode-width not found: apt-get install cargo librust-unicode-width-dev")
    if not Path(run(OLD["RUSTC"], "--print", "target-libdir", "--target", target)[0].strip()).exists():
        pytest.skip(f"/usr/bin/rustc has no std for {target}: see tests/targets.py")
    linker = TARGETS[target][0]
    need_compiler(linker) if linker else need("rust-lld")


def cargo_for(target, folder, *words, env=None):
    """Runs Debian's cargo for a target in the folder of a copied crate, and returns its output."""
    linker, by = TARGETS[target]
    need_target(target)
    name = f"CARGO_TARGET_{target.upper().replace('-', '_')}"
    settings = {f"{name}_LINKER": linker, f"{name}_RUNNER": " ".join(runner(target, folder)) if by else None}
    env = {**{key: word for key, word in settings.items() if word}, **(env or {})}
    words = [words[0], *offline(), "--quiet", "--target", target, *words[1:]]
    return run("/usr/bin/cargo", *words, cwd=folder, env={**OLD, **env})


def passed(said):
    """How many tests passed in each program of `cargo test`, by its output: with wine, one that panics exits with 0."""
    results = re.findall(r"^test result: (.*?) (\d+) passed; (\d+) failed", said, re.M)
    assert results and all((word, failed) == ("ok.", "0") for word, _, failed in results), said
    assert len(results) == len(re.findall(r"^running \d+ tests?$", said, re.M)), said
    return [int(count) for _, count, _ in results]
