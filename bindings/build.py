#!/usr/bin/env python3
"""Builds the shell binaries, which are checked in, from the proved source.

usage: bindings/build.py [--check]

The program is proved with the libraries that `rt lib` makes, and built for every processor from one proof. proved.sha256
records the toolchain, and checksums of musl, because others would give other binaries. With --check, nothing is replaced:
each byte is compared with the binaries that are checked in, for those processors whose musl is installed, and the status
is 1 if one differs, or if the toolchain or musl isn't the recorded one.
"""

import hashlib
import os
import re
import shutil
import subprocess
import sys
import tempfile
from pathlib import Path

ROOT = Path(__file__).resolve().parents[1]
FOLDER, CRATE = ROOT / "bindings/shell", "getopts_shell"
PROCESSORS = ["x86_64", "aarch64"]
# The files of musl that are linked.
MUSL = ["crt1.o", "crti.o", "crtn.o", "libc.a"]


def stop(why):
    sys.exit(f"build.py: {why}")


def kit():
    """The folder of the toolchain."""
    return Path(shutil.which("rt") or stop("rt not found: put the toolchain's bin folder on the path")).resolve().parents[1]


def libraries(crate):
    """The libraries of a crate, from crates.txt."""
    return re.search(rf"^{crate}\b[^:\n]*:(.*)$", (ROOT / "crates.txt").read_text(), re.M)[1].split()


def build(processor, to):
    """Proves the program with its proved libraries, and builds its object file for a processor."""
    externs = []
    for library in ["std", *libraries(CRATE)]:
        at, own = kit() / f"rlibs/{library}.rlib", ROOT / "crates" / library
        if own.is_dir():
            at = own / f"out/rlib/{library}.rlib"
            done = subprocess.run([kit() / "bin/rt", "lib"], cwd=own, capture_output=True, text=True)
            done.returncode == 0 or stop(f"'rt lib' in crates/{library} failed:\n{(done.stdout + done.stderr)[-3000:]}")
        externs += ["--extern", f"{library}={at}", "-L", f"dependency={at.parent}"]
    words = ["--crate-name", CRATE, "src/main.rt", "--links", f"{CRATE}=", "--jobs", os.environ.get("JOBS", "1"), *externs,
             "--antt-project", kit() / "rattle/logic/antt-project.json", "--logic-built", kit() / "logic_built",
             "--incremental", "out/incremental", "--target", f"{processor}-unknown-linux-gnu", "--toolchain",
             kit() / "toolchain", "--backend", "llvm", "-o", to, *(["--cpu", "x86-64"] if processor == "x86_64" else [])]
    (ROOT / f"crates/{CRATE}/out").mkdir(exist_ok=True)
    done = subprocess.run([kit() / "bin/rattle", "build", *words], cwd=ROOT / "crates" / CRATE, capture_output=True, text=True)
    if done.returncode:
        stop(f"proving or building {CRATE} failed:\n{(done.stdout + done.stderr)[-3000:]}")


def musl_for(processor):
    """The folder of a processor's musl."""
    return Path(f"/usr/lib/{processor}-linux-musl")


def lacks_musl(processor):
    """What to install before a program can be linked for a processor; None if nothing is missing."""
    if not (musl_for(processor) / "libc.a").exists():
        return f"{musl_for(processor)}/libc.a is missing: apt-get install musl-dev, or musl-dev:arm64"


def link(processor, to, of):
    """Links a static program from an object file, start.c and musl."""
    musl, tools = musl_for(processor), kit() / "toolchain/bin"
    flags = "-std=c11 -O2 -Wall -Wextra -Wpedantic -Wshadow -Wconversion -Werror -fno-pic -nostdinc".split()
    start = Path(f"{to}.start.o")
    subprocess.run([tools / "clang", f"--target={processor}-linux-musl", *flags, "-isystem",
                    f"/usr/include/{processor}-linux-musl", "-c", FOLDER / "start.c", "-o", start], check=True)
    subprocess.run([tools / "ld.lld", "-static", "-s", "--gc-sections", "--wrap=main", musl / "crt1.o", musl / "crti.o",
                    start, of, musl / "libc.a", musl / "crtn.o", "-o", to], check=True)
    start.unlink()


def sum_of(file):
    return hashlib.sha256(file.read_bytes()).hexdigest()


def versions(processors):
    """The lines of proved.sha256 about the toolchain, and about musl for these processors."""
    done = subprocess.run([kit() / "bin/rt", "version"], capture_output=True, text=True, check=True)
    files = (musl_for(processor) / name for processor in processors for name in MUSL)
    return [f"# {done.stdout.strip()}", *(f"{sum_of(file)}  {file}" for file in files)]


def compare(built, kept):
    if built.read_bytes() != kept.read_bytes():
        stop(f"{kept.relative_to(ROOT)} isn't what its source gives: run bindings/build.py")
    print(f"{kept.relative_to(ROOT)} is what its source gives, byte for byte", flush=True)


def replace(built, kept):
    kept.parent.mkdir(exist_ok=True)
    # A copy that replaces the old file: a test may be running that one.
    shutil.copyfile(built, f"{kept}.new")
    os.chmod(f"{kept}.new", 0o755)
    os.replace(f"{kept}.new", kept)
    Path(f"{kept}.sha256").write_text(f"{sum_of(kept)}  {kept.name}\n")
    print(f"built {kept.relative_to(ROOT)}", flush=True)


def main(words):
    if words in (["--help"], ["-h"]):
        return print(__doc__.strip())
    if words not in ([], ["--check"]):
        print(__doc__.strip(), file=sys.stderr)
        sys.exit(2)
    for processor in filter(lacks_musl, PROCESSORS):
        words or stop(lacks_musl(processor))
        print(f"bindings/shell/{processor}/{CRATE} isn't compared with its source: {lacks_musl(processor)}")
    processors, record = [it for it in PROCESSORS if not lacks_musl(it)], FOLDER / "proved.sha256"
    lines = versions(processors)
    if words and (others := [line for line in lines if line not in record.read_text().splitlines()]):
        named = ", ".join(line.split("  ")[-1].removeprefix("# ") for line in others)
        stop(f"the shell binaries weren't built with this machine's {named}")
    with tempfile.TemporaryDirectory() as room:
        for processor in processors:
            built = Path(room) / processor
            build(processor, f"{built}.o")
            link(processor, built, f"{built}.o")
            (compare if words else replace)(built, FOLDER / processor / CRATE)
    words or record.write_text("\n".join(lines) + "\n")


if __name__ == "__main__":
    main(sys.argv[1:])
