#!/usr/bin/env bash
# Builds a fuzzer, the program OUT/TARGET, with cargo and clang's libFuzzer.
# usage: tests/fuzz/build.sh shell|c OUT
#   OUT   a folder outside the repository; later builds reuse what is there
#
# It needs Debian's clang and libclang-rt-14-dev, and a recent rustc, such as 1.95. Debian's unicode-width is used if it is
# installed. CARGO_FLAGS is passed to cargo.
set -euo pipefail
unset CDPATH
case ${1:-} in --help | -h) sed -n '2,/^[^#]/s/^# \{0,1\}//p' "$0"; exit ;; esac
[[ $# = 2 && $1 =~ ^(shell|c)$ ]] || { echo 'usage: tests/fuzz/build.sh shell|c OUT' >&2; exit 2; }
mkdir -p "$2"
target=$1 out=$(cd "$2" && pwd) here=$(cd "$(dirname "$0")" && pwd)
read -r -a flags <<<"${CARGO_FLAGS:-}"
registry=/usr/share/cargo/registry
if compgen -G "$registry/unicode-width-*" >/dev/null; then
    flags+=(--offline --config 'source.crates-io.replace-with="debian"' --config "source.debian.directory='$registry'")
fi
# Cargo looks for configurations above the current folder, and other users may put some into /tmp.
cd /
host=$(rustc -vV | sed -n 's/^host: //p') package=$here
RUSTFLAGS='-Cpasses=sancov-module'
for flag in level=4 inline-8bit-counters pc-table trace-compares; do
    RUSTFLAGS+=" -Cllvm-args=-sanitizer-coverage-$flag"
done
# Stable compilers accept these flags, too.
export RUSTFLAGS RUSTC_BOOTSTRAP=1
build() {
    cargo build --release --quiet --manifest-path "$package/Cargo.toml" --target "$host" \
        --target-dir "$out/$target.build" "${flags[@]}"
}
built=$out/$target.build/$host/release
if [ "$target" = c ]; then
    package=$here/../../bindings/c
    export CARGO_PROFILE_RELEASE_{LTO=off,DEBUG_ASSERTIONS=true,OVERFLOW_CHECKS=true}
    RUSTFLAGS+=' -Zsanitizer=address' build
    clang -g -O1 -Wall -Wextra -fsanitize=fuzzer,address,undefined -fno-sanitize-recover=undefined -I "$package" \
        "$here/c.c" "$built/libgetopts.a" -o "$out/c"
else
    RUSTFLAGS+=" -Clink-arg=$(clang -print-runtime-dir)/libclang_rt.fuzzer-${host%%-*}.a -Clink-arg=-lstdc++" build
    cp "$built/shell" "$out/shell"
fi
