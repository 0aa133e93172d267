#!/usr/bin/env bash
# Builds a package that uses the crate getopts, in a folder outside the repository.
# usage: build.sh PACKAGE OUT [GETOPTS]
#   PACKAGE   tests/differential/reference or bench/peers
#   OUT       the folder to build in; later builds reuse what is there
#   GETOPTS   a folder with the crate; without it, cargo downloads 0.2.24
#
# With GETOPTS, Debian's packages replace the public registry if they include all dependencies. CARGO_FLAGS is passed
# to cargo.
set -euo pipefail
unset CDPATH
case ${1:-} in --help | -h) sed -n '2,/^[^#]/s/^# \{0,1\}//p' "$0"; exit ;; esac
stop() { echo "$1" >&2; exit 2; }
[ $# = 2 ] || [ $# = 3 ] || stop 'usage: tests/differential/build.sh PACKAGE OUT [GETOPTS]'
command -v cargo >/dev/null || stop 'tests/differential/build.sh: cargo not found'
mkdir -p "$2"
cp -r "$1/." "$2"
out=$(cd "$2" && pwd)
read -r -a flags <<<"${CARGO_FLAGS:-}"
if [ -n "${3:-}" ]; then
    printf '\n[patch.crates-io]\ngetopts = { path = "%s" }\n' "$(cd "$3" && pwd)" >>"$out/Cargo.toml"
    registry=/usr/share/cargo/registry lacking=''
    for name in unicode-width $(sed -n '1,/^\[dependencies\]/d; s/^\([a-z-]*\) = .*/\1/p' "$1/Cargo.toml"); do
        [ "$name" = getopts ] || compgen -G "$registry/$name-[0-9]*" >/dev/null || lacking=$name
    done
    [ "$lacking" ] || flags+=(--offline --config 'source.crates-io.replace-with="debian"' --config "source.debian.directory='$registry'")
fi
# Cargo looks for configurations above the current folder, and other users may put some into /tmp.
cd /
cargo build --release --quiet --jobs 2 --manifest-path "$out/Cargo.toml" "${flags[@]}"
