#!/usr/bin/env bash
# Tests this repository: proves every crate, tries the mutants in must-fail and, at the same time, runs tests/ with pytest.
# Then it compares the shell binaries with what their source gives.
# usage: test.sh [--quick] [--no-install] [CRATE]
#        test.sh [--quick] [--no-install] -k NAME [FLAG ..]
#
# As root, it first installs the packages of tests/packages.txt that are missing. On Debian 12, it also unpacks Agda and, if
# there is only rustc 1.63, a newer Rust into ~/.cache/proved-getopts, since `rt ci` refuses a repository that contains
# links. The first line of its output names all this. --no-install leaves it out.
#
# CRATE is a folder with the Rust crate getopts 0.2.24, with which the library is then compared. --quick proves nothing:
# programs run unproved, tests of built programs run only if these exist, other targets are left out, and there are fewer
# random cases. Without rt, --quick also leaves out the tests that need it. -k runs only the tests that match NAME, and
# accepts pytest's flags.
set -uo pipefail
unset CDPATH
start=$SECONDS quick=() install=1
stop() { echo "test.sh: $*" >&2; exit 2; }
for flag; do
    case $flag in
    --help | -h) sed -n '2,/^[^#]/s/^# \{0,1\}//p' "$0"; exit ;;
    --quick) quick=(--quick) ;;
    --no-install) install='' ;;
    *) break ;;
    esac
    shift
done
case ${1:-} in -k | [!-]* | '') ;; *) stop "usage: test.sh [--quick] [--no-install] [CRATE]" ;; esac
# By XDG's rules, a relative path doesn't count.
case ${XDG_CACHE_HOME:-} in /*) ;; *) unset XDG_CACHE_HOME ;; esac
# Other users could put programs into a cache below /tmp.
[ "${XDG_CACHE_HOME:-${HOME:-}}" ] || stop "set HOME or XDG_CACHE_HOME"
cache=${XDG_CACHE_HOME:-${HOME:-}/.cache}/proved-getopts
rust=$cache/rust agda=$cache/agda
[ ! -d "${1:-}" ] || set -- "$(cd "$1" && pwd)"
cd -P "$(dirname "$0")" || exit
# Python, cargo and rustup read configurations, and toolchains, in the home, the cache, the clone and all folders above, which
# only root and this user may change. A group of the user's name has no other members. With an access list, which `ls` shows
# as a plus sign, others may have rights that `find` doesn't see. A machine for CI has no other users.
own=0
[ "$(id -gn)" != "$(id -un)" ] || own=$(id -g)
for above in . "${HOME:-/}" "$cache"; do
    above=$(realpath -m -- "$above")/ || exit
    while [ "$above" ] && [ "${CI:-}" != true ]; do
        above=${above%/*}
        at=${above:-/}
        [ ! -e "$at" ] || [[ $(ls -ld -- "$at") != ??????????+* && -z $(find "$at" -maxdepth 0 \( -perm -o+w -o \
            -perm -g+w ! -gid 0 ! -gid "$own" -o ! -uid 0 ! -uid "$(id -u)" \)) ]] ||
            stop "other users can put programs into $at: choose a clone, HOME and XDG_CACHE_HOME where only you can write" \
                "(or set CI=true, if this machine has no other users)"
    done
done
command -v rt >/dev/null || [ ${#quick[@]} = 1 ] || [ "${1:-}" = -k ] ||
    stop "rt not found: put the toolchain's bin folder on the path, or run 'test.sh --quick', which doesn't need it"
[ $# = 0 ] || [ "$1" = -k ] || [ -f "$1/Cargo.toml" ] ||
    stop "$1 doesn't contain the crate getopts (usage: test.sh [--quick] [--no-install] [CRATE])"

# The packages of tests/packages.txt that aren't installed.
lacking() {
    dpkg-query -W -f '${db:Status-Status} ${Package}\n' | sed -n 's/^installed //p' |
        grep -vxFf - <(sed 's/#.*//; /^[a-z]*:/d' tests/packages.txt | xargs -n 1)
}
# Those that this release has.
offered() { apt-cache pkgnames | grep -xFf <(lacking); }
# Whether the first rustc in $PATH is older than this version 1.N, or missing.
rust_older() { [ "$(rustc --version 2>/dev/null | sed -n 's/^rustc 1\.\([0-9]*\).*/\1/p' | grep . || echo 0)" -lt "$1" ]; }
# Unpacks into this folder the packages of this line in tests/packages.txt, which this command downloads.
unpack() {
    local package packages part=$1.part into=$1
    packages=$(sed -n "s/^$2: *//p" tests/packages.txt)
    shift 2
    # shellcheck disable=SC2086
    rm -rf "$into" "$part" && mkdir -p "$part/partial" && (cd "$part" && "$@" $packages) &&
        for package in "$part"/*.deb; do
            dpkg --fsys-tarfile "$package" | tar -xC "$part" --exclude=./usr/lib/haskell-packages && rm "$package" || return
        done && mv "$part" "$into"
}
# From Debian 12 itself: the cargo of its security updates is newer, but fails to clone git repositories.
unpack_rust() {
    unpack "$rust" rust apt-get install -y -t bookworm --no-install-recommends --download-only -o "Dir::Cache::Archives=$rust.part"
}
unpack_agda() { agda/check.sh --get; }
# What to install, as text in $news. Without lists of packages, those that this release has aren't known yet.
find_news() {
    packages='' unpack='' news=''
    [ "$install" ] && [ "$(id -u)" = 0 ] && command -v apt-get >/dev/null || return
    packages=$(if [ "$(find /var/lib/apt/lists -name '*Packages*' -print -quit)" ]; then offered; else lacking; fi 2>/dev/null | xargs)
    news="${packages:+, the Debian packages $packages}"
    grep -qs '^VERSION_CODENAME=bookworm' /etc/os-release || return
    ! rust_older 85 || [ -x "$rust/usr/bin/rustc" ] || { unpack=rust && news="$news, Rust 1.85 into $rust"; }
    [ ${#quick[@]} = 1 ] || command -v agda >/dev/null || [ -x "$agda/usr/bin/agda" ] ||
        { unpack="$unpack agda" && news="$news, Agda into $agda"; }
}
find_news
# Another run may be installing the same: wait until it has, and look again.
[ -z "$news" ] || { mkdir -p "$cache" && exec 9>"$cache/lock" && flock 9; find_news; }
if [ "$news" ]; then
    echo "test.sh: about to install (--no-install leaves this out)${news/,/:}"
    {
        apt-get -o APT::Update::Error-Mode=any update
        [ -z "$packages" ] || offered | DEBIAN_FRONTEND=noninteractive xargs -r apt-get install -y --no-install-recommends
        for it in $unpack; do "unpack_$it"; done
    } 2>&1 | sed -n 's/^E: /test.sh: apt-get: /p' | tail -1
fi
exec 9>&-
if rust_older 85 && [ -x "$rust/usr/bin/rustc" ]; then
    libraries=$rust/usr/lib/$(uname -m)-linux-gnu:$rust/lib/$(uname -m)-linux-gnu
    export PATH=$rust/usr/bin:$PATH LD_LIBRARY_PATH=$libraries${LD_LIBRARY_PATH:+:$LD_LIBRARY_PATH}
fi
for python in python3 /usr/bin/python3 ''; do
    [ "$python" ] || stop "pytest not found: apt-get install python3-pytest python3-pytest-xdist python3-pytest-timeout"
    ! "$python" -c 'import pytest, pytest_timeout, xdist' 2>/dev/null || break
done
command -v rt >/dev/null || echo "test.sh: rt not found: tests that need it are left out"
[ "${1:-}" != -k ] || exec "$python" -m pytest tests "${quick[@]}" "$@"

# Tests that don't depend on the proofs, and tests of built programs, which wait for them, run in separate workers.
room=$(mktemp -d)
trap 'kill $(jobs -p) 2>/dev/null; rm -rf "$room"' EXIT
tests() {
    nice -n 5 "$python" -m pytest tests -q --dist loadgroup --durations 15 "${quick[@]}" ${crate:+--getopts="$crate"} "$@"
}
crate=${1:-} failed=''
ended() { [ "$2" = 0 ] || failed="$failed; $1"; echo "== $1: status $2 after $((SECONDS - start)) s"; }

if [ ${#quick[@]} -gt 0 ]; then
    tests -n 4 2>&1 | tee "$room/said.quick"
    ended tests "${PIPESTATUS[0]}"
else
    export CI_LOG=$room/ci
    # Otherwise `rt ci` would end by restoring older libraries, and bindings/build.py would prove the new ones again.
    rm -rf crates/*/out/rlib
    touch "$CI_LOG"
    tests -n 3 -m 'not built' >"$room/said.plain" 2>&1 & plain=$!
    tests -n 3 -m built >"$room/said.built" 2>&1 & built=$!
    rt ci 2>&1 | tee "$CI_LOG"
    ended proofs "${PIPESTATUS[0]}"
    touch "$CI_LOG.ended"
    [ "$failed" ] || { bindings/build.py --check; ended "shell binaries" $?; }
    wait $plain; status=$?; cat "$room/said.plain"; ended tests $status
    wait $built; status=$?; cat "$room/said.built"; ended "tests of what is built" $status
fi
! grep -q '^SKIPPED' "$room"/said.* || ! packages=$(lacking 2>/dev/null) ||
    echo "most of the skipped tests would run after: apt-get install --no-install-recommends ${packages//$'\n'/ }"
[ ${#quick[@]} = 0 ] || echo "Nothing was proved: 'bash test.sh' proves everything."
[ -z "$failed" ] || { echo "failed: ${failed#; }"; exit 1; }
times >"$room/times"
minutes=$(tr ms '  ' <"$room/times" | awk '{ sum += $1 + $3 + ($2 + $4) / 60 } END { printf "%.0f", sum }')
unbuilt=$(awk -F '[][]' "/^SKIPPED .* isn't built/ { sum += \$2 } END { print sum }" "$room"/said.*)
[ -z "$unbuilt" ] || unbuilt=", but $unbuilt tests were skipped: run 'rt ci' first, which builds the programs that they need"
echo "all passed after $((SECONDS - start)) s ($minutes minutes of processor time)$unbuilt"
