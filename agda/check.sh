#!/usr/bin/env bash
# Proves all lemmas of crates/getopts/src/laws.rt in Agda, and compares programs with their definitions.
# usage: check.sh                   proves
#        check.sh --wrong           proves, and tries wrong definitions (wrong.py), which Agda must reject
#        check.sh --run ROWS..      compares the answers in files of test cases with the definitions (run.js)
#        check.sh --print ROWS..    prints test cases with the definitions' answers
#        check.sh --rust ROWS       compares the Rust package's answers, or those of the crate in $GETOPTS
#        check.sh --compile         prints a folder with the definitions, compiled to JavaScript
#        check.sh --get             gets Agda from Debian 12, without GHC, into ~/.cache/proved-getopts
#
# translate.py writes the definitions and the lemmas' clauses in Agda's syntax, to the folder gen. In the
# place of Rattle's std, they use Std.agda. If rt is on the path, the first two also prove that its
# functions are those of Rattle's std; nothing else needs rt. All need Python and Agda, as `agda` or as
# --get unpacks it (2.6.2.2; earlier proofs also passed with 2.6.4.3 and 2.8.0). To compare, Node is
# needed too, and for --rust also cargo. The top of crates/getopts_vectors/src/main.rt describes rows.
set -euo pipefail
unset CDPATH
stop() { echo "check.sh: $1" >&2; exit 2; }
case ${1:-} in
--help | -h) sed -n '2,/^[^#]/s/^# \{0,1\}//p' "$0"; exit ;;
--run | --print) [ $# -gt 1 ] || stop "$1 needs files with test cases" ;;
--rust) [ $# = 2 ] || stop "$1 needs a file with test cases" ;;
--wrong | --compile | --get | '') ;;
*) stop "usage: check.sh [--wrong | --run ROWS.. | --print ROWS.. | --rust ROWS | --compile | --get]" ;;
esac
from=$PWD here=$(cd "$(dirname "$0")" && pwd)
case ${XDG_CACHE_HOME:-} in /*) ;; *) XDG_CACHE_HOME=${HOME:-}/.cache ;; esac
own=$XDG_CACHE_HOME/proved-getopts/agda
if [ "${1:-}" = --get ]; then
    packages=$(sed -n 's/^agda: *//p' "$here/../tests/packages.txt")
    rm -rf "$own" "$own.part" && mkdir -p "$own.part" && cd "$own.part"
    # shellcheck disable=SC2086
    apt-get -q -o APT::Sandbox::User=root download $packages
    for package in *.deb; do dpkg --fsys-tarfile "$package" | tar -x --exclude=./usr/lib/haskell-packages; done
    rm ./*.deb && mv "$own.part" "$own"
    exit
fi
command -v python3 >/dev/null || stop "python3 not found"
if ! command -v agda >/dev/null; then
    [ -x "$own/usr/bin/agda" ] || stop "agda not found: on Debian 12, 'agda/check.sh --get' gets it"
    export PATH=$own/usr/bin:$PATH Agda_datadir=$own/usr/share/libghc-agda-dev
fi
export LC_ALL=C.UTF-8 PYTHONDONTWRITEBYTECODE=1
cd "$here/.."
if [[ ${1:-} == --[rpc]* ]]; then
    [ "$1" = --compile ] || command -v node >/dev/null || stop "node not found"
    for file in "${@:2}"; do (cd "$from" && [ -r "$file" ]) || stop "can't read $file"; done
    # What was compiled is kept until something that it is made of changes.
    made_of=$({ agda --version && find agda/{*.agda,check.sh,translate.py} crates/getopts/{specs,src} -type f \
        -exec sha256sum {} + | sort; } | sha256sum)
    js=$here/_build/${made_of:0:20} room=$(mktemp -d)
    trap 'rm -rf "$room"' EXIT
    if [ ! -d "$js" ]; then
        cp agda/{Base,Std,Run}.agda agda/getopts.agda-lib "$room"
        python3 agda/translate.py crates/getopts "$room/gen" >"$room/said"
        (cd "$room" && agda --js --js-minify --compile-dir=js Run.agda) >"$room/said" 2>&1 ||
            { cat "$room/said" >&2; stop "Agda can't compile the definitions"; }
        mkdir -p agda/_build
        # Another run may have compiled the same.
        mv -T "$room/js" "$js" 2>/dev/null || [ -d "$js" ]
    fi
    if [ "$1" = --compile ]; then
        echo "$js"
        exit
    fi
    if [ "$1" = --rust ]; then
        crate=$(cd "$from" && cd "${GETOPTS:-$here/../bindings/rust/getopts}" && pwd)
        CARGO_FLAGS=$([ "${GETOPTS:-}" ] || echo --features canonical) \
            tests/differential/build.sh tests/differential/reference "$room/reference" "$crate"
        (cd "$from" && "$room/reference/target/release/reference" answer "$2") >"$room/answered"
        set -- --run "$room/answered"
    fi
    cd "$from"
    NODE_PATH=$js node --stack-size=7000 "$here/run.js" "$@"
    exit
fi
std='' same="Std.agda stands for Rattle's std, which only rt can compare"
if command -v rt >/dev/null; then
    std=$(dirname "$(rt doc)")/rattle same="the functions of Std.agda are those of Rattle's std"
    [ -d "$std/core/specs" ] || stop "the toolchain has no folder $std/core/specs"
fi
rm -rf agda/gen
what=$(python3 agda/translate.py crates/getopts agda/gen ${std:+"$std"})
cd agda
for file in gen/Proved.agda ${std:+SameStd.agda}; do
    said=$(agda "$file" 2>&1) && continue
    grep -v '^ *Checking' <<<"$said" >&2
    at=$(sed -n 's,^.*/gen/\(.*\.agda\):\([0-9]*\)[,:].*,\2 gen/\1,p' <<<"$said" | head -1)
    # shellcheck disable=SC2086
    at=${at:+$(head -n $at | sed -n 's/^-- /the definition at /p' | tail -1)}
    stop "Agda rejects ${at:-a proof}"
done
echo "check.sh: $(agda --version | head -1) proves $what; $same"
[ -z "${1:-}" ] || python3 wrong.py
