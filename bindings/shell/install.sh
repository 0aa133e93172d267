#!/bin/sh
# Installs the program for this machine's processor, or removes it:
#
# usage: bindings/shell/install.sh [--uninstall] PREFIX
#
# - PREFIX/bin: getopts_shell
# - PREFIX/share/man/man1: getopts_shell.1, generated from README.md
# - PREFIX/share/doc/getopts_shell: examples and licences
#
# Files are written below DESTDIR. MACHINE selects another processor, by the name that `uname -m` prints. PROGRAM is a file
# to install instead of the checked-in binary: the program as built by cargo, which contains nothing of musl.
set -eu
# zsh wouldn't split the lists below.
[ "${ZSH_VERSION:+$(emulate)}" != zsh ] || exec sh "$0" "$@"
unset CDPATH
umask 022
fail() {
    echo "install.sh: $1" >&2
    exit 1
}
remove='' licences='LICENSE-musl LICENSE-unicode ../../LICENSE-MIT ../../LICENSE-APACHE ../../NOTICE' examples='backup notes'
case ${1-} in
--help | -h) sed -n '2,/^[^#]/s/^# \{0,1\}//p' "$0"; exit ;;
--uninstall) remove=yes; shift ;;
esac
[ $# = 1 ] || set -- ''
case $1 in
'' | -*) echo "usage: bindings/shell/install.sh [--uninstall] PREFIX" >&2; exit 2 ;;
/*) to=${DESTDIR-}$1 ;;
*) to=${DESTDIR-}$PWD/$1 ;;
esac
case $to in /*) ;; *) to=$PWD/$to ;; esac
program=$to/bin/getopts_shell page=$to/share/man/man1/getopts_shell.1 papers=$to/share/doc/getopts_shell
if [ -n "$remove" ]; then
    removed=
    # drop FILE: removes a file, and sets removed if it was there.
    drop() {
        [ ! -e "$1" ] && [ ! -L "$1" ] || removed=yes
        rm -f "$1" "$1.new"
    }
    for name in $licences; do drop "$papers/${name##*/}"; done
    for name in $examples; do drop "$papers/examples/$name"; done
    drop "$program"
    drop "$page"
    rmdir "$papers/examples" "$papers" 2>/dev/null || :
    [ -n "$removed" ] && echo "removed $program, its manual page and examples" || echo "nothing to remove in $to"
    exit
fi
source=${PROGRAM-}
case $source in '' | /*) ;; *) source=$PWD/$source ;; esac
cd "$(dirname "$0")"
[ -f man.awk ] || fail "don't run this script through a symbolic link"
if [ -n "$source" ]; then
    licences=${licences#LICENSE-musl }
    [ -f "$source" ] || fail "no file $source"
else
    machine=${MACHINE:-$(uname -m)}
    [ -n "${MACHINE-}" ] || [ "$(uname -s)" = Linux ] || machine=$(uname -s)
    case $machine in amd64) machine=x86_64 ;; arm64) machine=aarch64 ;; esac
    source=$machine/getopts_shell
    [ -f "$source" ] || fail "no binary for $machine: build the program with cargo, and set PROGRAM (see README.md)"
    sum=$(sha256sum <"$source")
    read -r wanted _ <"$source.sha256"
    [ "${sum%% *}" = "$wanted" ] ||
        fail "$source is damaged: run 'git checkout -- $machine' in $PWD, or clone the repository again"
fi
mkdir -p "$to/bin" "$to/share/man/man1" "$papers/examples"
room=$(mktemp -d)
trap 'rm -rf "$room"' EXIT
trap 'exit 1' HUP INT TERM
# With -T, mv enters no folder, and with -Z, SELinux labels a file by its new place. Not every mv has them.
for exact in -TZ -T ''; do : >"$room/old"; ! mv $exact "$room/old" "$room/new" 2>/dev/null || break; done
# shellcheck disable=SC2086
move() { mv -f $exact "$1" "$2"; }
# put FILE PLACE MODE: replaces a file only once the new one is complete. FILE may be - for standard input. The new one is
# made in the temporary folder, since other users who can write in PREFIX could plant links there. Links at PLACE and
# PLACE.new are replaced, but not what they point to.
put() {
    [ ! -d "$2" ] || fail "$2 is a folder"
    rm -f "$2.new"
    if ! { cat "$1" >"$room/new" && chmod "$3" "$room/new" && move "$room/new" "$2.new" && move "$2.new" "$2"; }; then
        rm -f "$2.new"
        fail "can't write $2"
    fi
}
put "$source" "$program" 755
text=$(awk -f man.awk README.md)
printf '%s\n' "$text" | put - "$page" 644
for name in $licences; do put "$name" "$papers/${name##*/}" 644; done
for name in $examples; do put "examples/$name" "$papers/examples/$name" 755; done
echo "installed $program, its manual page and examples"
