#!/usr/bin/env bash
# Runs a command in a clone of the current commit, on a bare Debian 12 with only Python, git and Rattle's toolchain, as on
# a new user's machine: this shows what a page or a script forgets to install. It needs root, debootstrap and rt. Packages
# come from the mirror of this machine's apt, or else from deb.debian.org.
# usage: tests/fresh.sh [COMMAND]     by default, README's first command, then 'bash test.sh --quick'
#        tests/fresh.sh --without-rt [COMMAND]     without the toolchain; by default, README's commands to check it yourself
#
# The bare system is kept in tests/out/fresh.tar.
set -euo pipefail
unset CDPATH
case ${1:-} in --help | -h) sed -n '2,/^[^#]/s/^# \{0,1\}//p' "$0"; exit ;; esac
cd "$(dirname "$0")/.."
stop() { echo "tests/fresh.sh: $1" >&2; exit 2; }
rt=rt
[ "${1:-}" != --without-rt ] || { rt='' && shift; }
case $#${1:-} in 0 | 1[!-]*) ;; *) stop "usage: tests/fresh.sh [--without-rt] [COMMAND]" ;; esac
[ "$(id -u)" = 0 ] || stop "needs root, for chroot"
command -v debootstrap >/dev/null || stop "debootstrap not found: apt-get install debootstrap"
[ -z "$rt" ] || command -v rt >/dev/null || stop "rt not found: put the toolchain's bin folder on the path"
# The system has set-uid programs, so that other users mustn't reach it.
kit=${rt:+$(dirname "$(rt doc)")} base=tests/out/fresh.tar room=$(mktemp -d)
trap 'rm -rf "$room"' EXIT
root=$room/root
mkdir "$root"
if [ "$rt" ]; then
    command=${1:-$(sed -n '/^ *(cd .*rt try/{s/^ *//p;q;}' README.md) && bash test.sh --quick}
else
    # shellcheck disable=SC2016
    timed='PS4="+ \$SECONDS s: "; set -ex; apt-get -qq update'
    command=${1:-$timed; $(sed -n '/^### Check it yourself/,/^## /{s/apt-get install/& -qqy/; s/^    //p;}' README.md)}
fi
if [ ! -f "$base" ]; then
    mkdir -p tests/out
    # One URL per line, in either format of apt's sources.
    urls=$(cat /etc/apt/sources.list /etc/apt/sources.list.d/*.list /etc/apt/sources.list.d/*.sources 2>/dev/null |
        sed -nE 's,^(URIs:|deb( \[[^]]*\])?) *(http[^ ]*).*,\3,p') || :
    mirror=$(grep -m1 '/debian/*$' <<<"$urls" || echo http://deb.debian.org/debian)
    security=$(grep -m1 'debian-security/*$' <<<"$urls" || echo http://deb.debian.org/debian-security)
    debootstrap --variant=minbase --include=python3,ca-certificates,git bookworm "$root" "$mirror" >"$base.log" 2>&1 ||
        stop "debootstrap failed: see $base.log"
    printf 'deb %s main\n' "$mirror bookworm" "$mirror bookworm-updates" "$security bookworm-security" \
        >"$root/etc/apt/sources.list"
    cp -r /etc/apt/apt.conf.d "$root/etc/apt/"
    tar -C "$root" -cf "$base.part" . && mv "$base.part" "$base"
else
    tar -C "$root" -xf "$base"
fi
cp /etc/resolv.conf /etc/hosts "$root/etc/"
echo force-unsafe-io >"$root/etc/dpkg/dpkg.cfg.d/fresh"
chmod 755 "$root"
mkdir -p "$root$kit"
git -c advice.detachedHead=false clone -q . "$root/srv/repo"
echo "tests/fresh.sh: $command"
# shellcheck disable=SC2016
KIT=$kit ROOT=$root COMMAND=$command unshare --mount --pid --fork --kill-child bash -c '
    mount --make-rprivate / && { [ -z "$KIT" ] || mount --bind "$KIT" "$ROOT$KIT"; } && mount -t proc proc "$ROOT/proc" &&
        mount --rbind /dev "$ROOT/dev" || exit 2
    exec chroot "$ROOT" env -i PATH="${KIT:+$KIT/bin:}/usr/local/sbin:/usr/local/bin:/usr/sbin:/usr/bin:/sbin:/bin" \
        HOME=/root LANG=C.UTF-8 bash -c "cd /srv/repo && $COMMAND"' </dev/null
