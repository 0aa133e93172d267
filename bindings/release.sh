#!/usr/bin/env bash
# Checks this repository, and writes the files of a release to tests/out/release. It publishes nothing.
# usage: bindings/release.sh VERSION CRATE
#
# CHANGELOG.md must begin with "## VERSION, DATE". CRATE is a folder with the Rust crate getopts 0.2.24, to compare with.
# It needs rt, cargo 1.84 or later, and root on Debian 12 with debootstrap, musl-dev:amd64 and musl-dev:arm64. TESTED=1 leaves
# out what takes hours and needs these packages: the tests, and comparing the shell binaries with their source.
set -euo pipefail
unset CDPATH
stop() { echo "release.sh: $1" >&2; exit 1; }
case ${1:-} in
--help | -h) sed -n '2,/^[^#]/s/^# \{0,1\}//p' "$0"; exit ;;
-*) set -- ;;
esac
[ $# = 2 ] || { echo "usage: bindings/release.sh VERSION CRATE" >&2; exit 2; }
version=$1 crate=$(cd -- "$2" && pwd)
cd "$(dirname "$0")/.."
out=$PWD/tests/out/release name=getopts-$version
unchanged() { [ -z "$(git status --porcelain)" ] || stop "there are uncommitted changes: release a clean clone"; }
unchanged
! git rev-parse -q --verify "refs/tags/$version" >/dev/null || stop "the tag $version exists"
heading=$(grep -m1 '^## ' CHANGELOG.md)
[[ $heading =~ ^"## $version, "[0-9]{4}-[0-9]{2}-[0-9]{2}$ ]] ||
    stop "CHANGELOG.md begins with '$heading', not '## $version, DATE'"
# What would be missing only after hours.
[ -n "${TESTED:-}" ] || dpkg-query -W debootstrap musl-dev:amd64 musl-dev:arm64 >/dev/null 2>&1 ||
    stop "debootstrap, musl-dev:amd64 or musl-dev:arm64 is missing: see CONTRIBUTING"
cargo package --exclude-lockfile --help >/dev/null 2>&1 ||
    stop "cargo is older than 1.84: install a newer one from https://rustup.rs"
room=$(mktemp -d) kit=$room/kit
trap 'rm -rf "$room"' EXIT
mkdir "$kit"
# With an attribute such as export-subst, the tarball would have other files than a clone.
git archive --prefix=tarball/ HEAD | tar -xC "$room"
git checkout-index -a --prefix="$room/clone/"
diff -r "$room/clone" "$room/tarball" >&2 || stop "the tarball would differ from a clone: see 'git help attributes'"
bash test.sh --quick --no-install -k 'versions or changelog' -q
bindings/rust/erase.py --check
checked="without tests, and without comparing the shell binaries with their source, all"
if [ -z "${TESTED:-}" ]; then
    checked=all
    bash test.sh "$crate"
    bash test.sh -k '' -m release --release --getopts="$crate" -n 3
    tests/fresh.sh
    tests/fresh.sh --without-rt
    unchanged
fi
rm -rf "$out" && mkdir -p "$out/target"
# The same bytes for all settings of git.
git -c core.autocrlf=false -c tar.umask=0002 -c tar.tar.gz.command='gzip -9n' \
    archive --format=tar.gz --prefix="$name/" -o "$out/$name.tar.gz" HEAD
cargo package --quiet --no-verify --exclude-lockfile --manifest-path bindings/rust/Cargo.toml --target-dir "$out/target"
mv "$out"/target/package/*.crate "$out" && rm -rf "$out/target"
# For a kit of Rattle's toolchain: the crate getopts with, in its folder `uses`, the program getopts_uses. `rt` checks both,
# outside this repository, since it accepts crates.txt only at the top.
git -c core.autocrlf=false archive HEAD crates/getopts crates/getopts_uses | tar -xC "$kit"
rm -r "$kit"/crates/getopts/must-fail "$kit"/crates/*/mutants
grep -E '^getopts(_uses)?:' crates.txt >"$kit/crates.txt"
# A kit lacks README, so the library's page there contains its promises, without links and the picture.
sed -zE 's/.*\n## What is promised\n+//; s/\n+Nothing is promised.*/\n/; s/!\[[^]]*\]\([^)]*\)\n+//; s/\[([^]]*)\]\([^)]*\)/\1/g' \
    README.md | sed -i -e '/^<!-- promises -->$/{r /dev/stdin' -e 'd}' "$kit/crates/getopts/README.md"
(cd "$kit" && rt ci)
rm -rf "$kit"/crates/*/out && mv "$kit/crates/getopts_uses" "$kit/crates/getopts/uses"
tar --sort=name --owner=0 --group=0 --numeric-owner --mode=u=rwX,go=rX --mtime="@$(git log -1 --format=%ct)" -cC "$kit/crates" \
    getopts | gzip -9n >"$out/$name-kit.tar.gz"
for machine in x86_64 aarch64; do cp "bindings/shell/$machine/getopts_shell" "$out/getopts_shell-$version-$machine"; done
(cd "$out" && sha256sum -- * >SHA256SUMS && cat SHA256SUMS)
echo "release.sh: $checked is checked. Now run: git tag -s $version && gpg --armor --detach-sign '$out/SHA256SUMS'"
