#!/bin/sh
# Builds the library for C and C++ with cargo and installs it, or removes it:
#
# usage: bindings/c/install.sh [--uninstall] PREFIX
#
# - PREFIX/lib: libgetopts.a, also as libgetopts-static.a
# - the shared library: on Linux, PREFIX/lib/libgetopts.so; for Windows with mingw's gcc for x86-64,
#   PREFIX/bin/libgetopts-1.dll and, in PREFIX/lib, libgetopts.dll.a and getopts.def. There, both libraries export only
#   the functions of getopts.h
# - PREFIX/include: getopts.h
# - PREFIX/lib/pkgconfig: getopts-static.pc, for programs that contain the library, and getopts.pc for the shared one
# - PREFIX/lib/cmake/getopts: for CMake, the package getopts with its targets getopts::static and getopts::shared
# - PREFIX/share/man/man3: getopts.3, generated from getopts.h, also under the name of each function
# - PREFIX/share/doc/getopts: README.md, WINDOWS.md, head.c, order.c, within.c and the licences
#
# It needs cargo with Rust 1.68 or later, a C compiler and binutils. It runs in any POSIX shell, including busybox's; if
# busybox has its own ar, as Debian's does, set AR=/usr/bin/ar. If Debian's librust-unicode-width-dev is installed, it
# provides the crate unicode-width; otherwise cargo downloads it. To cross-compile, name the target and its compiler:
# CARGO_BUILD_TARGET=aarch64-unknown-linux-gnu CC=aarch64-linux-gnu-gcc. The variables CARGO, CARGO_FLAGS, CC, AR,
# CFLAGS and LDFLAGS are used; CARGO and CC may be commands with arguments. Files are written below DESTDIR. LIBDIR,
# such as lib64, replaces lib. With Rust 1.95 or later, the same tools build the same bytes in any folder. Cargo reads
# CARGO_HOME/config.toml, which may name vendored crates, but no .cargo/config.toml of the repository.
#
# DEBUG_INFO=1 keeps debug information. It names sources getopts/c/.., unless cargo's configuration has rustflags for a
# target. As rpmbuild doesn't find them, a .spec needs `%global _debugsource_template %{nil}`, as in tests/test_c.py.
set -eu
# In zsh, some of the variables below are special.
[ "${ZSH_VERSION:+$(emulate)}" != zsh ] || exec sh "$0" "$@"
unset CDPATH
umask 022
here=$(cd "$(dirname "$0")" && pwd)
top=$here/../..
cargo=${CARGO:-cargo} cc=${CC:-cc} target=${CARGO_BUILD_TARGET:-}

fail() {
    echo "bindings/c/install.sh: $1" >&2
    exit 1
}

uninstall=
case ${1:-} in
--help | -h) sed -n '2,/^[^#]/s/^# \{0,1\}//p' "$0"; exit ;;
--uninstall) uninstall=yes; shift ;;
esac
if [ $# != 1 ] || [ -z "$1" ] || [ "${1#-}" != "$1" ]; then
    echo "usage: bindings/c/install.sh [--uninstall] PREFIX" >&2
    exit 2
fi

# absolute PATH: sets path to the absolute path, without slashes at its end. $(..) would remove line breaks there.
absolute() {
    path=$1
    case $path in /* | [A-Za-z]:*) ;; *) path=$PWD/$path ;; esac
    while [ "$path" != "${path%/}" ]; do path=${path%/}; done
}
absolute "$1"
prefix=$path
case $1$prefix in
*[[:cntrl:]]*) fail "PREFIX must not contain a control character, such as a tab (pkg-config or CMake misreads it)" ;;
*[[:space:]]) fail "PREFIX must not end with a blank (pkg-config misreads it)" ;;
[A-Za-z]:*) fail "write PREFIX as in Git Bash and MSYS2: /c/getopts for C:/getopts" ;;
*[\"\$\#\\:\;\(\)\|,]*)
    fail "PREFIX must not contain \" \$ # \\ : ; ( ) | or , (pkg-config, CMake or search paths misread them)"
    ;;
esac
lib=${LIBDIR:-lib}
lib=${lib#"$prefix/"}
case /$lib/ in
//* | */./* | */../* | *[[:space:]\"\$\#\\:\;\(\)\|,]*)
    fail "LIBDIR must be a folder below PREFIX, without blanks and \" \$ # \\ : ; ( ) | or ,"
    ;;
esac
absolute "${DESTDIR:-/}"
to=$path$prefix
# From LIBDIR to PREFIX.
up=$(printf '%s\n' "$lib" | sed 's,[^/][^/]*,..,g')

[ -f "$here/getopts.h" ] || fail "don't run this script through a symbolic link"
# The version of the library. Programs linked with one version work with later ones that have the same first number.
version=$(sed -n 's/^#define GETOPTS_VERSION "\(.*\)"/\1/p' "$here/getopts.h")
soname=libgetopts.so.${version%%.*}
shared=libgetopts.so.$version
dll=libgetopts-${version%%.*}.dll
functions=$(sed -n 's/^[a-z].*[ *]\(getopts_[a-z_]*\)(.*/\1/p' "$here/getopts.h")

# The files for share/doc/getopts, relative to this script.
documents="README.md WINDOWS.md head.c order.c within.c ../../LICENSE-MIT ../../LICENSE-APACHE ../../NOTICE"

# remove PLACE..: removes files, and sets removed if there was one.
removed=
remove() {
    for file; do
        [ ! -e "$to/$file" ] && [ ! -L "$to/$file" ] || removed=yes
        rm -f "$to/$file" "$to/$file.new"
    done
}
# remove_versions KEPT: removes the shared libraries of all versions with the same first number, except that with this rest.
remove_versions() {
    for file in "$to/$lib/$soname".*; do
        file=${file%.new}
        case ${file#"$to/$lib/$soname."} in
        "$1" | *[!0-9.]*) ;;
        *) remove "${file#"$to/"}" ;;
        esac
    done
}

if [ -n "$uninstall" ]; then
    remove include/getopts.h share/man/man3/getopts.3 "bin/$dll"
    for file in libgetopts.a libgetopts-static.a libgetopts.so "$soname" libgetopts.dll.a getopts.def \
        pkgconfig/getopts.pc pkgconfig/getopts-static.pc cmake/getopts/getoptsConfig.cmake \
        cmake/getopts/getoptsConfigVersion.cmake; do
        remove "$lib/$file"
    done
    remove_versions ''
    for function in $functions; do
        remove "share/man/man3/$function.3"
    done
    for file in $documents; do
        remove "share/doc/getopts/${file##*/}"
    done
    rmdir "$to/share/doc/getopts" "$to/$lib/cmake/getopts" 2>/dev/null || :
    [ -n "$removed" ] && echo "removed from $to" || echo "nothing to remove in $to"
    exit
fi

# CARGO is a path, which may contain blanks, or a command with arguments.
# shellcheck disable=SC2086
if command -v "$cargo" >/dev/null; then set -- "$cargo"; else set -- $cargo; fi
command -v "$1" >/dev/null ||
    fail "$1 not found: install Rust 1.68 or later (rustup.rs, or Debian's cargo; on Debian 12, cargo-web and rustc-web)"
# Cargo runs in another folder.
case $1 in */*) absolute "$1"; shift; set -- "$path" "$@" ;; esac
[ -z "${CARGO_HOME:-}" ] || { absolute "$CARGO_HOME"; export CARGO_HOME="$path"; }
command -v "${cc%% *}" >/dev/null ||
    fail "${cc%% *} not found: install a C compiler (Debian's package gcc), or set CC to yours"
[ -z "$target" ] || [ -n "${CC:-}" ] || fail "set CC to the C compiler for $target"
room=$(mktemp -d)
absolute "$room"
room=$path
# Copies of read-only folders, such as those in Nix's store, are read-only.
trap 'chmod -R u+w "$room"; rm -rf "$room"' EXIT
trap 'exit 1' HUP INT TERM

# Build a copy, so that nothing is written to the source folder. Other users could put a workspace, a configuration of
# cargo or a toolchain into a folder above, such as /tmp. So the copy is a workspace of its own, and cargo runs in /, since
# it looks for the other two above the current folder. The workspace contains the Rust package: otherwise cargo would put a
# hash of the absolute path into symbols, and each build would have other bytes.
mkdir -p "$room/c/rust"
sed 's,"../rust","rust",' "$here/Cargo.toml" >"$room/c/Cargo.toml"
printf '\n[workspace]\nexclude = ["rust"]\n' >>"$room/c/Cargo.toml"
cp -R "$here/src" "$room/c"
cp -R "$top/bindings/rust/Cargo.toml" "$top/bindings/rust/src" "$room/c/rust"
: >"$room/config.toml"
for crate in /usr/share/cargo/registry/unicode-width-*; do
    if [ -d "$crate" ]; then
        printf '[net]\noffline = true\n[source]\ncrates-io.replace-with = "debian"\ndebian.directory = "%s"\n' "${crate%/*}" \
            >"$room/config.toml"
    fi
done
strip=--strip-debug
if [ -n "${DEBUG_INFO:-}" ]; then
    strip='' remap=--remap-path-prefix=$room=getopts
    # In these quotes, TMPDIR may have others.
    printf "[profile.release]\ndebug = true\n[build]\nrustflags = ['''%s''']\n" "$remap" >>"$room/config.toml"
    # If one of these is set, even to nothing, cargo ignores rustflags in files. The first separates flags by U+001F.
    if [ -n "${CARGO_ENCODED_RUSTFLAGS+set}${RUSTFLAGS+set}" ]; then
        flags=${CARGO_ENCODED_RUSTFLAGS-$(printf '%s\n' "$RUSTFLAGS" | awk -v OFS='\037' '{ $1 = $1 } 1')}
        export CARGO_ENCODED_RUSTFLAGS="${flags:+$flags$(printf '\037')}$remap"
    fi
fi
# shellcheck disable=SC2086
(cd / && CARGO_TARGET_DIR=$room/target CARGO_PROFILE_RELEASE_PANIC=abort "$@" build --release --quiet \
    --manifest-path "$room/c/Cargo.toml" --config "$room/config.toml" ${CARGO_FLAGS:-}) ||
    fail "cargo failed. The build needs Rust 1.68 or later (on Debian 12, cargo-web and rustc-web) with the target's standard
library, and the crate unicode-width (without a network, from Debian's package librust-unicode-width-dev). RUSTFLAGS
must not contain -Cpanic=unwind"
built=$room/target/${target:+$target/}release/libgetopts.a
[ ! -f "${built%/*}/getopts.lib" ] || fail "can't install for MSVC. For mingw's gcc, set CARGO_BUILD_TARGET and CC, as in
CARGO_BUILD_TARGET=x86_64-pc-windows-gnu CC=x86_64-w64-mingw32-gcc"
[ -f "$built" ] || fail "cargo built no libgetopts.a${target:+ for $target}. If cargo's configuration sets another
target, set CARGO_BUILD_TARGET to it, and CC to its C compiler"

# With -T, mv enters no folder, and with -Z, SELinux labels a file by its new place. Not every mv has them.
for exact in -TZ -T ''; do : >"$room/old"; ! mv $exact "$room/old" "$room/new" 2>/dev/null || break; done
# place PLACE: moves what was made in the temporary folder to PLACE, since other users who can write in PREFIX could plant
# links there. A link at PLACE is replaced, but not what it points to. An older file is only replaced by a whole one.
# shellcheck disable=SC2086
place() {
    mkdir -p "$(dirname "$to/$1")"
    rm -f "$to/$1.new"
    mv -f $exact "$room/new" "$to/$1.new" || { rm -f "$to/$1.new"; fail "can't write $to/$1"; }
    [ "$exact" ] || rm -f "$to/$1"
    mv -f $exact "$to/$1.new" "$to/$1"
}
# put PLACE [MODE]: writes standard input to PLACE.
put() {
    cat >"$room/new"
    chmod "${2:-644}" "$room/new"
    place "$1"
}
# link FILE PLACE: makes PLACE a link to FILE.
link() {
    ln -s -f "$1" "$room/new"
    place "$2"
}
# describe NAME: writes the file for pkg-config of the library with this name.
describe() {
    put "$lib/pkgconfig/$1.pc" <<END
prefix=$place
libdir=\${prefix}/$lib
includedir=\${prefix}/include

Name: getopts
Description: Formally verified parser of command-line options
Version: $version
License: MIT OR Apache-2.0
Libs: "-L\${libdir}" -l$1
Cflags: "-I\${includedir}"
END
}

# cmake_target NAME KIND FILES: prints a target for CMake.
cmake_target() {
    cat <<END
add_library(getopts::$1 $2 IMPORTED)
set_target_properties(getopts::$1 PROPERTIES INTERFACE_INCLUDE_DIRECTORIES "\${_getopts_prefix}/include"
    $3)
END
}

awk -f "$here/man.awk" "$here/getopts.h" >"$room/getopts.3"
# shellcheck disable=SC2086
pointer=$(echo __SIZEOF_POINTER__ | $cc ${CFLAGS:-} -E -P -x c -)
place=$prefix system=$($cc -dumpmachine) shared_files=''
case $system in
*linux* | x86_64*mingw*)
    # One object that only exports the functions of getopts.h.
    keep='' roots=''
    for function in $functions; do
        keep="$keep --keep-global-symbol=$function"
        roots="$roots -u $function"
    done
    # tool NAME: a program of the compiler's binutils.
    tool() { $cc -print-prog-name="$1"; }
    # shellcheck disable=SC2086
    "$(tool ld)" -r --gc-sections $roots -o "$room/all.o" "$built"
    # shellcheck disable=SC2086
    "$(tool objcopy)" $strip $keep "$room/all.o" "$room/getopts.o"
    "${AR:-$(tool ar)}" rcs "$room/libgetopts.a" "$room/getopts.o"
    built=$room/libgetopts.a
    case $system in
    *mingw*)
        # Windows' pkg-config can't read paths such as /c/getopts.
        place="\${pcfiledir}/../$up"
        # shellcheck disable=SC2086
        printf '%s\n' "LIBRARY \"$dll\"" EXPORTS $functions >"$room/getopts.def"
        # By default, the file would contain the time and a hash of its own path.
        # shellcheck disable=SC2086
        $cc -shared ${CFLAGS:-} ${LDFLAGS:-} ${strip:+"-Wl,$strip"} -Wl,--no-insert-timestamp \
            -Wl,--disable-auto-image-base -Xlinker --out-implib -Xlinker "$room/libgetopts.dll.a" "$room/getopts.o" \
            "$room/getopts.def" -o "$room/$dll"
        put "bin/$dll" 755 <"$room/$dll"
        put "$lib/libgetopts.dll.a" <"$room/libgetopts.dll.a"
        put "$lib/getopts.def" <"$room/getopts.def"
        shared_files="IMPORTED_LOCATION \"\${_getopts_prefix}/bin/$dll\" IMPORTED_IMPLIB \"\${_getopts_lib}/libgetopts.dll.a\""
        ;;
    *)
        # A process may load libraries of several major versions.
        echo "GETOPTS_${version%%.*} { global: getopts_*; local: *; };" >"$room/versions"
        # shellcheck disable=SC2086
        $cc -shared ${CFLAGS:-} ${LDFLAGS:-} -Wl,-soname,"$soname" -Xlinker --version-script -Xlinker "$room/versions" \
            -Wl,-z,defs -Wl,-z,text "$room/getopts.o" -o "$room/$shared"
        put "$lib/$shared" 755 <"$room/$shared"
        link "$shared" "$lib/$soname"
        link "$soname" "$lib/libgetopts.so"
        # Only now: a program that uses the installed library still works if the build or writing fails.
        remove_versions "${version#*.}"
        shared_files="IMPORTED_LOCATION \"\${_getopts_lib}/libgetopts.so\""
        ;;
    esac
    describe getopts
    ;;
esac
put "$lib/libgetopts.a" <"$built"
# The name for the linker, which no shared library has: CMake would put an archive's path before the objects that need it.
link libgetopts.a "$lib/libgetopts-static.a"
describe getopts-static
put "$lib/cmake/getopts/getoptsConfig.cmake" <<END
# Defines getopts::static, for programs that contain the library, and getopts::shared if there is a shared library.
if(TARGET getopts::static)
    return()
endif()
get_filename_component(_getopts_lib "\${CMAKE_CURRENT_LIST_DIR}" REALPATH)
get_filename_component(_getopts_lib "\${_getopts_lib}/../.." ABSOLUTE)
get_filename_component(_getopts_prefix "\${_getopts_lib}/$up" ABSOLUTE)
$(cmake_target static STATIC "IMPORTED_LOCATION \"\${_getopts_lib}/libgetopts.a\"")
${shared_files:+$(cmake_target shared SHARED "$shared_files")}
unset(_getopts_lib)
unset(_getopts_prefix)
END
put "$lib/cmake/getopts/getoptsConfigVersion.cmake" <<END
set(PACKAGE_VERSION $version)
if(PACKAGE_FIND_VERSION_MAJOR EQUAL ${version%%.*} AND NOT PACKAGE_FIND_VERSION VERSION_GREATER PACKAGE_VERSION)
    set(PACKAGE_VERSION_COMPATIBLE TRUE)
endif()
if(PACKAGE_FIND_VERSION VERSION_EQUAL PACKAGE_VERSION)
    set(PACKAGE_VERSION_EXACT TRUE)
endif()
# Without a language, the project's pointers are unknown.
if(CMAKE_SIZEOF_VOID_P AND NOT CMAKE_SIZEOF_VOID_P EQUAL $pointer)
    set(PACKAGE_VERSION "$version ($((8 * pointer))bit)")
    set(PACKAGE_VERSION_UNSUITABLE TRUE)
endif()
END
put include/getopts.h <"$here/getopts.h"
put share/man/man3/getopts.3 <"$room/getopts.3"
for function in $functions; do
    echo '.so man3/getopts.3' | put "share/man/man3/$function.3"
done
for file in $documents; do
    # Links to files that aren't installed become plain text.
    sed 's,\[\([^]]*\)](\.\.[^)]*),\1,g' "$here/$file" >"$room/document"
    put "share/doc/getopts/${file##*/}" <"$room/document"
done
echo "installed in $to"
