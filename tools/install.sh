#!/bin/sh
# Installs the desk for programs in C and C++: two headers, the library, and a file by which pkg-config finds them.
#
#   sh tools/install.sh PREFIX
#
#   PREFIX/include/desk-house/house.h, and desk.h beside it
#   PREFIX/lib/libhouse.a
#   PREFIX/lib/pkgconfig/desk-house.pc
#
# The library is built by tools/library.sh, which proves it first; LIBRARY=FILE takes that archive instead, and needs no kit.
# DESTDIR=FOLDER puts everything below that folder, for a package; desk-house.pc names PREFIX all the same.
#
# Exit status: 0 installed; 2 not installed: standard error says why, and what stood there before stands there still.
set -u

die() { echo "install: $*" >&2; exit 2; }

[ $# -eq 1 ] && [ -n "$1" ] || die "usage: sh tools/install.sh PREFIX, the folder to install into"
case $1 in -*) die "usage: sh tools/install.sh PREFIX; a folder whose name begins with - is written ./$1" ;; esac
[ "$(uname -m)" = x86_64 ] || die "the library is for x86-64, and this machine is $(uname -m)"

# A path from the root on, without a slash at its end.
absolute() {
    case $1 in /*) path=$1 ;; *) path=$(pwd -P)/$1 ;; esac
    while case $path in */) ;; *) false ;; esac; do path=${path%/}; done
    printf '%s\n' "$path"
}
prefix=$(absolute "$1")
below=${DESTDIR:+$(absolute "$DESTDIR")}
library=${LIBRARY:+$(absolute "$LIBRARY")}
# a .pc file has no way to write these
case $prefix in *[\"\'\\\#\$\`]* | *'
'*) die "PREFIX has a quote, a backslash, a #, a dollar sign or a line end in it, which pkg-config would not take: $prefix" ;; esac

root=$(CDPATH='' cd -- "$(dirname -- "$0")/.." && pwd -P) || die "cannot enter the repository"
if [ -z "$library" ]; then
    command -v rt >/dev/null || die "there is no rt on the PATH to build the library; LIBRARY=FILE takes one that is built"
    echo "install: proving and building the library; this takes some minutes the first time" >&2
    sh "$root/tools/library.sh" house || die "tools/library.sh house failed, so nothing was installed"
    library=$root/target/staticlib/libhouse.a
fi
[ -f "$library" ] && [ -r "$library" ] || die "there is no archive at $library"
IFS= read -r first <"$library" || first=''
[ "$first" = '!<arch>' ] || die "$library is no archive"

include=$below$prefix/include/desk-house
lib=$below$prefix/lib
targets="$include/desk.h
$include/house.h
$lib/libhouse.a
$lib/pkgconfig/desk-house.pc"

# ---- every file is copied beside its place first, so that a failure leaves all of them as they were
made=''
undo() {
    printf '%s\n' "$targets" | while IFS= read -r target; do rm -f -- "$target.new.$$"; done
    printf '%s' "$made" | while IFS= read -r folder; do rmdir -- "$folder" 2>/dev/null || :; done
}
trap undo EXIT
trap 'exit 2' HUP INT TERM
umask 022

# Makes a folder, and those above it. $made has the newest first.
folder() {
    [ ! -d "$1" ] || return 0
    folder "$(dirname -- "$1")"
    mkdir -- "$1" || die "cannot make the folder $1"
    made="$1
$made"
}
# Puts its standard input beside the target.
beside() { # TARGET
    folder "$(dirname -- "$1")"
    [ ! -d "$1" ] || die "$1 is a folder"
    cat >"$1.new.$$" && chmod 644 "$1.new.$$" || die "cannot write beside $1"
}
beside "$include/desk.h" <"$root/include/desk.h"
beside "$include/house.h" <"$root/include/house.h"
beside "$lib/libhouse.a" <"$library"
beside "$lib/pkgconfig/desk-house.pc" <<END
# desk-house.pc - where the desk's headers and library are.
prefix=$prefix
includedir=\${prefix}/include
libdir=\${prefix}/lib

Name: desk-house
Description: the access-control desk of a subtitle house, requests in and answers out
Version: 1.0.0
Cflags: -I"\${includedir}/desk-house"
Libs: -L"\${libdir}" -lhouse
END

# The .pc file is the last: what pkg-config finds is whole.
printf '%s\n' "$targets" | while IFS= read -r target; do
    mv -f -- "$target.new.$$" "$target" || die "cannot put $target in its place"
    echo "install: $target"
done || exit 2
made=''

# ---- how to compile
named="cc editor.c \$(pkg-config --cflags --libs desk-house)"
# a path with a space comes out of pkg-config with a backslash, which only eval reads
case $prefix in *[[:space:]]*) named="eval \"$named\"" ;; esac
known=:${PKG_CONFIG_PATH:-}:$(pkg-config --variable pc_path pkg-config 2>/dev/null || :):
case $known in
*":$prefix/lib/pkgconfig:"*) ;;
*) echo "install: export PKG_CONFIG_PATH='$prefix/lib/pkgconfig'" ;;
esac
echo "install: $named"
