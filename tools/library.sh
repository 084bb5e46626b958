#!/bin/sh
# Builds a library for C, and leaves it at target/staticlib/libNAME.a.
#
#   sh tools/library.sh editor      the three functions of include/desk.h
#   sh tools/library.sh house       all functions of include/house.h, and these three
#
# The library is the crate NAME_c. It is proved first, with all that it leans on, and only what is proved is built.
# Exit status: 0 built; 2 not built: standard error says why, and the archive that stood there is gone.
set -u

die() { echo "library: $*" >&2; exit 2; }

case $# in 1) ;; *) die "usage: sh tools/library.sh editor|house" ;; esac
case $1 in editor | house) ;; *) die "there is no library $1: editor or house" ;; esac
root=$(CDPATH='' cd -- "$(dirname -- "$0")/.." && pwd -P) || die "cannot enter the repository"
command -v rt >/dev/null || die "there is no rt on the PATH to build it"
made=$root/crates/$1_c/out/lib$1_c.a
library=$root/target/staticlib/lib$1.a

rm -f "$library" "$made" || die "cannot remove the archive that stands there"
(cd "$root/crates/$1_c" && rt lib) </dev/null >&2 || die "rt lib failed in crates/$1_c, so nothing was built"
[ -s "$made" ] || die "rt lib left no $made"
mkdir -p "$root/target/staticlib" || die "cannot make target/staticlib"
# beside its place first, so that nobody meets half an archive
cp "$made" "$library.$$" && mv -f "$library.$$" "$library" || {
    rm -f "$library.$$"
    die "cannot write $library"
}
