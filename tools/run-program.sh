#!/bin/sh
# Runs a program that rt has built, on this script's standard input and output.
#
#   sh tools/run-program.sh PROGRAM [WORD ..] <input
#
# Exit status: the program's own; 1 where it only said something on standard error; 2 where there is no program to run.
set -u

die() { echo "run-program: $*" >&2; exit 2; }

[ $# -ge 1 ] || die "a program is wanted"
program=$1
shift
[ -x "$program" ] || die "no program at $program"

# Programs are compiled for x86-64: elsewhere the kit's emulator runs them, with the kit's C library.
if [ "$(uname -m)" != x86_64 ]; then
    doc=$(rt doc) || die "there is no rt on the PATH, by which to find the kit's emulator"
    tools=$(dirname -- "$doc")/toolchain
    [ -x "$tools/bin/qemu-x86_64" ] || die "the kit has no emulator for this machine, $(uname -m)"
    # a caller's own settings of an emulator
    for name in $(env | sed -n 's/^\(QEMU_[A-Za-z0-9_]*\)=.*/\1/p'); do unset "$name"; done
    set -- "$tools/bin/qemu-x86_64" "$tools/lib/ld-linux-x86-64.so.2" --library-path "$tools/lib" "$program" "$@"
else
    set -- "$program" "$@"
fi

# A reader that goes away does not end the program, which may have something to save: its write fails, with a reason.
trap '' PIPE

# What a program says on standard error, just before it ends, is the sign of a failed read or write: its status is then 1 at least,
# whatever status of its own it ends with.
exec 3>&1
said=$("$@" 2>&1 >&3 3>&-)
status=$?
[ -n "$said" ] || exit "$status"
printf '%s\n' "$said" >&2
[ "$status" -ne 0 ] || status=1
exit "$status"
