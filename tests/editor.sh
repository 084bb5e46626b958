#!/bin/sh
# Builds tests/editor.c with include/desk.h and the static library of the crate editor_c, once as C and once as C++, and runs both; and
# tests/kinds.c, as C.
# Looks at the sections of the library's objects, and of a program that calls desk_body_length: it brings code and no read-only data (02, L5).
# Takes nothing but the kit: its clang, archiver, linker, loader and C library and, on aarch64, its emulator; and od and awk.
#
# Exit status: 0 every check passed; 1 a check failed; 2 something is missing, or was not built.
set -u

stop() {
    printf 'editor: %s\n' "$*" >&2
    exit 2
}

CDPATH='' cd -- "$(dirname -- "$0")/.." || stop "cannot enter the repository"

. tests/kit.sh

sh tools/library.sh editor || stop "tools/library.sh editor failed"
library=target/staticlib/libeditor.a
[ -s "$library" ] || stop "tools/library.sh editor left no $library"
out=target/editor
rm -rf "$out"
mkdir -p "$out" || stop "cannot make $out"

# The kit has no C headers: those that are used stand in tests/headers.
clang() {
    "$tools/bin/clang" --target=x86_64-unknown-linux-gnu --no-default-config -nostdinc -isystem tests/headers -Iinclude \
        -Wall -Wextra -Wpedantic -Werror "$@"
}

# The header stands alone, in the oldest and the newest C and C++ that an editor may be written in.
for standard in c99 c17; do
    clang -x c -std=$standard -fsyntax-only include/desk.h || stop "include/desk.h is not $standard"
done
for standard in c++98 c++20; do
    clang -x c++ -std=$standard -fsyntax-only include/desk.h || stop "include/desk.h is not $standard"
done

# Without extern "C" in the header the C++ program would not link.
clang -x c -std=c99 -O2 -fPIE -c tests/editor.c -o "$out/c.o" || stop "tests/editor.c was not compiled as C"
clang -x c++ -std=c++98 -Wno-long-long -Wno-c++11-long-long -fno-exceptions -O0 -fPIE -c tests/editor.c -o "$out/cpp.o" ||
    stop "tests/editor.c was not compiled as C++"
clang -x c -std=c99 -O2 -fPIE -c tests/kinds.c -o "$out/kinds.o" || stop "tests/kinds.c was not compiled"

link() {
    "$own/bin/rattle-link" --target x86_64-unknown-linux-gnu --toolchain "$tools" -o "$@" || stop "the program $1 was not linked"
}
# Puts the sections of a file into $out/sections; `bytes KIND` is how many bytes of that kind they have.
look() {
    sh tests/elf.sh sections "$1" >"$out/sections" || stop "the sections of $1 were not read"
}
bytes() {
    awk -v kind="$1" '$1 == kind { sum += $2 } END { print sum + 0 }' "$out/sections"
}
status=0

# A compiler may make a table of what the source compares, so the objects are looked at: they are code and nothing else.
# That a table is seen where there is one is tried first.
echo 'extern const unsigned char lengths[3]; const unsigned char lengths[3] = {255, 7, 2};' >"$out/table.c"
clang -x c -std=c99 -O3 -fPIE -c "$out/table.c" -o "$out/table.o" || stop "$out/table.c was not compiled"
look "$out/table.o"
[ "$(bytes read-only)" -eq 3 ] || stop "tests/elf.sh does not see a table of 3 bytes"
mkdir "$out/objects" || stop "cannot make $out/objects"
(cd "$out/objects" && "$tools/bin/llvm-ar" x ../../staticlib/libeditor.a) || stop "$library was not taken apart"
code=0 lengths=''
for object in "$out/objects"/*; do
    look "$object"
    code=$((code + $(bytes code)))
    lengths=$lengths$(sed -n 's/^code \([0-9]*\) .*desk_body_length$/\1/p' "$out/sections")
    if grep -v '^code ' "$out/sections" >"$out/beside"; then
        sed "s|^|editor: $library is not code alone: ${object##*/}: |" "$out/beside" >&2
        status=1
    fi
done
[ "$code" -gt 0 ] || stop "no code was found in $library"
printf 'editor: %s: %s bytes of code, %s of them desk_body_length\n' "$library" "$code" "${lengths:-unknown}"

# A program that calls it has no more read-only data than one that does not.
read_only=''
for call in words 'desk_body_length(words)'; do
    printf '#include "desk.h"\nint main(int words, char **word) { (void)word; return (int)%s; }\n' "$call" >"$out/call.c"
    clang -x c -std=c99 -O3 -fPIE -fno-asynchronous-unwind-tables -c "$out/call.c" -o "$out/call.o" || stop "$out/call.c was not compiled"
    link "$out/call" "$out/call.o" "$library"
    look "$out/call"
    printf 'editor: a C program that returns %s: %s bytes of code, %s read-only\n' "$call" "$(bytes code)" "$(bytes read-only)"
    [ "${read_only:=$(bytes read-only)}" -eq "$(bytes read-only)" ] || {
        echo "editor: to call desk_body_length takes read-only data" >&2
        status=1
    }
done

for program in c cpp kinds; do
    link "$out/$program" "$out/$program.o" "$library"
    ${emulator:+"$emulator"} "$loader" --library-path "$tools/lib" "$out/$program" </dev/null || {
        printf 'editor: %s ended with status %s\n' "$out/$program" "$?" >&2
        status=1
    }
done
exit $status
