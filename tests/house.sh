#!/bin/sh
# Tests the static library of the crate house_c from C and C++, through include/house.h:
#   - the header stands alone, in each C and C++ that it is for, without a warning;
#   - the library defines the functions of the two headers, wants memcpy, memmove and memset, and has no data that is written to;
#   - tests/house.c, tests/house_more.c and tests/house_random.c, as C and as C++, compare each call with what the documents say of it;
#   - tests/house_desk.c and tests/house_edges.c stand in for the programs `desk` and `edges`: tests/runs.sh, tests/model.sh and tests/images.sh compare
#     them with the stored runs, with the second desk on 104,000 generated requests and on batches, and on every image.
# All with the kit's clang, archiver, linker, loader and C library and, on aarch64, its emulator; and on x86-64, where the machine has compilers of its own, with
# these too, plainly and under -fsanitize=address,undefined.
#
# LIBRARY=FILE takes that archive instead of making it; SEED=7 repeats that seed's desks, requests and images.
# Exit status: 0 every check passed; 1 a check failed; 2 something is missing, or was not built.
set -u

stop() {
    printf 'house: %s\n' "$*" >&2
    exit 2
}

CDPATH='' cd -- "$(dirname -- "$0")/.." || stop "cannot enter the repository"
status=0
failed() {
    printf 'house: FAILED: %s\n' "$*" >&2
    status=1
}

# ---- what is needed
. tests/kit.sh

library=${LIBRARY:-target/staticlib/libhouse.a}
if [ -z "${LIBRARY:-}" ]; then sh tools/library.sh house || stop "tools/library.sh house failed"; fi
[ -s "$library" ] || stop "there is no $library"
case $library in /*) ;; *) library=$PWD/$library ;; esac
# Seeds of one second never meet those of the next.
seed=${SEED:-$(($(date +%s) * 1000))}
out=$PWD/target/house
rm -rf "$out"
mkdir -p "$out/objects" || stop "cannot make $out/objects"

warnings='-Wall -Wextra -pedantic -Wconversion -Wsign-conversion -Werror'
# The kit has no C headers: those that are used stand in tests/headers.
clang() {
    "$tools/bin/clang" --target=x86_64-unknown-linux-gnu --no-default-config -nostdinc -isystem tests/headers -Iinclude $warnings "$@"
}
own_c() { cc -Iinclude $warnings "$@"; }
own_cpp() { c++ -Iinclude $warnings "$@"; }

# The machine's own compilers, where they are for x86-64 and what they link runs: the names of those there are.
compilers=''
printf 'int main(void) { return 0; }\n' >"$out/nothing.c"
find_compiler() { # FUNCTION PROGRAM LANGUAGE
    if [ "$machine" = x86_64 ] && command -v "$2" >/dev/null && "$1" -x "$3" "$out/nothing.c" -o "$out/nothing" 2>/dev/null && "$out/nothing"; then
        compilers="$compilers $1"
    else
        printf 'house: no compiler of the machine, %s, that builds for x86-64: not tried\n' "$2"
    fi
}
find_compiler own_c cc c
find_compiler own_cpp c++ c++

# ---- the header, alone: twice, and the other one behind it
printf '#include "house.h"\n#include "house.h"\n#include "desk.h"\nextern int alone;\nint alone = 0;\n' >"$out/alone.c"
header() { # COMPILER LANGUAGE STANDARD
    "$1" -x "$2" "-std=$3" -fsyntax-only "$out/alone.c" || failed "include/house.h is not clean in $3 ($1)"
    headers=$((headers + 1))
}
headers=0
for standard in c99 c11 c17; do header clang c $standard; done
for standard in c++17 c++20; do header clang c++ $standard; done
for compiler in $compilers; do
    case $compiler in
    own_c) for standard in c99 c11 c17; do header own_c c $standard; done ;;
    own_cpp) for standard in c++17 c++20; do header own_cpp c++ $standard; done ;;
    esac
done
printf 'house: the header was compiled alone in %s ways\n' "$headers"

# ---- the archive: what it defines, what it wants, and no data that is written to
# That these are seen is tried first.
printf 'extern int counted; extern int zeroed; int counted = 7; int zeroed; void other(void); void calls(void); void calls(void) { other(); }\n' >"$out/seen.c"
clang -x c -std=c99 -fPIE -c "$out/seen.c" -o "$out/seen.o" || stop "$out/seen.c was not compiled"
sh tests/elf.sh sections "$out/seen.o" >"$out/sections" || stop "the sections of $out/seen.o were not read"
[ "$(grep -c '^data 4 ' "$out/sections")" -eq 2 ] || stop "tests/elf.sh does not see data of 4 bytes twice"
sh tests/elf.sh symbols "$out/seen.o" >"$out/symbols" || stop "the symbols of $out/seen.o were not read"
[ "$(sort "$out/symbols" | tr '\n' ' ')" = 'defined calls defined counted defined zeroed undefined other ' ] || stop "tests/elf.sh does not see four symbols"

(cd "$out/objects" && "$tools/bin/llvm-ar" x "$library") || stop "$library was not taken apart"
: >"$out/sections"
: >"$out/symbols"
for object in "$out/objects"/*; do
    sh tests/elf.sh sections "$object" >>"$out/sections" || stop "the sections of $object were not read"
    sh tests/elf.sh symbols "$object" >>"$out/symbols" || stop "the symbols of $object were not read"
done
grep -q '^code ' "$out/sections" || stop "no code was found in $library"
if grep '^data ' "$out/sections" >"$out/written"; then failed "the library has data that is written to: $(cat "$out/written")"; fi
sed -n 's/^uint32_t \(desk_[a-z_]*\)(.*/\1/p' include/house.h include/desk.h | sort >"$out/declared"
sed -n 's/^defined //p' "$out/symbols" | sort >"$out/defined"
[ "$(wc -l <"$out/declared")" -eq 10 ] || failed "the headers declare $(wc -l <"$out/declared") functions, not 10"
diff "$out/declared" "$out/defined" >"$out/differ" || failed "the library defines other functions than the headers declare (<): $(cat "$out/differ")"
# what one object wants of another is no want of the library's
sed -n 's/^undefined //p' "$out/symbols" | sort -u | comm -23 - "$out/defined" >"$out/wanted"
if grep -v -x -e memcpy -e memmove -e memset "$out/wanted" >"$out/differ"; then failed "the library wants $(tr '\n' ' ' <"$out/differ")"; fi
printf 'house: %s functions, which want %s; ' "$(wc -l <"$out/defined" | tr -d ' ')" "$(tr '\n' ' ' <"$out/wanted" | sed 's/ $//')"
awk '{ sum[$1] += $2 } END { printf "%d bytes of code, %d read-only, %d written to\n", sum["code"], sum["read-only"], sum["data"] }' "$out/sections"

# ---- the programs
callers='house house_more house_random' speakers='house_desk house_edges'
kit_link() {
    "$own/bin/rattle-link" --target x86_64-unknown-linux-gnu --toolchain "$tools" -o "$@" "$library" || stop "the program $1 was not linked"
}
# A program of a build, as one command that other tests can be given.
command_of() { # BUILD PROGRAM
    case $1 in
    kit-*) printf '#!/bin/sh\nexec %s "%s" --library-path "%s" "%s" "$@"\n' "${emulator:+\"$emulator\"}" "$loader" "$tools/lib" "$out/$1/$2.x86-64" ;;
    *) printf '#!/bin/sh\nASAN_OPTIONS=detect_leaks=0 exec "%s" "$@"\n' "$out/$1/$2.x86-64" ;;
    esac >"$out/$1/$2"
    chmod +x "$out/$1/$2"
}
build() { # BUILD PROGRAMS COMPILER WORD..
    build=$1 programs=$2 compiler=$3
    shift 3
    mkdir "$out/$build" || stop "cannot make $out/$build"
    for program in $programs; do
        "$compiler" "$@" -fPIE -c "tests/$program.c" -o "$out/$build/$program.o" || stop "tests/$program.c was not compiled: $build"
        case $build in
        kit-*) kit_link "$out/$build/$program.x86-64" "$out/$build/$program.o" ;;
        # the language is for the source alone
        *) shift_language "$compiler" "$@" "$out/$build/$program.o" "$library" -o "$out/$build/$program.x86-64" || stop "$program was not linked: $build" ;;
        esac
        command_of "$build" "$program"
    done
}
# Links with the words of a compilation but for its first two, which name the language.
shift_language() { # COMPILER -x LANGUAGE WORD..
    linker=$1
    shift 3
    "$linker" -pie "$@"
}

# Runs a program of a build; of the first build all that it says is shown, of the others the last line.
run() { # BUILD PROGRAM WORD..
    build=$1 program=$2
    shift 2
    if "$out/$build/$program" "$@" </dev/null >"$out/said" 2>&1; then
        case $build in
        kit-c) cat "$out/said" ;;
        *) printf 'house: %s, %s%s: %s\n' "$build" "$program" "${*:+ $*}" "$(tail -n 1 "$out/said" | sed 's/^house: //')" ;;
        esac
    else
        ended=$?
        cat "$out/said" >&2
        failed "$build: $program $* ended with status $ended"
    fi
}
# A page beside what is lent has to be seen, or the other checks of it say nothing.
seen() { # BUILD
    for side in before behind; do
        "$out/$1/house_more" "$side" </dev/null >"$out/said" 2>&1
        ended=$?
        [ "$ended" -eq 1 ] && grep -q 'a page that was not lent was touched' "$out/said" || failed "$1: a touch $side what is lent was not seen (status $ended)"
    done
}
calls() { # BUILD DESKS
    seen "$1"
    run "$1" house
    run "$1" house_more
    run "$1" house_random 1 "$2"
    run "$1" house_random "$seed" "$2"
}
# Another test of the repository, with the programs of a build.
also() { # BUILD WORD..
    build=$1
    shift
    DESK=$out/$build/house_desk EDGES=$out/$build/house_edges "$@" >"$out/said" 2>&1 || {
        failed "$build: $* ended with status $?"
        cat "$out/said" >&2
        return
    }
    sed "s/^/house: $build: /" "$out/said"
}
seeds() { awk -v first="$seed" -v n="$1" 'BEGIN { for (i = 0; i < n; i++) printf "%.0f ", first + i }'; }

build kit-c "$callers $speakers" clang -x c -std=c99 -O2
build kit-c++ "$callers" clang -x c++ -std=c++17 -fno-exceptions -O0
printf 'house: seed %s\n' "$seed"
calls kit-c 10000
calls kit-c++ 2000
also kit-c sh tests/runs.sh
# 52 seeds, each with and without reasons, 1,000 requests a run: of four seeds two are under rule 2
also kit-c env SEEDS="$(seeds 52)" COUNT=1000 sh tests/model.sh
grep -q '^104000 requests compared, 52000 under rule 1, 52000 under rule 2; .* 52000 with their reasons' "$out/said" ||
    failed "fewer than 104,000 requests were compared, or not half of them under each rule, or not half with their reasons"
also kit-c env SEED="$seed" sh tests/images.sh

sanitizers='-O1 -g -fsanitize=address,undefined -fno-sanitize-recover=all'
for compiler in $compilers; do
    case $compiler in
    own_c) name=cc language=c standard=c99 also_speakers=yes ;;
    own_cpp) name=c++ language=c++ standard=c++17 also_speakers='' ;;
    esac
    build "$name" "$callers" "$compiler" -x $language -std=$standard -O2
    calls "$name" 2000
    if ! "$compiler" -x $language $sanitizers "$out/nothing.c" -o "$out/nothing" 2>/dev/null || ! ASAN_OPTIONS=detect_leaks=0 "$out/nothing"; then
        printf 'house: %s has no -fsanitize=address,undefined: not tried\n' "$name"
        continue
    fi
    build "$name-sanitized" "$callers${also_speakers:+ $speakers}" "$compiler" -x $language -std=$standard $sanitizers
    calls "$name-sanitized" 1000
done
# the stored runs, some generated ones and every stored image once more, sanitized
if [ -d "$out/cc-sanitized" ]; then
    also cc-sanitized sh tests/runs.sh
    also cc-sanitized env SEEDS="$(seeds 4)" COUNT=1000 sh tests/model.sh
    mkdir "$out/files"
    model=$(sh tests/build-model.sh) || stop "the model was not built"
    also cc-sanitized "$model" stored-images "$out/files" tests/images/*.hex -- "$out/cc-sanitized/house_desk"
fi
[ $status -eq 0 ] && echo "house: ok"
exit $status
