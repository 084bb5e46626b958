#!/bin/sh
# Installs the library as a C programmer would, and tries what is said of it: the commands and the program of README.md's section on C, word for
# word; examples/editor.c as C and as C++, whose lines are compared with those stored beside it; images that can't be opened or saved; and what
# tools/install.sh promises, where it succeeds and where it does not.
# Where there is no cc or no pkg-config, or on another machine than x86-64, the kit's clang builds the programs with tests/headers, and README.md's
# commands are not run.
# LIBRARY names an archive that is built; otherwise the first installation builds it.
#
# Exit status: 0 every check passed; 1 a check failed; 2 something is missing, or was not built.
set -u

stop() {
    printf 'install.sh: %s\n' "$*" >&2
    exit 2
}

root=$(CDPATH='' cd -- "$(dirname -- "$0")/.." && pwd -P) || stop "cannot enter the repository"
work=$(mktemp -d) || stop "cannot make a temporary folder"
trap 'rm -rf "$work"' EXIT
trap 'exit 1' HUP INT TERM
cd "$root" || stop "cannot enter the repository"
unset DESTDIR
case ${LIBRARY:=} in '' | /*) ;; *) LIBRARY=$root/$LIBRARY ;; esac
export LIBRARY

checks=0 status=0
# What was to be so, and the command that says whether it is.
check() { # WHAT COMMAND..
    what=$1
    shift
    checks=$((checks + 1))
    "$@" || {
        printf 'install.sh: not so: %s\n' "$what" >&2
        status=1
    }
}
same() { diff -- "$1" "$2" >&2; }
fails() { # STATUS COMMAND..: it ends with that status, and says why on standard error
    wanted=$1
    shift
    "$@" >"$work/said" 2>"$work/errors"
    [ $? -eq "$wanted" ] && [ -s "$work/errors" ]
}
none() { [ -z "$(ls -A "$1")" ]; }

# ---- README.md's blocks, in their order: the installation, a program, how it is built and run, what it prints
block() { # N
    awk -v wanted="$1" '
        /^## / { here = ($0 == "## Calling the desk from C"); block = 0; inside = 0 }
        !here { next }
        /^    / { if (!inside) block++; inside = 1 }
        /^[^ ]/ { inside = 0 }
        inside && block == wanted { print substr($0, 5) }' README.md | sed -e '$ { /^$/ d; }'
}
mkdir "$work/home" "$work/new" || stop "cannot make a folder"
for n in 1 2 3 4; do block $n >"$work/block$n" || stop "README.md was not read"; done
cp "$work/block2" "$work/new/first.c"
grep -q 'tools/install.sh' "$work/block1" && grep -q '^int main' "$work/block2" && grep -q 'pkg-config' "$work/block3" && [ -s "$work/block4" ] ||
    stop "README.md's section on C is not in the order that is looked for here"

# ---- the library: the first installation builds it where no archive was named
by=cc
for tool in cc pkg-config; do command -v "$tool" >/dev/null || by=kit; done
prefix=$work/prefix
if [ "$(uname -m)" = x86_64 ]; then
    sh tools/install.sh "$prefix" >"$work/said" || stop "tools/install.sh failed"
    headers=$prefix/include/desk-house
else
    by=kit
    sh tools/library.sh house || stop "tools/library.sh house failed"
    check "tools/install.sh refuses another machine than x86-64" fails 2 sh tools/install.sh "$prefix"
    headers=$root/include
fi
[ -n "$LIBRARY" ] || LIBRARY=$root/target/staticlib/libhouse.a

# ---- a compiler: $by says whose
warnings='-Wall -Wextra -pedantic -Wconversion -Wsign-conversion -Werror'
if [ "$by" = kit ]; then
    echo "install.sh: not run here: README.md's commands for C, which want cc, pkg-config and x86-64; the kit's clang builds the programs"
    . tests/kit.sh
fi
compile() { # LANGUAGE STANDARD SOURCE PROGRAM
    if [ "$by" = cc ]; then
        case $1 in c) compiler=cc ;; *) compiler=c++ ;; esac
        "$compiler" -x "$1" -std="$2" $warnings "$3" -x none $(PKG_CONFIG_PATH=$prefix/lib/pkgconfig pkg-config --cflags --libs desk-house) -o "$4"
    else
        "$tools/bin/clang" --target=x86_64-unknown-linux-gnu --no-default-config -nostdinc -isystem tests/headers -I"$headers" -x "$1" -std="$2" \
            -fno-exceptions -fPIE $warnings -c "$3" -o "$4.o" &&
            "$own/bin/rattle-link" --target x86_64-unknown-linux-gnu --toolchain "$tools" -o "$4" "$4.o" "$LIBRARY"
    fi || stop "$3 was not built as $2"
}
run() { # PROGRAM [WORD ..]
    if [ "$by" = cc ]; then "$@"; else ${emulator:+"$emulator"} "$loader" --library-path "$tools/lib" "$@"; fi
}

# ---- README.md's path
if [ "$by" = cc ]; then
    { echo 'set -eu'; cat "$work/block1"; printf 'cd "%s"\n' "$work/new"; cat "$work/block3"; } >"$work/commands"
    HOME=$work/home sh "$work/commands" >"$work/printed" || stop "README.md's commands for C failed"
    sed '/^install: /d' "$work/printed" >"$work/answers"
else
    compile c c99 "$work/new/first.c" "$work/new/first"
    run "$work/new/first" >"$work/answers" || stop "README.md's first program failed"
fi
check "README.md's first program prints what README.md says" same "$work/answers" "$work/block4"

# ---- examples/editor.c: an evening, the next one, and images that are none
prints() { # EXPECTED PROGRAM [WORD ..]: it ends with 0, and prints exactly that
    expected=$1
    shift
    run "$@" >"$work/printed" && same "$work/printed" "$expected"
}
evenings() { # LANGUAGE STANDARD
    editor=$work/$1 image=$work/$1.image
    compile "$1" "$2" examples/editor.c "$editor"
    check "$2: without a file it prints examples/editor.out" prints examples/editor.out "$editor"
    check "$2: with a new file too" prints examples/editor.out "$editor" "$image"
    cp "$image" "$work/first.image" || stop "examples/editor.c left no image"
    check "$2: with the image that it left, it prints examples/editor-again.out" prints examples/editor-again.out "$editor" "$image"
}
damaged() { # WHAT: the editor says so of $work/bad/image, and leaves it as it is
    cp "$work/bad/image" "$work/before"
    check "an image $1 is told" fails 1 run "$editor" "$work/bad/image"
    check "an image $1 stays as it is" cmp -s "$work/bad/image" "$work/before"
    check "an image $1 has nothing left beside it" [ "$(ls -A "$work/bad")" = image ]
}
evenings c c99
if [ "$by" = kit ] || command -v c++ >/dev/null; then
    evenings c++ c++17
else
    echo "install.sh: not run here: examples/editor.c as C++, since there is no c++"
fi

mkdir "$work/bad" "$work/bad-folder" "$work/empty"
: >"$work/bad/image"
damaged "without bytes"
dd if="$work/first.image" of="$work/bad/image" bs=1 count="$(($(wc -c <"$work/first.image") - 1))" 2>/dev/null
damaged "that is cut"
{ cat "$work/first.image" && printf 'A'; } >"$work/bad/image"
damaged "with a byte too many"
{ printf '\377' && tail -c +2 "$work/first.image"; } >"$work/bad/image"
damaged "with a wrong byte"
dd if=/dev/zero of="$work/bad/image" bs=1000 count=9 2>/dev/null
damaged "of 9,000 zeros"
check "a folder is no image" fails 1 run "$editor" "$work/bad-folder"
check "a folder that is none is told when saving" fails 1 run "$editor" "$work/missing/image"
unnamed() { cd "$work/empty" && fails 1 run "$editor" '' && cd "$root"; }
check "so is a name that no file can have" unnamed
check "and nothing is left beside it" none "$work/empty"

# ---- what tools/install.sh promises
if [ "$(uname -m)" = x86_64 ]; then
    printf '%s\n' include/desk-house/desk.h include/desk-house/house.h lib/libhouse.a lib/pkgconfig/desk-house.pc >"$work/wanted"
    installed() { # FOLDER: the four files and no other, each 644
        (cd "$1" && find . -type f -perm 644 | sed 's,^\./,,' | LC_ALL=C sort && find . -type f ! -perm 644) >"$work/found"
        same "$work/found" "$work/wanted"
    }
    check "four files are installed" installed "$prefix"
    check "the headers are include/'s" same "$prefix/include/desk-house/house.h" include/house.h
    check "both of them" same "$prefix/include/desk-house/desk.h" include/desk.h
    check "the library is the one built" cmp -s "$prefix/lib/libhouse.a" "$LIBRARY"
    (umask 077 && sh tools/install.sh "$prefix" >"$work/said")
    check "installed once more, they are the same" installed "$prefix"

    # below DESTDIR, by a relative PREFIX with a space
    (cd "$work/new" && DESTDIR=$work/package sh "$root/tools/install.sh" "a b/" >"$work/said") || stop "tools/install.sh failed below DESTDIR"
    check "DESTDIR has it all" installed "$work/package$work/new/a b"
    check "the .pc file names PREFIX from the root on" grep -qx "prefix=$work/new/a b" "$work/package$work/new/a b/lib/pkgconfig/desk-house.pc"
    if [ "$by" = cc ]; then
        (cd "$work/new" && rm -f first && sh "$root/tools/install.sh" "a b" >"$work/lines") || stop "tools/install.sh failed with a space in PREFIX"
        sed -n -e 's/^install: //' -e 's/editor\.c/first.c -o first/' -e '/^export/p' -e '/^eval/p' "$work/lines" >"$work/said"
        (cd "$work/new" && . "$work/said")
        check "and what it says compiles" prints "$work/block4" "$work/new/first"
    fi

    # nothing is left where it fails
    mkdir "$work/none" "$work/tools" "$work/half" && : >"$work/half/lib" || stop "cannot make a folder"
    printf '#!/bin/sh\necho sparc64\n' >"$work/tools/uname" && chmod +x "$work/tools/uname"
    check "it wants a PREFIX" fails 2 sh tools/install.sh
    check "one PREFIX" fails 2 sh tools/install.sh "$work/none" "$work/none"
    check "no option" fails 2 sh tools/install.sh --help
    check "x86-64" fails 2 env PATH="$work/tools:$PATH" sh tools/install.sh "$work/none/x"
    check "an archive" fails 2 env LIBRARY="$work/missing.a" sh tools/install.sh "$work/none/x"
    check "that is one" fails 2 env LIBRARY="$root/README.md" sh tools/install.sh "$work/none/x"
    check "a PREFIX that a .pc file can name" fails 2 sh tools/install.sh "$work/none/\$x"
    check "and where it refuses, it leaves nothing" none "$work/none"
    check "a folder that can't be made is told" fails 2 sh tools/install.sh "$work/half"
    check "and what was copied before is gone" [ "$(ls -A "$work/half")" = lib ]
fi

[ "$status" -ne 0 ] || echo "install.sh: ok, $checks checks"
exit "$status"
