#!/bin/sh
# Holds the program to what --save and --from promise when something goes wrong: a kill at any moment while it saves, a full disk, a folder that is
# missing or can't be written, a standard output that can't, and files that are no image. Whoever looks finds the old image or the new one, whole.
# DESK names another program.
set -eu
root=$(CDPATH='' cd -- "$(dirname -- "$0")/.." && pwd -P)
desk=${DESK:-$root/desk}

fail() { echo "saving.sh: $*" >&2; exit 1; }

# Once before all: a program that can't start, or builds itself first, is found here and not in every run.
[ -x "$desk" ] || fail "no program at $desk"
"$desk" < /dev/null > /dev/null || fail "$desk does not run"
model=$(sh "$root/tests/build-model.sh") || fail "the model was not built"
case $desk in /*) ;; *) desk=$PWD/$desk ;; esac

work=$(mktemp -d)
mounted=
clean() {
    [ -z "$mounted" ] || umount "$mounted"
    rm -rf "$work"
}
trap clean EXIT
trap 'exit 1' HUP INT TERM

# A program named by the caller may be anything that runs here; the project's own may need the emulator, and was built just now.
if [ -n "${DESK:-}" ]; then set -- "$desk"; else set -- sh "$root/tools/run-program.sh" "$root/crates/desk/out/desk"; fi
mkdir "$work/killed"
killed=$("$model" killed "$work/killed" -- "$@") || fail "killed while it saved"

# From here on all names are short ones in the folder.
mkdir "$work/files"
cd "$work/files"

# Two runs, each with an image of over 1,024 bytes; the second is gone on with from nothing as well.
"$model" generate 17 400 --whole > run
"$model" generate 1 400 --whole > other
"$model" run --save ../old < run > /dev/null
"$model" run --save ../new < other > ../lines
for image in ../old ../new; do [ "$(wc -c < "$image")" -gt 1024 ] || fail "an image is too short to try"; done

cases=0
failed=0
wrong() {
    failed=$((failed + 1))
    echo "saving: $named: $1" >&2
}

# Runs the program with the words given; what the shell reads afterwards is what the program left.
try() { # WORD..
    cases=$((cases + 1))
    named="desk $*"
    ls -A > ../before
    status=0
    { "$desk" "$@" > ../out 2> ../errors || status=$?; cat > ../left; } < other
    ls -A > ../after
}

# One line on standard error, of that form.
said() { # PATTERN
    [ "$status" = 1 ] || wrong "ended with $status"
    [ "$(wc -l < ../errors)" -eq 1 ] || wrong "$(wc -l < ../errors) lines on standard error"
    case $(cat ../errors) in $1) ;; *) wrong "said '$(head -n 1 ../errors)'" ;; esac
}

nothing_new() { cmp -s ../before ../after || wrong "left other files: $(tr '\n' ' ' < ../after)"; }
is_image() { cmp -s "$1" "$2" || wrong "$2 is not the image of $1"; }
printed() { cmp -s ../lines ../out || wrong "printed other lines"; }

# A failed save: the lines stand, the reason is told, and nothing is left beside.
not_saved() { # IMAGE
    said "desk: $1: ?*"
    printed
    [ ! -s ../left ] || wrong "left input unread"
    nothing_new
}

# A failed opening: nothing is read, printed or saved.
not_opened() { # PATTERN
    said "$1"
    [ ! -s ../out ] || wrong "printed '$(head -n 1 ../out)'"
    cmp -s other ../left || wrong "read from the input"
    nothing_new
}

saved() { # IMAGE
    [ "$status" = 0 ] && [ ! -s ../errors ] || wrong "ended with $status: $(head -n 1 ../errors)"
    printed
    is_image ../new "$1"
}

# Names: in this folder, in another, with spaces, and words that look like arguments.
mkdir folder
for name in image ./image folder/image 'an image' --why --from -; do
    try --save "$name"
    saved "./$name"
    cp ../old "./$name"
    try --save "$name"
    saved "./$name"
    nothing_new
    rm "./$name"
done

# Saved over the image that was opened.
"$model" run --from ../old --save ../gone-on < other > ../lines
cp ../old image
try --from image --save image
[ "$status" = 0 ] || wrong "ended with $status: $(head -n 1 ../errors)"
printed
is_image ../gone-on image
"$model" run < other > ../lines
rm image

# Under rule 2, which the image then says: over an image of rule 1, where there was none, and over the image that was opened.
"$model" run --rule 2 --save ../new-2 < other > ../lines
for there in old none; do
    rm -f image
    [ "$there" = none ] || cp ../old image
    try --rule 2 --save image
    [ "$status" = 0 ] || wrong "ended with $status: $(head -n 1 ../errors)"
    printed
    is_image ../new-2 image
done
"$model" run --from ../new-2 --save ../gone-on-2 < other > ../lines
try --from image --save image
[ "$status" = 0 ] || wrong "ended with $status: $(head -n 1 ../errors)"
printed
is_image ../gone-on-2 image
"$model" run < other > ../lines
rm image

# A C1 or C2 line ends the input: what was judged before is saved.
printf '\001\000\000\000\005\000\003\001' > ../one
"$model" run --save ../one.image < ../one > /dev/null
for end in '\377\040\000' '\001\000'; do
    cases=$((cases + 1))
    named="desk --save image, a run that ends in $end"
    { cat ../one; printf "$end"; } | "$desk" --save image > ../out || wrong "failed"
    [ "$(wc -l < ../out)" -eq 2 ] || wrong "printed $(wc -l < ../out) lines"
    is_image ../one.image image
    rm image
done

# Folders that are missing or none, and a name that is a folder.
cp ../old plain
try --save missing/image
not_saved missing/image
try --save plain/image
not_saved plain/image
is_image ../old plain
cp ../old folder/inside
try --save folder
not_saved folder
is_image ../old folder/inside
try --save ''
not_saved ''
# A name is text in UTF-8: another opens no file.
odd=$(printf 'image\377')
try --save "$odd"
not_saved "$odd"
if [ "$(id -u)" != 0 ]; then
    cp ../old folder/image
    chmod 555 folder
    try --save folder/image
    not_saved folder/image
    chmod 755 folder
    is_image ../old folder/image
fi
rm -r folder plain

# A disk that takes no more: files may have at most one block, and what goes over it fails.
limited() { (trap '' XFSZ; ulimit -f 1; exec "$desk" --save image < other > /dev/null); }
for there in old none; do
    echo 0 > ../status
    cases=$((cases + 1))
    named="desk --save image under a limit, $there before"
    [ "$there" = none ] || cp ../old image
    ls -A > ../before
    { limited 2>&1 || echo "$?" > ../status; } | cat > ../errors
    status=$(cat ../status)
    ls -A > ../after
    said 'desk: image: ?*'
    nothing_new
    [ "$there" = none ] || is_image ../old image
    rm -f image
done

# The same with a disk of one page, which the old image fills, and with one that can't be written, where a disk may be mounted.
disk='no disk to mount'
mkdir disk
if mount -t tmpfs -o size=4k none disk 2> /dev/null; then
    mounted=$PWD/disk
    disk='a full and a read-only disk'
    cp ../old disk/image
    try --save disk/image
    not_saved disk/image
    is_image ../old disk/image
    [ "$(ls -A disk)" = image ] || wrong "left files beside it: $(ls -A disk)"
    mount -o remount,ro disk
    try --save disk/image
    not_saved disk/image
    is_image ../old disk/image
    umount disk
    mounted=
fi
rmdir disk

# A standard output that can't be written: the image is saved all the same, with what was judged.
unprinted() { # RUN RULE
    status=0
    case $how in
        full) "$desk" --rule "$2" --save image < "$1" > /dev/full 2> ../errors || status=$? ;;
        unread) "$model" unread -- "$desk" --rule "$2" --save image < "$1" 2> ../errors || status=$? ;;
    esac
    cases=$((cases + 1))
    named="desk --rule $2 --save image, standard output $how, $1"
    said 'desk: standard output: ?*'
    [ -e image ] || { wrong "saved no image"; return 0; }
    judged=$("$model" judged image < "$1") || wrong "the image is of no requests"
    case $(od -An -v -tx1 -j5 -N1 image) in *46*) says=2 ;; *) says=1 ;; esac
    [ "$says" = "$2" ] || wrong "the image says rule $says"
    [ "$(ls -A)" = "$(printf 'image\nother\nrun\n')" ] || wrong "left other files: $(ls -A)"
    rm image
}
for how in full unread; do
    for rule in 1 2; do
        unprinted ../one "$rule"
        unprinted other "$rule"
    done
done

# Images that can't be read: nothing else happens, and the image to save stays.
mkdir folder
cp ../old image
for name in missing folder missing/image other/image ''; do
    try --from "$name"
    not_opened "desk: $name: ?*"
    case $(cat ../errors) in *refused*) wrong "said '$(cat ../errors)'" ;; esac
    try --from "$name" --save image
    not_opened "desk: $name: ?*"
    is_image ../old image
done
cp ../old "$odd"
try --from "$odd"
not_opened "desk: $odd: ?*"
is_image ../old "$odd"
rm "$odd"
rmdir folder

# Files that are no image, with the refusal that they get. 13,107 counters and one byte are 65,536 bytes, which end inside a body;
# with one byte more the file is too long. F is the kind of the rule, which has no body.
rules() { awk -v n="$1" 'BEGIN { for (i = 0; i < n; i++) printf "F" }'; }
counters() { awk 'BEGIN { for (i = 0; i < 13107; i++) printf "@...." }'; }
printf '' > empty
printf 'hello\n' > text
head -c 65536 /dev/zero > zeros
counters > counters-65535
{ counters; printf '@'; } > counters-65536
{ counters; printf '@.'; } > counters-65537
head -c 65537 /dev/zero > zeros-65537
rules 65536 > rules-65536
{ rules 65535; printf '@'; } > rules-65536-cut
rules 65537 > rules-65537
{ printf '@....'; rules 65531; } > counter-and-rules
{ cat ../new-2; printf 'F'; } > twice
{ cat ../new-2; printf '@'; } > cut
{ cat ../old; printf '\n'; } > longer
{ cat ../old; counters; } > much-longer
head -c 1000000 /dev/zero > million
refused() { # NUMBER FILE
    try --from "$2"
    not_opened "desk: $2: refused $1"
    try --why --save image --from "$2"
    not_opened "desk: $2: refused $1"
    try --from "$2" --save none
    not_opened "desk: $2: refused $1"
    is_image ../old image
}
refused 14 empty
refused 14 /dev/null
refused 15 text
refused 15 zeros
refused 15 run
refused 15 counters-65535
refused 14 counters-65536
refused 15 counters-65537
refused 15 zeros-65537
refused 15 rules-65536
refused 14 rules-65536-cut
refused 15 rules-65537
refused 15 counter-and-rules
refused 15 twice
refused 14 cut
refused 15 longer
refused 15 much-longer
refused 15 million

[ "$failed" = 0 ] || exit 1
echo "saving: $killed; $cases runs that fail or name odd files, $disk: the image is the old one or the new one"
