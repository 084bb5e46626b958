#!/bin/sh
# Holds the program to the arguments that it takes: --last N and --rule R, or --from IMAGE; --save IMAGE, --why; in any order, each at most once. Anything
# else is one line on standard error that begins `desk: usage:`, nothing on standard output and exit status 1; no byte of the input is read and no file
# made. Where all words are in order, a number that is no rule's is refused with 3, in one line likewise.
# DESK names another program.
set -eu
root=$(CDPATH='' cd -- "$(dirname -- "$0")/.." && pwd -P)
desk=${DESK:-$root/desk}

work=$(mktemp -d)
trap 'rm -rf "$work"' EXIT
trap 'exit 1' HUP INT TERM

[ -x "$desk" ] || { echo "arguments.sh: no program at $desk" >&2; exit 1; }
"$desk" < /dev/null > /dev/null || { echo "arguments.sh: $desk does not run" >&2; exit 1; }
case $desk in /*) ;; *) desk=$PWD/$desk ;; esac

# From here on all names are short ones in a folder of their own.
mkdir "$work/files"
cd "$work/files"

# Three requests, of which the last takes a number: Enrol, Open house session, Create.
{
    printf '\001\000\000\000\005\000\003\001'
    printf '\021\000\000\002\000\001'
    printf '\025\000\000'
} > ../requests

# The image of a desk without records whose last number is 41; under rule 2 a byte more, 46.
image() { printf '\100\000\000\000\051'; }
image_2() { image; printf '\106'; }

failed=0
taken=0
refused=0
wrong() {
    failed=$((failed + 1))
    echo "arguments: $named: $1" >&2
}

# Runs the program on the requests with the words given; what the shell reads afterwards is what the program left.
try() { # WORD..
    named=$(printf '%.60s' "desk $*")
    ls -A > ../before
    status=0
    { "$desk" "$@" > ../out 2> ../errors || status=$?; cat > ../left; } < ../requests
    ls -A > ../after
}

# The lines are those of an empty desk; the third answers as told, and with `why` each has its reason.
prints() { # ANSWER why|- WORD..
    answer=$1
    case $2 in why) reason=' 0 00 0 0 0' ;; *) reason='' ;; esac
    shift 2
    taken=$((taken + 1))
    try "$@"
    [ "$status" = 0 ] || wrong "ended with $status"
    [ ! -s ../errors ] || wrong "said on standard error: $(head -n 1 ../errors)"
    printf '%s\n' "1 01 80 -$reason" "2 11 80 -$reason" "3 15 $answer$reason" | cmp -s - ../out || wrong "printed '$(tail -n 1 ../out)' at the end, not '3 15 $answer$reason'"
    [ ! -s ../left ] || wrong "left requests unread"
}

# The same, and the file of that name is the only one that is new; it is an image of a desk under that rule.
under=1
saves_under() { # RULE NAME ANSWER why|- WORD..
    under=$1
    shift
    saves "$@"
    under=1
}
saves() { # NAME ANSWER why|- WORD..
    name=$1
    shift
    rm -f "./$name"
    prints "$@"
    { cat ../before; printf '%s\n' "$name"; } | sort > ../expected
    sort ../after | cmp -s - ../expected || wrong "made other files than '$name': $(tr '\n' ' ' < ../after)"
    [ -s "./$name" ] || wrong "saved nothing"
    # 46 directly behind the counter, or at once the user.
    case $under$(od -An -v -tx1 -j5 -N1 "./$name") in '1 41' | '2 46') ;; *) wrong "saved an image that is not of rule $under" ;; esac
    rm -f "./$name"
}

# One line, of that form, and nothing else happens.
says() { # PATTERN WORD..
    pattern=$1
    shift
    refused=$((refused + 1))
    try "$@"
    [ "$status" = 1 ] || wrong "ended with $status"
    [ ! -s ../out ] || wrong "printed '$(head -n 1 ../out)'"
    [ "$(wc -l < ../errors)" -eq 1 ] || wrong "$(wc -l < ../errors) lines on standard error"
    case $(cat ../errors) in $pattern) ;; *) wrong "said '$(head -n 1 ../errors)'" ;; esac
    cmp -s ../requests ../left || wrong "read from the input"
    cmp -s ../before ../after || wrong "made files: $(tr '\n' ' ' < ../after)"
}

refuses() { says 'desk: usage:*' "$@"; }
no_rule() { # NUMBER WORD..
    number=$1
    shift
    says "desk: --rule $number: refused 3" "$@"
}

zeros() { awk -v n="$1" 'BEGIN { for (i = 0; i < n; i++) printf "0" }'; }
letters() { awk -v n="$1" 'BEGIN { for (i = 0; i < n; i++) printf "w" }'; }

# ---- each by itself, and all in every order
prints '81 1' -
prints '81 1' why --why
prints '81 8' - --last 7
image > image
prints '81 42' - --from image
saves new '81 1' - --save new
prints '81 8' why --why --last 7
prints '81 8' why --last 7 --why
prints '81 42' why --why --from image
prints '81 42' why --from image --why
saves new '81 8' why --last 7 --save new --why
saves new '81 8' why --last 7 --why --save new
saves new '81 8' why --save new --last 7 --why
saves new '81 8' why --save new --why --last 7
saves new '81 8' why --why --last 7 --save new
saves new '81 8' why --why --save new --last 7
saves new '81 42' why --why --save new --from image
saves new '81 42' - --from image --save new
saves new '81 42' - --save new --from image

# ---- the rule, by itself and with all others in every order
prints '81 1' - --rule 1
prints '81 1' - --rule 2
prints '81 1' why --rule 2 --why
prints '81 8' - --rule 2 --last 7
saves_under 1 new '81 1' - --rule 1 --save new
saves_under 2 new '81 1' - --rule 2 --save new
words() {
    case $1 in
    last) echo --last 7 ;;
    rule) echo --rule "$rule" ;;
    save) echo --save new ;;
    why) echo --why ;;
    esac
}
all='last rule save why'
for rule in 1 2; do
    for a in $all; do for b in $all; do for c in $all; do for d in $all; do
        [ "$(printf '%s\n' "$a" "$b" "$c" "$d" | sort -u | wc -l)" -eq 4 ] || continue
        saves_under "$rule" new '81 8' why $(words "$a") $(words "$b") $(words "$c") $(words "$d")
    done; done; done; done
done
# An image says its own.
image_2 > image-2
saves_under 1 new '81 42' - --from image --save new
saves_under 2 new '81 42' - --from image-2 --save new
saves_under 2 new '81 42' why --save new --why --from image-2

# ---- and its number, on both sides
for number in 1 01 0001 "$(zeros 5000)1"; do saves_under 1 new '81 1' - --rule "$number" --save new; done
for number in 2 02 0002 "$(zeros 5000)2"; do saves_under 2 new '81 1' - --rule "$number" --save new; done
for number in 0 3 7 10 12 22 255 256 257 258 65537 65538 4294967294 4294967295; do
    no_rule "$number" --rule "$number"
    no_rule "$number" --rule "00$number"
    no_rule "$number" --save new --why --rule "$number" --last 7
done
no_rule 0 --rule 00000
no_rule 7 --rule 007
no_rule 7 --rule "$(zeros 5000)7"
no_rule 7 --rule 7 --why
no_rule 7 --why --rule 7
no_rule 7 --last 7 --rule 7
no_rule 7 --rule 7 --last 4294967295
no_rule 7 --rule 7 --save new
no_rule 7 --save missing/new --rule 7
image > old
no_rule 7 --rule 7 --save old
no_rule 0 --save old --rule 0
image | cmp -s - old || wrong "wrote over an image"
rm old
refuses --rule 4294967296
refuses --rule 4294967297
refuses --rule 4294967298
refuses --rule 9999999999
refuses --rule 18446744073709551617
refuses --rule 18446744073709551618
refuses --rule "$(zeros 5000)4294967298"
refuses --rule ''
refuses --rule +2
refuses --rule -2
refuses --rule -1
refuses --rule +
refuses --rule -
refuses --rule ' 2'
refuses --rule '2 '
refuses --rule '2
'
refuses --rule '1 2'
refuses --rule 2.
refuses --rule 2,0
refuses --rule 0x2
refuses --rule 2a
refuses --rule b2
refuses --rule /2
refuses --rule 2:
refuses --rule two
refuses --rule ٢

# ---- numbers, on both sides
prints '81 1' - --last 0
prints '81 1' - --last 00
prints '81 10' - --last 9
prints '81 100' - --last 000099
prints '81 4294967295' - --last 4294967294
prints 'CB -' - --last 4294967295
prints 'CB -' - --last 0004294967295
prints '81 13' - --last "$(zeros 5000)12"
prints '81 13' - --last "$(zeros 100000)12"
refuses --last 4294967296
refuses --last 4294967297
refuses --last 4294967300
refuses --last 9999999999
refuses --last 18446744073709551615
refuses --last 18446744073709551616
refuses --last 18446744073709551617
refuses --last 100000000000000000000000000000000000000007
refuses --last "$(zeros 5000)4294967296"
refuses --last ''
refuses --last +7
refuses --last -7
refuses --last -0
refuses --last +
refuses --last -
refuses --last ' 7'
refuses --last '7 '
refuses --last '7
'
refuses --last 7.
refuses --last 7,0
refuses --last 7_0
refuses --last 0x7
refuses --last 7a
refuses --last a7
refuses --last /7
refuses --last 7:
refuses --last ٧

# ---- the word behind an argument is its value, whatever it looks like
for name in --why --last --from --save --rule --help -- - 7 '--last 7' '--rule 2' 'an image' 'ein Bild'; do
    saves "$name" '81 1' - --save "$name"
    saves "$name" '81 1' why --save "$name" --why
    saves_under 2 "$name" '81 1' - --save "$name" --rule 2
    saves_under 2 "$name" '81 1' - --rule 2 --save "$name"
    image > "./$name"
    prints '81 42' - --from "$name"
    prints '81 42' why --why --from "$name"
    rm -f "./$name"
done
refuses --last --why
refuses --last --save new
refuses --last --last 7
refuses --last --rule 2
refuses --rule --last 7
refuses --rule --why
refuses --rule --save new
refuses --rule --rule 2
refuses --save --rule 2
refuses --from --rule 2
refuses --save --save --save
refuses --from --from --from

# ---- a value that is missing
refuses --last
refuses --from
refuses --save
refuses --rule
refuses --why --rule
refuses --last 7 --rule
refuses --save new --rule
refuses --from image --rule
refuses --rule 2 --last
refuses --rule 7 --last
refuses --rule 7 --save
refuses --rule 7 --from
refuses --why --last
refuses --last 7 --save
refuses --save new --last
refuses --save new --from
refuses --from image --save

# ---- each at most once
refuses --why --why
refuses --why --last 7 --why
refuses --last 7 --last 7
refuses --last 7 --last 8
refuses --last 7 --why --last
refuses --rule 2 --rule 2
refuses --rule 1 --rule 2
refuses --rule 2 --rule 1
refuses --rule 7 --rule 7
refuses --rule 2 --rule 7
refuses --rule 7 --why --rule 2
refuses --rule 2 --why --rule
refuses --rule 7 --why --why
refuses --from image --from image
refuses --from image --from other
refuses --save new --save new
refuses --save new --save other
refuses --save new --why --save other

# ---- --rule with --from, whatever the number and the image are
for number in 1 2 7 0 02; do
    refuses --rule "$number" --from image
    refuses --from image --rule "$number"
    refuses --rule "$number" --from image-2
    refuses --from image-2 --rule "$number"
    refuses --rule "$number" --from missing
    refuses --from missing --rule "$number"
done
refuses --rule 2 --why --from image-2
refuses --from image-2 --save new --rule 2
refuses --last 7 --rule 2 --from image
refuses --from image --last 7 --rule 7

# ---- --last with --from
refuses --last 7 --from image
refuses --from image --last 7
refuses --last 0 --from image
refuses --from image --last 0 --why
refuses --save new --from image --last 7
refuses --last 7 --save new --from missing
refuses --last 7 --from

# ---- unknown words
refuses extra
refuses 7
refuses image
refuses --why extra
refuses extra --why
refuses --last 7 8
refuses 7 --last 8
refuses --from image other
refuses --save new other
refuses extra --save new
refuses --from missing extra
refuses ''
refuses '' --why
refuses --why ''
refuses --last 7 ''
refuses ' --why'
refuses '--why '
refuses --Why
refuses --wh
refuses --whyy
refuses --why=1
refuses --last=7
refuses --from=image
refuses --save=new
refuses --rule=2
refuses --rule2
refuses --rul 2
refuses --rules 2
refuses --Rule 2
refuses -rule 2
refuses rule 2
refuses ' --rule' 2
refuses '--rule ' 2
refuses --rule 2 1
refuses 2 --rule 1
refuses --rule 7 extra
refuses extra --rule 7
refuses --rule 7 --last 4294967296
refuses --last x --rule 7
refuses --rule 7 ''
refuses --las 7
refuses --lasts 7
refuses -last 7
refuses --LAST 7
refuses --fro image
refuses --saves new
refuses why
refuses -why
refuses -
refuses --
refuses -- --why
refuses --help
refuses "$(letters 5000)"
refuses "--why$(letters 100000)"

[ "$failed" = 0 ] || exit 1
echo "arguments: $taken lists of words taken, $refused others refused, each in its line"
