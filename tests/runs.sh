#!/bin/sh
# Compares the program's lines with the stored runs of tests/runs: NAME.out, and with --why NAME.why where that stands. A run whose name begins with rule-1-
# or rule-2- is opened under that rule; such runs come in pairs, with the same requests.
# runs.sh [PROGRAM [NAME..]]: another program, or some runs alone; DESK also names the program.
set -eu
root=$(cd "$(dirname "$0")/.." && pwd)
desk=${1:-${DESK:-$root/desk}}
[ $# -eq 0 ] || shift
[ -x "$desk" ] || { echo "runs.sh: no program at $desk" >&2; exit 1; }
work=$(mktemp -d)
trap 'rm -rf "$work"' EXIT
trap 'exit 1' HUP INT TERM

# Once before all: a program that can't start, or builds itself first, is found here and not in every run.
"$desk" < /dev/null > "$work/got" || { echo "runs.sh: $desk does not run" >&2; exit 1; }

# Hex without comments, one request a line.
plain() {
    sed -e 's/#.*//' -e 's/[[:space:]]//g' -e '/^$/d' "$1"
}

# Hex to bytes by octal escapes, which printf takes everywhere; a stray letter ends it.
bytes() {
    awk 'BEGIN { digits = "0123456789ABCDEF" }
        {
            hex = toupper($0)
            if (length(hex) % 2) { print "odd hex: " $0 > "/dev/stderr"; exit 1 }
            for (i = 1; i <= length(hex); i += 2) {
                high = index(digits, substr(hex, i, 1))
                low = index(digits, substr(hex, i + 1, 1))
                if (!high || !low) { print "bad hex: " $0 > "/dev/stderr"; exit 1 }
                printf "\\%03o", 16 * (high - 1) + low - 1
            }
            print ""
        }' > "$work/octal"
    while IFS= read -r line; do
        printf "$line"
    done < "$work/octal"
}

if [ $# -eq 0 ]; then
    for file in "$root"/tests/runs/*.hex; do
        name=${file##*/}
        set -- "$@" "${name%.hex}"
    done
fi
# Compares what the program prints for the run, with the words given, with a stored file.
compare() { # EXPECTED [WORD..]
    expected=$1
    shift
    status=0
    "$desk" "$@" < "$work/run" > "$work/got" || status=$?
    if cmp -s "$expected" "$work/got" && [ "$status" = 0 ]; then
        total=$((total + $(wc -l < "$expected")))
        return
    fi
    failed=$((failed + 1))
    ordinal=$(awk -v other="$work/got" '
        { if ((getline line < other) <= 0) line = "(nothing)" }
        line != $0 { print NR; found = 1; exit }
        END { if (!found) print NR + 1 }' "$expected")
    echo "run $name${*:+ $*}, request $ordinal differs: $(sed -n "${ordinal}p" "$work/hex")"
    echo "  expected: $(sed -n "${ordinal}p" "$expected")"
    echo "  program:  $(sed -n "${ordinal}p" "$work/got")"
    [ "$status" = 0 ] || echo "  the program ended with $status"
}

failed=0
total=0
whys=0
second=0
for name in "$@"; do
    plain "$root/tests/runs/$name.hex" > "$work/hex"
    bytes < "$work/hex" > "$work/run"
    rule=
    case $name in
    rule-1-*) rule='--rule 1' other=rule-2-${name#rule-1-} ;;
    rule-2-*) rule='--rule 2' other=rule-1-${name#rule-2-} second=$((second + 1)) ;;
    esac
    if [ -n "$rule" ]; then
        plain "$root/tests/runs/$other.hex" | cmp -s - "$work/hex" || { echo "runs.sh: $name and $other have different requests" >&2; exit 1; }
    fi
    compare "$root/tests/runs/$name.out" $rule
    [ -e "$root/tests/runs/$name.why" ] || continue
    whys=$((whys + 1))
    compare "$root/tests/runs/$name.why" $rule --why
done
[ "$failed" = 0 ] || { echo "$failed of $(($# + whys)) comparisons differ"; exit 1; }
echo "$# runs, $second of them under rule 2, $whys with their reasons too, $total lines, no difference"
