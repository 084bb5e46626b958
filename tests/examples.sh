#!/bin/sh
# Runs the examples through the program, with and without --why, and compares its lines with those stored beside them; the image that the evening leaves too, and
# the evening of the merged house under both rules. DESK names another program.
set -eu
root=$(CDPATH='' cd -- "$(dirname -- "$0")/.." && pwd -P)
cd "$root"
lines=0
compare() { # EXPECTED [--why] [--rule R] [--from IMAGE] [FILE]
    expected=$1
    shift
    got=$(sh examples/run "$@")
    if [ "$got" != "$(cat "$expected")" ]; then
        echo "examples: examples/run $* differs from $expected:" >&2
        printf '%s\n' "$got" | diff - "$expected" >&2 || :
        exit 1
    fi
    lines=$((lines + $(wc -l < "$expected")))
}

# Without a file it is the evening.
compare examples/evening.out
compare examples/evening.why --why
compare examples/refused.out examples/refused.hex
compare examples/refused.why --why examples/refused.hex
compare examples/monday.out --from examples/saturday.hex examples/monday.hex
compare examples/monday.why --why --from examples/saturday.hex examples/monday.hex
compare examples/returns.out examples/returns.hex
compare examples/returns.why --why examples/returns.hex
compare examples/holiday.out examples/holiday.hex
compare examples/holiday.why --why examples/holiday.hex
compare examples/merged.out --rule 2 examples/merged.hex
compare examples/merged.why --why --rule 2 examples/merged.hex
compare examples/merged-rule-1.out --rule 1 examples/merged.hex
compare examples/merged-rule-1.out examples/merged.hex

# The image in hex is the one that the evening leaves.
work=$(mktemp -d)
trap 'rm -rf "$work"' EXIT
trap 'exit 1' HUP INT TERM
sh examples/run --save "$work/image" > /dev/null
od -An -v -tx1 "$work/image" | tr -d ' \n' > "$work/saved"
sed -e 's/#.*//' examples/saturday.hex | tr -d '[:space:]' | tr 'A-F' 'a-f' > "$work/written"
cmp -s "$work/saved" "$work/written" || { echo "examples: the evening leaves another image than examples/saturday.hex" >&2; exit 1; }
echo "examples: ok, $lines lines"
