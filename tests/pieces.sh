#!/bin/sh
# Compares the program's lines for one long stream read from a file with those for the same stream read through a pipe in odd pieces,
# and its lines with --why, in pieces, with the model's.
# SEED takes another stream than the fixed one: what is tried is the reading, and not each seed has as many bytes. DESK names another program.
set -eu
root=$(CDPATH='' cd -- "$(dirname -- "$0")/.." && pwd -P)
desk=${DESK:-$root/desk}
seed=${SEED:-1}
count=550000
least=3000000

fail() { echo "pieces.sh: seed $seed: $*" >&2; exit 1; }

# Once before all: a program that can't start, or builds itself first, is found here.
[ -x "$desk" ] || fail "no program at $desk"
"$desk" < /dev/null > /dev/null || fail "$desk does not run"
model=$(sh "$root/tests/build-model.sh") || fail "the model was not built"

work=$(mktemp -d)
trap 'rm -rf "$work"' EXIT
trap 'exit 1' HUP INT TERM

"$model" generate "$seed" "$count" --whole > "$work/stream"
bytes=$(wc -c < "$work/stream")
[ "$bytes" -ge "$least" ] || fail "the stream has only $bytes bytes"

"$desk" < "$work/stream" > "$work/file" || fail "the program failed on the file"
# The pipe's status is the program's; a writer that failed leaves its mark.
in_pieces() { # [--why]
    { "$model" pieces < "$work/stream" || : > "$work/unwritten"; } | "$desk" "$@" || fail "the program failed on the pipe"
    [ ! -e "$work/unwritten" ] || fail "the pieces were not all written"
}
in_pieces > "$work/pipe"
in_pieces --why > "$work/why"
"$model" run --why < "$work/stream" > "$work/expected" || fail "the model broke a rule"

# A line for each request, so that no byte was left out.
last=$(tail -n 1 "$work/file")
[ "${last%% *}" = "$count" ] || fail "the last line is '$last', for $count requests"
lines=$(wc -l < "$work/file")
[ "$lines" -eq "$count" ] || fail "$lines lines for $count requests"
cmp "$work/file" "$work/pipe" || fail "the lines differ"
cmp "$work/expected" "$work/why" || fail "the lines with --why differ from the model's"
echo "pieces: seed $seed: $bytes bytes, $lines lines, the same from a file and in pieces; with --why the model's"
