#!/bin/sh
# Compares the programs with the model of document 01, on fresh seeds each time: `desk` on generated runs, every second one with --why, and
# `edges` on generated batches. Of four seeds two go under rule 2 of Import.
# SEEDS="7 8" repeats those seeds alone, each with and without --why; COUNT is a run's length; DESK and EDGES name other programs.
set -eu
root=$(CDPATH='' cd -- "$(dirname -- "$0")/.." && pwd -P)
desk=${DESK:-$root/desk}
edges=${EDGES:-$root/crates/edges/out/edges}
count=${COUNT:-1000}
runs=${RUNS:-300}
long=50000
files=${FILES:-40}
batch_count=2000

fail() { echo "model.sh: $*" >&2; exit 1; }

# A program named by the caller may be anything that runs here; the project's own may need the emulator.
run_edges() {
    if [ -n "${EDGES:-}" ]; then "$edges"; else sh "$root/tools/run-program.sh" "$edges"; fi
}

# Once before all: a program that can't start, or builds itself first, is found here and not in every run.
[ -x "$desk" ] || fail "no program at $desk"
"$desk" < /dev/null > /dev/null || fail "$desk does not run"
[ -x "$edges" ] || fail "no program at $edges; rt ci builds it, and so does rt run in crates/edges"
run_edges < /dev/null > /dev/null || fail "$edges does not run"
model=$(sh "$root/tests/build-model.sh") || fail "the model was not built"

work=$(mktemp -d)
trap 'rm -rf "$work"' EXIT
trap 'exit 1' HUP INT TERM

# The line at which the second file first differs from the first.
first_difference() {
    awk -v other="$2" '
        { if ((getline line < other) <= 0) line = "(nothing)" }
        line != $0 { print NR; found = 1; exit }
        END { if (!found) print NR + 1 }' "$1"
}

# edges also prints two counts that belong to no case.
cases_alone() { sed -e '/^unknown-kinds /d' -e '/^cut-frames /d' "$1"; }

# Says where a program's lines differ from the model's, with what was asked there.
show() {
    echo "  asked:   $1"
    echo "  model:   $(sed -n "${2}p" "$work/expected")"
    echo "  program: $(sed -n "${2}p" "$work/got")"
    [ "$status" = 0 ] || echo "  the program ended with $status: $(head -n 1 "$work/errors")"
}

requests=0
second=0
granted=0
reasons=0
compare_run() { # SEED COUNT [--why]
    rule=$("$model" rule-of "$1")
    # Rule 1 need not be said; tests/runs has runs in which it is.
    case $rule in 1) opening= ;; *) opening="--rule $rule" ;; esac
    "$model" generate "$1" "$2" --rule "$rule" > "$work/run"
    "$model" run --rule "$rule" ${3:-} < "$work/run" > "$work/expected" || fail "seed $1: the model broke a rule"
    status=0
    "$desk" $opening ${3:-} < "$work/run" > "$work/got" 2> "$work/errors" || status=$?
    if ! cmp -s "$work/expected" "$work/got"; then
        ordinal=$(first_difference "$work/expected" "$work/got")
        echo "seed $1, rule $rule${3:+ $3}, request $ordinal differs (SEEDS=$1 COUNT=$2 runs it again)"
        show "$("$model" requests < "$work/run" | awk -v n="$ordinal" '$1 == n { print $2 }')" "$ordinal"
        exit 1
    fi
    [ "$status" = 0 ] || fail "seed $1: the program ended with $status"
    set -- $(awk '{ n++ } $3 ~ /^8/ { g++ } NF == 9 { w++ } END { print n + 0, g + 0, w + 0 }' "$work/expected")
    requests=$((requests + $1))
    [ "$rule" = 1 ] || second=$((second + $1))
    granted=$((granted + $2))
    reasons=$((reasons + $3))
}

# A line for each case: 1 or 2, the rule of its desk; 3 where its opening is refused, which gives a desk under rule 1.
rules_of() {
    awk '/^#/ || /^$/ { next }
        $2 == "+" { if (rule == 3) rule = 1; print rule; next }
        { rule = 1; if (split($2, part, "/") == 2) rule = part[2]; if (rule != 1 && rule != 2) rule = 3; print rule }' "$1"
}

: > "$work/batches"
: > "$work/rules"
compare_batches() { # SEED
    "$model" batches "$1" "$batch_count" > "$work/cases"
    "$model" batch < "$work/cases" > "$work/expected" || fail "seed $1: the model broke a rule in a batch"
    status=0
    run_edges < "$work/cases" > "$work/all" 2> "$work/errors" || status=$?
    cases_alone "$work/all" > "$work/got"
    if ! cmp -s "$work/expected" "$work/got"; then
        line=$(first_difference "$work/expected" "$work/got")
        name=$(sed -n "${line}s/ .*//p" "$work/expected")
        echo "seed $1, case ${name:-after the last} differs (SEEDS=$1 runs it again)"
        show "$(grep -v -e '^#' -e '^$' "$work/cases" | sed -n "${line}p")" "$line"
        exit 1
    fi
    [ "$status" = 0 ] || fail "seed $1: $edges ended with $status"
    cat "$work/expected" >> "$work/batches"
    rules_of "$work/cases" >> "$work/rules"
}

# The document's own run first: a model that fails it compares nothing.
sh "$root/tests/runs.sh" "$model" document >/dev/null || fail "the model fails the document's run"

# The stored runs meet every condition of every kind, so that each reason stands in a file that can be read.
"$model" stored "$root"/tests/runs/*.hex > "$work/stored" || { cat "$work/stored"; fail "the stored runs miss a condition"; }
echo "stored: $(tail -n 1 "$work/stored")"

# Opened at 4,294,967,294: one number, then 11.
printf '\001\000\000\000\005\000\003\001\021\000\000\002\000\001\025\000\000\025\000\001' > "$work/run"
printf '3 15 81 4294967295 0 00 0 0 0\n4 15 CB - 11 00 0 4294967295 4294967295\n' > "$work/expected"
"$model" run --last 4294967294 --why < "$work/run" | tail -n 2 | cmp -s "$work/expected" - || fail "the model fails at the last number"
"$desk" --last 4294967294 --why < "$work/run" | tail -n 2 | cmp -s "$work/expected" - || fail "the program fails at the last number"

# The stored cases of edges, which were written by hand.
cases=$root/crates/edges/stdin
[ -f "$cases" ] || fail "no stored cases at $cases"
cases_alone "$root/crates/edges/stdout" > "$work/expected"
status=0
"$model" batch < "$cases" > "$work/got" 2> "$work/errors" || status=$?
if ! cmp -s "$work/expected" "$work/got" || [ "$status" != 0 ]; then
    line=$(first_difference "$work/expected" "$work/got")
    echo "the stored cases of edges: line $line differs"
    echo "  stored:  $(sed -n "${line}p" "$work/expected")"
    echo "  model:   $(sed -n "${line}p" "$work/got")"
    [ "$status" = 0 ] || echo "  the model ended with $status: $(head -n 1 "$work/errors")"
    exit 1
fi
stored=$(wc -l < "$work/expected")
[ "$stored" -gt 0 ] || fail "no stored cases in $cases"
echo "$stored stored cases of edges: the model prints the same"

if [ -n "${SEEDS:-}" ]; then
    seeds=$SEEDS
    for seed in $seeds; do
        compare_run "$seed" "$count"
        compare_run "$seed" "$count" --why
        compare_batches "$seed"
    done
else
    # Seeds of one second never meet those of the next.
    first=$(($(date +%s) * 1000))
    seeds=$(awk -v first="$first" -v runs="$runs" 'BEGIN { for (i = 0; i < runs; i++) printf "%.0f ", first + i }')
    echo "seeds $first to $((first + runs - 1)), $count requests each; $((first + 997)) and $((first + 999)), $long requests each"
    whys=
    for seed in $seeds; do
        if [ $((seed % 2)) = 0 ]; then
            compare_run "$seed" "$count"
        else
            compare_run "$seed" "$count" --why
            whys="$whys $seed"
        fi
    done
    # A long run uses the same slots again and again; one under each rule.
    compare_run $((first + 997)) "$long" --why
    compare_run $((first + 999)) "$long" --why
    echo "seeds $first to $((first + files - 1)), batches of at most $batch_count requests each"
    for seed in $(echo "$seeds" | tr ' ' '\n' | head -n "$files"); do compare_batches "$seed"; done
fi
echo "$requests requests compared, $((requests - second)) under rule 1, $second under rule 2; $granted granted, $reasons with their reasons, no difference"
set -- $(awk '{ stops[$2]++ } END { print NR, stops[0] + 0, stops[1] + 0, stops[2] + 0, stops[13] + 0 }' "$work/batches")
echo "$1 batches compared: stop 0 $2, stop 1 $3, stop 2 $4, stop 13 $5, no difference"
stops="$2 $3 $4 $5"
set -- $(awk '{ rules[$1]++ } END { print NR, rules[1] + 0, rules[2] + 0, rules[3] + 0 }' "$work/rules")
echo "of these $(($2 + $4)) under rule 1, $3 under rule 2; $4 at openings refused with 3"

if [ -z "${SEEDS:-}" ]; then
    [ "$requests" -ge 400000 ] || fail "fewer than 400000 requests"
    [ $((2 * second)) -ge "$requests" ] || fail "fewer than half under rule 2"
    [ $((requests - second)) -ge 150000 ] || fail "fewer than 150000 under rule 1"
    [ $((2 * granted)) -ge "$requests" ] || fail "fewer than half granted"
    [ "$reasons" -ge 200000 ] || fail "fewer than 200000 reasons"
    for stop in $stops; do [ "$stop" -ge 1000 ] || fail "too few batches at a stop"; done
    [ "$files" -ge 40 ] && [ "$2" -ge 3000 ] && [ "$3" -ge 3000 ] && [ "$4" -ge 10 ] || fail "too few batches under a rule"
    # Of the runs with reasons, so that each condition's was compared.
    "$model" coverage "$count" $whys > "$work/coverage" || { cat "$work/coverage"; fail "coverage incomplete"; }
    echo "coverage complete: $(tail -n 1 "$work/coverage")"
fi
