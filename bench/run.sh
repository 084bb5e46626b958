#!/bin/sh
# Measures the program beside bench/desk.c: mixed requests, what is copied, the costs that could grow, and images; then desk_batch, called from C, beside the
# same rules in C. Prints the results, and writes them into bench/RESULTS.md too. Both programs read a stream from a file and write to /dev/null, in turn, and
# the best of several runs counts.
#
#   [LIBRARY=libhouse.a] sh bench/run.sh [REQUESTS [RUNS]]
#
# The archive is built by tools/library.sh where LIBRARY does not name one.
# Needs gcc, x86-64, and what tests/model needs, from which the mixed stream comes. A quiet machine is up to you.
set -eu
root=$(CDPATH='' cd -- "$(dirname -- "$0")/.." && pwd -P)
requests=${1:-1000000} runs=${2:-9}
for tool in gcc awk; do
    command -v "$tool" >/dev/null || { echo "bench: $tool is missing" >&2; exit 1; }
done
[ "$(uname -m)" = x86_64 ] || { echo "bench: both programs are measured on x86-64" >&2; exit 1; }
work=$(mktemp -d)
trap 'rm -rf "$work"' EXIT
trap 'exit 1' HUP INT TERM

"$root/desk" </dev/null >/dev/null
desk=$root/crates/desk/out/desk
gcc -std=c99 -O2 -D_DEFAULT_SOURCE "$root/bench/desk.c" -o "$work/c"
gcc -std=c99 -O2 "$root/bench/streams.c" -o "$work/streams"
gcc -std=c99 -O2 -D_DEFAULT_SOURCE "$root/bench/starts.c" -o "$work/starts"
library=${LIBRARY:-}
if [ -z "$library" ]; then
    sh "$root/tools/library.sh" house
    library=$root/target/staticlib/libhouse.a
fi
gcc -std=c99 -O2 -D_DEFAULT_SOURCE -I"$root/include" "$root/bench/batch.c" "$library" -o "$work/batch"
gcc -O2 -fno-builtin -fno-tree-loop-distribute-patterns -shared -fPIC "$root/bench/copies.c" -o "$work/copies.so"
model=$(sh "$root/tests/build-model.sh")

now() { date +%s%N; }

# Nanoseconds of the C version and of the program on a stream that both answer alike, each with the words given.
measure() { # STREAM [WORD..]
    stream=$1
    shift
    "$work/c" "$@" <"$stream" >"$work/c.out"
    "$desk" "$@" <"$stream" >"$work/desk.out"
    cmp "$work/c.out" "$work/desk.out" >&2 || { echo "bench: the two answer differently" >&2; exit 1; }
    best_c=999999999999 best_desk=999999999999
    for i in $(seq "$runs"); do
        a=$(now); "$work/c" "$@" <"$stream" >/dev/null; b=$(now); "$desk" "$@" <"$stream" >/dev/null; c=$(now)
        [ $((b - a)) -ge "$best_c" ] || best_c=$((b - a))
        [ $((c - b)) -ge "$best_desk" ] || best_desk=$((c - b))
    done
}

# A row of the second table: what, how many of them, the stream's words.
row() {
    "$work/streams" $3 >"$work/one" 2>"$work/setup"
    measure "$work/one"
    awk -v what="$1" -v n="$2" -v c="$best_c" -v d="$best_desk" 'BEGIN { printf "| %s | %.0f | %.0f | %.2f |\n", what, c / n, d / n, d / c }'
}

# A row of the third table, of what $work/batch said last: what, how many of them, and how they were called.
called() {
    awk -F ': C | ms |, desk_batch |, ratio ' -v what="$1" -v n="$2" -v how="$3" '
        $1 == how { printf "| %s | %.0f | %.0f | %.2f |\n", what, $2 * 1e6 / n, $4 * 1e6 / n, $4 / $2 }' "$work/said"
}

# The same of a stream of its own, in one batch.
called_row() {
    "$work/streams" $3 >"$work/one" 2>"$work/setup"
    "$work/batch" "$runs" <"$work/one" >"$work/said"
    called "$1" "$2" "one batch"
}

# The mixed requests are still in $work/mixed: so many, so many of them granted take-backs.
from_c() { # COUNT BACK
    echo
    echo "## From C, by desk_batch of libhouse.a"
    echo
    echo "Both called the same way in one process, which compares all that they answer: nanoseconds each, whole streams divided by their number. Reading the stream and opening the desk are not in it, and no line is printed."
    echo
    echo "| | C | desk_batch | ratio |"
    echo "|---|---|---|---|"
    "$work/batch" "$runs" <"$work/mixed" >"$work/said"
    called "a mixed request, all in one batch" "$1" "one batch"
    called "a mixed request, 64 requests a call" "$1" "64 requests a call"
    called "a mixed request, one request a call" "$1" "one request a call"
    called_row "a read, 16 live drafts" 1000000 "reads 16 1000000"
    called_row "a read, 64 live drafts" 1000000 "reads 64 1000000"
    called_row "a read, 256 live drafts" 1000000 "reads 256 1000000"
    called_row "a session opened and taken back, 32 kept changes, full desk" 50000 "take-backs 50000"
    called_row "a Disband of the full desk, taken back, 32 kept changes" 50000 "disbands 50000"
    echo
    LD_PRELOAD=$work/copies.so "$work/batch" copied <"$work/mixed" 2>"$work/copied"
    awk -v n="$1" -v back="$2" '
        NR == 2 {
            batch = $0
            printf "Copied within desk_batch by calls of memcpy (%d, %d bytes) and memmove (%d, %d bytes), set by memset (%d, %d bytes): ", $2, $3, $5, $6, $11, $12
            printf "%.1f bytes a request. Calls as large as a table: %d, %d bytes, for %d granted take-backs; ", ($3 + $6 + $12) / n, $8, $9, back
            printf "without these %.1f bytes a request. ", ($3 + $6 + $12 - $9) / n
        }
        NR == 4 { print $0 == batch ? "With one request a call it is the same: no part of a desk_t is copied to call it." : "With one request a call: " $0 "." }' "$work/copied"
}

# Microseconds that opening an image adds to the start of a program that then reads nothing.
opening() { # PROGRAM
    "$work/starts" 2000 "$1" --last 1 >"$work/plain"
    "$work/starts" 2000 "$1" --from "$work/image" >"$work/opened"
    awk 'NR == FNR { plain = $1; next } { printf "%.0f", ($1 - plain) / 1000 }' "$work/plain" "$work/opened"
}

# An image of a full desk that both programs write alike, under either rule.
images() {
    "$work/streams" take-backs 1 >"$work/one" 2>"$work/setup"
    for rule in 2 1; do
        "$work/c" --rule "$rule" --save "$work/image" <"$work/one" >"$work/c.out"
        "$desk" --rule "$rule" --save "$work/desk.image" <"$work/one" >"$work/desk.out"
        cmp "$work/image" "$work/desk.image" >&2 || { echo "bench: the two write different images" >&2; exit 1; }
    done
    echo
    echo "A full desk's image, $(wc -c <"$work/image") bytes, opened: $(opening "$work/c") microseconds in C, $(opening "$desk") in the desk (the least of 2000 starts with it, less the least without)."
}

results() {
    echo "# Results"
    echo
    echo "Measured by bench/run.sh on $(date -u +%Y-%m-%d), $(awk -F ': ' '/^model name/ { print $2; exit }' /proc/cpuinfo), $(nproc) cores. Best of $runs runs, in turn."
    echo
    "$model" generate 1 "$requests" --whole >"$work/mixed"
    measure "$work/mixed"
    count=$(wc -l <"$work/desk.out")
    awk -v n="$count" -v c="$best_c" -v d="$best_desk" '
        $3 ~ /^8/ { granted++ } $2 == "20" && $3 == "80" { back++ }
        END {
            printf "%d mixed requests, %d granted, %d of them take-backs, lines printed:\n\n", n, granted, back
            printf "| | milliseconds | requests a second |\n|---|---|---|\n"
            printf "| C (gcc -O2) | %.1f | %.2f million |\n| desk | %.1f | %.2f million |\n\n", c / 1e6, n * 1e3 / c, d / 1e6, n * 1e3 / d
            printf "Ratio: %.2f.\n", d / c
        }' "$work/desk.out"
    back=$(awk '$2 == "20" && $3 == "80" { n++ } END { print n + 0 }' "$work/desk.out")
    LD_PRELOAD=$work/copies.so "$desk" <"$work/mixed" 2>"$work/copied" >/dev/null
    echo
    awk -v n="$count" -v back="$back" '{
        printf "Copied by calls of memcpy (%d, %d bytes) and memmove (%d, %d bytes): %.1f bytes a request. ", $2, $3, $5, $6, ($3 + $6) / n
        printf "Calls as large as a table: %d, %d bytes, for %d granted take-backs; without these %.1f bytes a request, the digits of the lines.\n", $8, $9, back, ($3 + $6 - $9) / n
    }' "$work/copied"
    echo
    # A seed with many Imports.
    "$model" generate 18 "$requests" --rule 2 --whole >"$work/mixed-2"
    measure "$work/mixed-2" --rule 2
    awk -v c="$best_c" -v d="$best_desk" '
        $2 == "09" { imports++ } $2 == "09" && $3 == "81" { granted++ }
        END { printf "Under rule 2, %d mixed requests, %d of them Imports, %d of these granted: ratio %.2f.\n", NR, imports, granted, d / c }' "$work/desk.out"
    echo
    echo "Nanoseconds each, whole runs divided by their number:"
    echo
    echo "| | C | desk | ratio |"
    echo "|---|---|---|---|"
    row "a read, 16 live drafts" 1000000 "reads 16 1000000"
    row "a read, 64 live drafts" 1000000 "reads 64 1000000"
    row "a read, 256 live drafts" 1000000 "reads 256 1000000"
    row "a session opened and taken back, 32 kept changes, full desk" 50000 "take-backs 50000"
    row "a Disband of the full desk, taken back, 32 kept changes" 50000 "disbands 50000"
    images
    from_c "$count" "$back"
}

results >"$work/results"
cat "$work/results"
cp "$work/results" "$root/bench/RESULTS.md"
