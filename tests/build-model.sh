#!/bin/sh
# Compiles tests/model where the program is missing or older than its sources, and prints where it stands.
# Installs rustc where it is missing and may be installed.
#
#   model=$(sh tests/build-model.sh)
set -eu
root=$(CDPATH='' cd -- "$(dirname -- "$0")/.." && pwd -P)
model=$root/target/model

if ! [ -x "$model" ] || [ -n "$(find "$root/tests/model" "$root/tests/build-model.sh" -newer "$model" | head -n 1)" ]; then
    if ! command -v rustc >/dev/null 2>&1; then
        if [ "$(id -u)" = 0 ] && command -v apt-get >/dev/null 2>&1; then
            echo "build-model: installing rustc" >&2
            { apt-get update && apt-get install -y rustc; } >/dev/null 2>&1 || true
        fi
        command -v rustc >/dev/null 2>&1 || { echo "build-model: rustc is missing; apt-get install -y rustc" >&2; exit 1; }
    fi
    mkdir -p "$root/target"
    work=$(mktemp -d "$root/target/model.XXXXXX")
    trap 'rm -rf "$work"' EXIT
    trap 'exit 1' HUP INT TERM
    # The program is as old as the start of its making, so a source changed meanwhile is newer.
    : > "$work/began"
    # A sum too large stops the model, as a broken rule does.
    rustc -O -C overflow-checks=yes --edition 2021 "$root/tests/model/src/main.rs" -o "$work/model" >&2
    touch -r "$work/began" "$work/model"
    mv "$work/model" "$model"
fi
echo "$model"
