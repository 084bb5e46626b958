#!/bin/sh
# Compares the program with the second desk on images: the stored ones of tests/images, every small change of a middling one, images of generated
# runs, which are opened and gone on with, and runs with a restart in them beside the same runs in one piece. All under both rules of Import.
# SEED=7 repeats that seed's runs; DESK names another program.
set -eu
root=$(CDPATH='' cd -- "$(dirname -- "$0")/.." && pwd -P)
desk=${DESK:-$root/desk}
# Seeds of one second never meet those of the next.
seed=${SEED:-$(($(date +%s) * 1000))}
images=$root/tests/images

fail() { echo "images.sh: $*" >&2; exit 1; }

# Once before all: a program that can't start, or builds itself first, is found here and not in every run.
[ -x "$desk" ] || fail "no program at $desk"
"$desk" < /dev/null > /dev/null || fail "$desk does not run"
model=$(sh "$root/tests/build-model.sh") || fail "the model was not built"

work=$(mktemp -d)
trap 'rm -rf "$work"' EXIT
trap 'exit 1' HUP INT TERM

# A program named by the caller may be anything that runs here; the project's own may need the emulator, and was built just now.
if [ -n "${DESK:-}" ]; then set -- "$desk"; else set -- sh "$root/tools/run-program.sh" "$root/crates/desk/out/desk"; fi

# The stored images are those that the list of cases says.
mkdir "$work/made" "$work/files"
"$model" make-images "$work/made"
diff -r "$images" "$work/made" || fail "tests/images is not what 'model make-images' writes"

parts=
part() { # WORD..
    said=$("$model" "$@") || fail "SEED=$seed: the program differs from the model"
    parts="$parts$said; "
}
part stored-images "$work/files" "$images"/*.hex -- "$@"
part changed-images "$work/files" "$images/middling.hex" -- "$@"
part changed-images "$work/files" "$images/middling-rule-2.hex" -- "$@"
part image-runs "$work/files" "$seed" 72 -- "$@"
part restarts "$work/files" "$seed" 80 -- "$@"
echo "images: seed $seed: ${parts}no difference"
