#!/bin/sh
# Holds the documents to the source. A name in backquotes has its definition in a file that is named beside it: in the same row of a table, in
# the table's first row, or in the same paragraph. There a path is a whole one (crates/batch/specs/Batch.antt, or a folder), or the end of one (Batch.antt) in a crate
# that is named there; a function or type is looked for in all of src/ of such a crate, and crate::function in that crate. Each must-fail edit stands in docs/PROMISES.md
# beside its crate, and every edit named there exists.
set -eu
root=$(CDPATH='' cd -- "$(dirname -- "$0")/.." && pwd -P)
cd "$root"
work=$(mktemp -d)
trap 'rm -rf "$work"' EXIT
trap 'exit 1' HUP INT TERM

# ---- every definition: its file, a tab, its name
find crates -name '*.antt' -o -name '*.rt' | grep -E '/(src|specs|proofs)/' | sort > "$work/files"
while IFS= read -r file; do
    case $file in
    *.antt)
        # NAME : .., record NAME, data NAME; a constructor or a field stands below its data or record, two spaces in
        sed -n -e 's/--.*//' -e '/^ \{0,2\}[^ ]/p' -e '/^   .*pub /p' "$file" | awk -v file="$file" '
            { deep = match($0, /^  /); sub(/^ +/, "") }
            /^(use|module|let|infix|unfolding)/ { next }
            { shown = sub(/^abbrev /, "") + sub(/^unfoldable /, "") + sub(/^pub /, ""); kind = sub(/^(record|data) /, "") }
            { at = match($0, /[:({=]/); if (!at) next; mark = substr($0, at, 1); if (!(kind || mark == ":")) next }
            { n = split(substr($0, 1, at - 1), words, " "); for (i = 1; i <= (kind ? 1 : n); i++) print file "\t" words[i] }'
        ;;
    *.rt)
        sed -e 's,//.*,,' "$file" | awk -v file="$file" '
            /^ *(pub(\(crate\))? )?(extern "C" )?(fn|struct|enum|const|type) / {
                sub(/^ *(pub(\(crate\))? )?(extern "C" )?/, ""); split($0, words, /[^A-Za-z0-9_]+/)
                print file "\t" words[2] "\titem"; next }
            /^    [A-Za-z_]+ ?[,({]|^    (pub )?[a-z_]+: / { sub(/^ +(pub )?/, ""); split($0, words, /[^A-Za-z0-9_]+/); print file "\t" words[1] }'
        ;;
    esac
done < "$work/files" > "$work/defined"
[ -s "$work/defined" ] || { echo "names: no definition found" >&2; exit 1; }
sed -n 's/^\([a-z_]*\)\( staticlib\)\{0,1\}:.*/\1/p' crates.txt > "$work/crates"
[ "$(wc -l < "$work/crates")" -eq "$(grep -c '^[^#]' crates.txt)" ] || { echo "names: a line of crates.txt was not read" >&2; exit 1; }
ls crates/*/must-fail/*.edit | sed 's,crates/\(.*\)/must-fail/\(.*\)\.edit,\1 \2,' > "$work/edits"

# ---- each document in units: a row of a table behind the table's first row, or a paragraph or point of a list in one line
for page in docs/*.md; do
    awk -v page="$page" '
        function flush() { if (text != "") print page "\t" first "\t" text; text = "" }
        /^\|/ { flush(); if (!table) head = $0; table = 1; if ($0 !~ /^\|[-|]*$/) print page "\t" FNR "\t" head " ~~ " $0; next }
        { table = 0 }
        /^ *$|^#/ { flush(); next }
        /^([0-9]+\.|-) / { flush() }
        { if (text == "") first = FNR; text = text " " $0 }
        END { flush() }' "$page"
done > "$work/units"

awk -F '\t' -v defined="$work/defined" -v crates="$work/crates" -v edits="$work/edits" '
    function wrong(what) { print "names: " page ":" line ": " what; failed = 1 }
    function ends_with(whole, end) { return length(whole) >= length(end) && substr(whole, length(whole) - length(end) + 1) == end }
    # is name defined in a file that the unit names
    function beside(name,   i, j, file, n, list) {
        n = split(where[name], list, "\n")
        for (i = 1; i <= n; i++) {
            file = list[i]
            for (j = 1; j <= paths; j++) {
                if (path[j] == file || index(file, path[j] "/") == 1) return 1
                if (path[j] !~ /^crates\// && ends_with(file, "/" path[j]) && crate_of(file) in near) return 1
            }
            if ((file "\t" name) in item_in && crate_of(file) in near) return 1
        }
        return 0
    }
    function crate_of(file,   parts) { split(file, parts, "/"); return parts[2] }
    BEGIN {
        while ((getline row < defined) > 0) {
            split(row, f, "\t")
            where[f[2]] = where[f[2]] f[1] "\n"
            if (f[3] == "item") item_in[f[1] "\t" f[2]] = 1
        }
        while ((getline row < crates) > 0) crate[row] = 1
        while ((getline row < edits) > 0) { edit[row] = 1; split(row, f, " "); edit_name[f[2]] = 1 }
        said["ensures"]; said["requires"]; said["rt"]; said["rustc"]
        kit["libc"]; kit["io"]; kit["os"]; kit["bytes"]
    }
    {
        page = $1; line = $2; text = $3; paths = 0; split("", near)
        rest = text
        while (match(rest, /crates\/[a-z_]+(\/[A-Za-z_]+)*(\.antt|\.rt)?|[A-Za-z_]+(\/[A-Za-z_]+)*\.(antt|rt)/)) {
            token = substr(rest, RSTART, RLENGTH); rest = substr(rest, RSTART + RLENGTH)
            path[++paths] = token
            if (token ~ /^crates\//) near[crate_of(token)]
        }
        rest = text; sub(/^.* ~~ /, "", rest)
        while (match(rest, /`[^`]*`/)) {
            name = substr(rest, RSTART + 1, RLENGTH - 2); rest = substr(rest, RSTART + RLENGTH)
            if (name !~ /^[A-Za-z0-9_:-]+$/ || name in said || name in kit) continue
            # a theorem is named as the crate kept is, which is written crates/kept
            if (name in crate && name != "kept") continue
            names++
            if (name ~ /::/) {
                split(name, f, "::"); last = name; sub(/.*::/, "", last)
                if (f[1] in kit) continue
                if (f[1] in crate) {
                    found = 0; n = split(where[last], list, "\n")
                    for (i = 1; i <= n; i++) if (index(list[i], "crates/" f[1] "/src/") == 1) found = 1
                    if (!found) wrong("`" name "` is not in crates/" f[1] "/src")
                    continue
                }
                name = last
            }
            if (!beside(name)) wrong("`" name "` is defined in no file that is named beside it")
        }
        # a word with a low line that is not in backquotes is an edit of the crate named before it
        if (page != "docs/PROMISES.md") next
        gsub(/`[^`]*`/, "", text); owner = ""
        while (match(text, /crates\/[a-z_]+\/must-fail|[A-Za-z_.\/-]*\.(antt|rt|sh|c|h|md)|[a-z0-9]+_[a-z0-9_]+/)) {
            token = substr(text, RSTART, RLENGTH); text = substr(text, RSTART + RLENGTH)
            if (token ~ /must-fail$/) { owner = crate_of(token); continue }
            if (token ~ /\./) continue
            if (!((owner " " token) in edit)) wrong("no edit " token " in crates/" owner "/must-fail")
            told[owner " " token] = 1
        }
    }
    END {
        for (e in edit) { total++; if (!(e in told)) { split(e, f, " "); print "names: the edit " f[2] " of " f[1] " is not in docs/PROMISES.md"; failed = 1 } }
        if (!names) { print "names: no name found in docs"; failed = 1 }
        if (failed) exit 1
        print "names: " names " names beside their files and " total " edits, all there"
    }' "$work/units"
