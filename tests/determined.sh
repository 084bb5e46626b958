#!/bin/sh
# Holds the public contracts of the libraries to 01: "Show that any two results allowed by it coincide". Such a contract has no `requires`, and
# either its `ensures` clauses are an equation of the answer and one of each lent part, with entry values alone on the right, or
# crates/promises/proofs/Determined.antt has a theorem for it, told there by a line
#     -- two results of CRATE::FUNCTION: THEOREM
set -eu
LC_ALL=C
export LC_ALL
root=$(CDPATH='' cd -- "$(dirname -- "$0")/.." && pwd -P)
cd "$root"
theorems=crates/promises/proofs/Determined.antt
work=$(mktemp -d)
trap 'rm -rf "$work"' EXIT
trap 'exit 1' HUP INT TERM

# ---- a line for each public function: CRATE::FUNCTION, a tab, and `equation` or why its contract is none
cat > "$work/contracts.awk" << 'AWK'
# The place of the sign that closes the one at i.
function closing(s, i,    first, last, depth, c) {
    first = substr(s, i, 1)
    last = first == "(" ? ")" : "}"
    for (; i <= length(s); i++) {
        c = substr(s, i, 1)
        if (c == first) depth++
        else if (c == last && --depth == 0) return i
    }
    print "determined: " crate ": a '" first "' is not closed" > "/dev/stderr"
    exit 1
}

# Without spaces around it and parentheses around all of it.
function bare(s) {
    gsub(/[ \t]+/, " ", s)
    sub(/^ /, "", s)
    sub(/ $/, "", s)
    if (substr(s, 1, 1) == "(" && closing(s, 1) == length(s)) return bare(substr(s, 2, length(s) - 2))
    return s
}

# The pieces of s between signs that stand in no parentheses, to the array `piece`; their number.
function pieces(s, sign,    n, i, from, depth, c) {
    split("", piece)
    from = 1
    for (i = 1; i <= length(s); i++) {
        c = substr(s, i, 1)
        if (c == "(") depth++
        else if (c == ")") depth--
        else if (depth == 0 && substr(s, i, length(sign)) == sign) {
            piece[++n] = bare(substr(s, from, i - from))
            from = i + length(sign)
        }
    }
    piece[++n] = bare(substr(s, from))
    return n
}

# What an equation with this left side determines: `answer`, or the name of the lent part, whole or as what its cells show.
function determines(left) {
    if (left == "result") return "answer"
    sub(/^(view|past) /, "", left)
    if (left !~ /^[a-z0-9_]+\.new$/) return ""
    sub(/\.new$/, "", left)
    return left
}

# Whether a right side names the answer or anything at exit.
function looks_ahead(right,    n, i, word) {
    n = split(right, word, /[^A-Za-z0-9_.]+/)
    for (i = 1; i <= n; i++) if (word[i] ~ /^\.*result(\.|$)/ || word[i] ~ /\.new(\.|$)/) return 1
    return 0
}

# Why the body of an `ensures` is not made of equations, or nothing; what they determine goes to `known`.
function unlike(body,    n, i, part, what) {
    n = pieces(bare(body), "×")
    for (i = 1; i <= n; i++) part[i] = piece[i]
    for (i = 1; i <= n; i++) {
        if (pieces(part[i], "→") != 1 || pieces(part[i], "⊎") != 1 || pieces(part[i], "≡") != 2) return "has a part that is no equation: " part[i]
        what = determines(piece[1])
        if (what == "") return "has an equation of something else than the answer or a lent part: " piece[1]
        if (looks_ahead(piece[2])) return "has more than entry values on the right: " piece[2]
        known[what] = 1
    }
    return ""
}

# Why the contract of a function with these parameters and this header is no equation, or `equation`.
function judged(params, header, clauses,    i, why, lent, name, found) {
    if (header ~ /requires/) return "has a `requires`, so that it speaks of some inputs alone"
    if (header ~ /ensures\*/) return "has a starred `ensures`"
    if (clauses == 0) return "has no `ensures`"
    split("", known)
    for (i = 1; i <= clauses; i++) if ((why = unlike(clause[i])) != "") return why
    if (header ~ /->/ && !known["answer"]) return "has no equation of the answer"
    lent = gsub(/&('[a-z]+ +)?mut /, "\\&mut ", params)
    sub(/&mut self/, "self: \\&mut ", params)
    while (match(params, /[a-z0-9_]+ *: *&mut /)) {
        name = substr(params, RSTART, RLENGTH)
        sub(/ *:.*/, "", name)
        if (!known[name]) return "has no equation of the lent `" name "`"
        found++
        params = substr(params, RSTART + RLENGTH)
    }
    return found == lent ? "equation" : "lends a part that is no parameter of its own"
}

{ sub(/\/\/.*/, ""); text = text " " $0 }

END {
    while (match(text, /[ ;}\]]pub +((const|unsafe|extern +"C") +)*fn +[A-Za-z0-9_]+/)) {
        name = substr(text, RSTART, RLENGTH)
        sub(/.* /, "", name)
        text = substr(text, RSTART + RLENGTH)
        i = index(text, "(")
        j = closing(text, i)
        params = substr(text, i, j - i + 1)
        text = substr(text, j + 1)
        header = ""
        clauses = 0
        split("", clause)
        # clauses stand between the parameters and the body, each with a name or without
        while ((i = index(text, "{")) > 0 && substr(text, 1, i - 1) ~ /(^|[ )>])(ensures|requires)\*?( +[a-z][a-z0-9_]*)? *$/) {
            header = header substr(text, 1, i - 1)
            j = closing(text, i)
            if (substr(text, 1, i - 1) ~ /(^|[ )>])ensures\*?( +[a-z][a-z0-9_]*)? *$/) clause[++clauses] = substr(text, i + 1, j - i - 1)
            text = substr(text, j + 1)
        }
        other = header != "" && substr(text, 1, i - 1) ~ /[^ \t]/
        header = header substr(text, 1, i - 1)
        print crate "::" name "\t" (other ? "has a clause of another kind" : judged(params, header, clauses))
    }
}
AWK

sed -n 's/^\([a-z][a-z0-9_]*\)\( staticlib\)\{0,1\}:.*/\1/p' crates.txt > "$work/crates"
[ "$(wc -l < "$work/crates")" -eq "$(grep -c '^[^#]' crates.txt)" ] || { echo "determined: a line of crates.txt was not read" >&2; exit 1; }
while IFS= read -r crate; do
    # a program has no caller
    [ -f "crates/$crate/src/main.rt" ] && continue
    find "crates/$crate/src" -name '*.rt' | sort | xargs awk -v crate="$crate" -f "$work/contracts.awk"
done < "$work/crates" > "$work/contracts"
[ -s "$work/contracts" ] || { echo "determined: no public function found" >&2; exit 1; }

# ---- held to the list of theorems
{ echo; [ ! -f "$theorems" ] || cat "$theorems"; } > "$work/list"
awk -F '\t' -v theorems="$theorems" '
    function say(what) { print "determined: " what > "/dev/stderr"; failed = 1 }
    FNR == NR {
        if ($0 ~ /^ *-- two results of [a-z0-9_]+::[a-z0-9_]+: [^ ]+$/) {
            split($0, half, /: /)
            name = half[1]
            sub(/.* /, "", name)
            theorem[name] = half[2]
        }
        if ($0 ~ /^ *pub [^ ]+ :/) { split($0, word, / +/); stated[$0 ~ /^ / ? word[3] : word[2]] = 1 }
        next
    }
    { all++; seen[$1]++ }
    $2 == "equation" { equations++; next }
    $1 in theorem { by_theorem++; next }
    { say("the contract of " $1 " " $2) }
    END {
        for (name in theorem) {
            if (!(name in seen)) say(theorems " tells of " name ", which is no public function")
            else if (seen[name] > 1) say(theorems " tells of " name ", and more than one function has that name")
            if (!(theorem[name] in stated)) say(theorems " has no `pub " theorem[name] " :` for " name)
        }
        printf "determined: %d public contracts, %d by an equation, %d by a theorem\n", all, equations, by_theorem
        exit failed
    }' "$work/list" "$work/contracts"
