#!/bin/sh
# The places of each point of docs/DESIGN-PASS.md in src/, by name of the point: `sh tools/places.sh [COMMIT]`. With LIST=1 each place is printed.
set -eu
commit=${1-HEAD}
cd "$(dirname -- "$0")/.."

# One line: the point, what is looked for, how many there are.
places() {
    found=$(git grep -nE "$3" "$commit" -- 'crates/*/src/*.rt' || :)
    printf '%s %s: %s\n' "$1" "$2" "$(printf '%s' "$found" | grep -c . || :)"
    if [ -n "${LIST-}" ]; then printf '%s\n' "$found" | cut -d: -f2-; fi
}

places 1a 'enums of our own' '^(pub(\(crate\))? )?enum '
places 1b 'flags in structs' '^    (pub )?[a-z_]+: bool,'
places 1c 'numbers for kinds, refusals and ends' 'Refused\(u8\)|^    (pub )?(kind|number|sort|part): u8,|^(pub\(crate\) )?const [A-Z_]+: (u8|u32|i32) = '
printf '2 twins: '
python3 tools/twins.py "$commit" | if [ -n "${LIST-}" ]; then cat; else tail -n 1; fi
places 3a 'loops that count by hand' '^ +(.[a-z_]+: )?(while|loop)\b|= loop '
places 3b 'loops over a range of places' "for [a-z_]+ in [a-z0-9_]+\.\."
places 4a 'bytes put together and taken apart' '\* 256 \+|/ 256\)|% 256\)|16777216|65536 % 256'
places 4b 'functions that convert, compare, print or make a default' 'fn (flag|wide|same|given|number_or|value_wanted|high|low|pair_of|number_of|bytes_of|pair_at|quad_at|no_user|no_script|no_session|none|fresh|small|digit|hex_digit|decimal|digit_count|write_digits|is_digit|rule_number|rule_of|load_number|save_number|save_length|refusal_of|stop_number|answer_byte|pack|unpack|number|print_byte)\b'
places 5 'functions that take the parts of a desk apart' 'base: &mut (Cells|\[u32; 1858\])'
places 6 'buffers with a place or a length beside' 'out: &mut \[u8\], at: usize|^ +out: &mut \[u8\],$|^ +at: usize,$|^ +have: usize,$'
places 7 'which step is next' '(Ending|Next)::'
printf '8 answers and invariants: '
git grep -hE '^(abbrev )?pub .* : goal\.|^[a-z].* : goal\.' "$commit" -- 'crates/*/proofs/*.antt' | grep -c .
