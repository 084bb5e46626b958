# Whether the program desk is the one that was proved from today's sources, for a script to read in by `. tools/proved.sh`, once it has $root, the top
# of the repository.
#
# target/desk.proved is the mark of the check that proved $program: it names the sources, a line each, and is as old as that check's start. So a
# source that changed during the check is newer. In crates/ all is a source but what rt makes, in the folder out of each crate.
program=$root/crates/desk/out/desk
proved=$root/target/desk.proved

# Prints the names of the sources, folders too. Written to a file before a check begins, it is that check's mark.
sources() {
    (cd "$root" && find crates.txt crates -path 'crates/*/out' ! -path 'crates/*/*/out' -prune -o -print | LC_ALL=C sort)
}

# Folders count too: one is touched when a file in it is added, removed or put in another's place. A crate's own is touched when rt makes its out.
newer() {
    (cd "$root" && find crates.txt crates -path 'crates/*/out' ! -path 'crates/*/*/out' -prune -o \
        -path 'crates/*' ! -path 'crates/*/*' -type d -o -newer "$proved" -print | head -n 1)
}

is_fresh() {
    [ -x "$program" ] && [ -f "$proved" ] && [ -z "$(newer)" ] && [ "$(sources)" = "$(cat "$proved")" ]
}
