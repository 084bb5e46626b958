#!/bin/sh
# Looks into an x86-64 ELF file.
#
#   sh tests/elf.sh sections FILE    of an object or a program: its sections that are loaded and not empty, one a line,
#                                    KIND BYTES NAME, where KIND is code, data (written to) or read-only
#   sh tests/elf.sh symbols FILE     of an object: its symbols that other objects see, one a line, in the order of its table,
#                                    defined NAME, where others may call it, or undefined NAME, where it is wanted from others
#
# Takes nothing but od and awk. Exit status: 0 printed; 2 FILE can't be read, or is no such file.
set -u
case ${1:-} in sections | symbols) ;; *) set -- ;; esac
[ $# -eq 2 ] && [ -r "$2" ] || {
    echo "elf: usage: sh tests/elf.sh sections|symbols FILE, a file that can be read" >&2
    exit 2
}
od -An -v -tu1 "$2" | awk -v asked="$1" '
    # the number in `width` bytes from `at` on, the least significant first
    function number(at, width,   value) {
        for (value = 0; width > 0; width--) value = value * 256 + byte[at + width - 1]
        return value
    }
    function word(at,   text) {
        for (text = ""; byte[at] > 0; at++) text = text sprintf("%c", byte[at])
        return text
    }
    # the flags of a section: 1 written to, 2 loaded, 4 run
    function kind(flags) {
        if (int(flags / 4) % 2) return "code"
        return flags % 2 ? "data" : "read-only"
    }
    function section(at,   flags) {
        flags = number(at + 8, 8)
        if (int(flags / 2) % 2 && number(at + 32, 8) > 0)
            print kind(flags), number(at + 32, 8), word(names + number(at, 4))
    }
    # a section of type 2 is a table of symbols, 24 bytes each: name, binding (above the lower four bits; 0 is local), section (0 is none)
    function symbols(at,   from, to, texts) {
        if (number(at + 4, 4) != 2) return
        found = 1
        from = number(at + 24, 8); to = from + number(at + 32, 8)
        texts = number(table + number(at + 40, 4) * step + 24, 8)
        for (; from < to; from += 24)
            if (byte[from + 4] >= 16)
                print (number(from + 6, 2) == 0 ? "undefined" : "defined"), word(texts + number(from, 4))
    }
    { for (i = 1; i <= NF; i++) byte[size++] = $i + 0 }
    END {
        # 127 "ELF", of 64 bits, the least significant byte first; for x86-64; with a table of sections
        if (size < 64 || number(0, 6) != 127 + 256 * (69 + 256 * (76 + 256 * (70 + 256 * (2 + 256)))) || number(18, 2) != 62) exit 2
        table = number(40, 8); step = number(58, 2); count = number(60, 2)
        if (count == 0 || table + count * step > size) exit 2
        names = number(table + number(62, 2) * step + 24, 8)
        for (at = table; count > 0; count--) {
            if (asked == "sections") section(at); else symbols(at)
            at += step
        }
        if (asked == "symbols" && !found) exit 2
    }' || {
    echo "elf: $2 is no x86-64 ELF file with $1" >&2
    exit 2
}
