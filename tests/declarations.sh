#!/usr/bin/env bash
# The header is the one source of the fourteen calls: the Rust crate's ffi.rs has the same calls with the same parameters, the same structs
# with the same fields in the same places, the same sizes, and no more; docs/HOUSE.md has those places; and no other file declares a call.
#
# The kit's clang reads the header. Of what it read two programs are made, one in C and one in Rust over ffi.rs: the compilers check the
# types, and both print sizes and places. Last, edits of one side are tried: each has to be refused. Says nothing where all passes.
set -uo pipefail
cd "$(dirname "${BASH_SOURCE[0]}")/.." || exit 1
export LC_ALL=C.UTF-8
who=declarations
room=$PWD/target/declarations
header=bindings/c/grassmunch.h
ffi=bindings/rust/src/ffi.rs
# shellcheck source=tests/linking
. tests/linking
fresh_folder "$room"

# Lays a header and an ffi.rs side by side in the room, and says what differs.
# shellcheck disable=SC2086
differs() { # HEADER FFI
    cp "$1" "$room/grassmunch.h"
    cp "$2" "$room/ffi.rs"
    "$clang" $bare -std=c11 -fsyntax-only -Xclang -ast-print "$room/grassmunch.h" |
        awk -v c="$room/rows.h" -v rust="$room/rows.rs" -f tests/declarations/rows.awk || return
    diff <(grep -oE '^fn gm_[a-z_]+' "$room/rows.rs" | sort) <(grep -oE 'fn gm_[a-z_]+' "$room/ffi.rs" | sort) || return
    diff <(sed -n 's/^size .* = \(.*\);$/\1/p' "$room/rows.rs" | sort) \
        <(sed -n 's/^pub const \([A-Z_]*\):.*/\1/p' "$room/ffi.rs" | sort) || return
    cp tests/declarations/places.rs "$room/"
    rustc --edition 2024 -D warnings -o "$room/places-rust" "$room/places.rs" || return
    link_c "$room/places" tests/declarations/places.c -I"$room" -- || return
    diff <(run_linked "$room/places" | sort) <("$room/places-rust" | sort)
}
quiet 'the header and ffi.rs differ' differs "$header" "$ffi"
rows=$("$room/places-rust" | sort)
[ "$(grep -c '^fn gm_' "$room/rows.rs") $(grep -c '^|' <<<"$rows") $(grep -c '^GM_' <<<"$rows")" = '14 9 9' ] ||
    fail 'fourteen calls, nine structs and nine sizes were to be compared'
quiet 'the places in docs/HOUSE.md' diff <(grep '^|' <<<"$rows") <(grep -E '^\| .gm_[a-z_]+. \| [0-9]+ \| [a-z]+ 0, ' docs/HOUSE.md | sort)

# ---- no other file declares a call; the stand-in, which answers them, is checked against ffi.rs as it is built
others=$(grep -rlE --include='*.[chr]*' '^[a-z0-9_]+ \*?gm_[a-z_]+\(|fn gm_[a-z_]+\(' bench bindings reference tests |
    grep -vxE "$header|$ffi|bindings/rust/stand-in/src/(lib|roll).rs")
[ -z "$others" ] || fail "a call is declared again in: $others"

# ---- edits that must be refused
refuses() { # WHAT FILE SED-WORDS
    local what=$1 file=$2 said
    # the header's own asserts are left out: it is the comparison that has to see the edit
    sed '/^GM_ASSERT/,/;$/d' "$header" >"$room/edited.h"
    cp "$ffi" "$room/edited.rs"
    cp "$room/edited.${file##*.}" "$room/before"
    sed -i -E "$3" "$room/edited.${file##*.}"
    ! cmp -s "$room/before" "$room/edited.${file##*.}" || fail "an edit changes nothing: $what"
    ! said=$(differs "$room/edited.h" "$room/edited.rs" 2>&1) || fail "not refused: $what"
    ! grep -q 'grassmunch.h:.*error' <<<"$said" || fail "an edit of the header is no C: $what"
}
refuses 'a field more, in padding' "$header" 's/^    uint64_t length;/    uint8_t more;&/'
refuses 'a field less' "$header" '/^    bool helps;/d'
refuses 'two fields exchanged' "$header" '/^    bool waits;/,/^}/ { s/number;/place;/; s/sender;/number;/; s/place;/sender;/ }'
refuses 'a field of another type' "$header" 's/^    bool waits;/    uint8_t waits;/'
refuses 'a longer field' "$header" 's/^    uint8_t request\[11\];/    uint8_t request[12];/'
refuses 'two fields of totals exchanged' "$header" '/^    uint32_t moisture;  /d; s/^(    uint32_t )measured;.*/&\n\1moisture;/'
refuses 'a field more of a line' "$header" 's/^    uint32_t conductivity;/&\n    uint32_t more;/'
refuses 'a parameter more' "$header" 's/gm_length\(uint32_t n, /&uint32_t f, /'
refuses 'a wider parameter' "$header" 's/(gm_receive\(.*)uint32_t house/\1uint64_t house/'
refuses 'a book that is not const' "$header" 's/gm_waiting\(const uint8_t/gm_waiting(uint8_t/'
refuses 'a roll that is const' "$header" 's/gm_roll_strike\(gm_line/gm_roll_strike(const gm_line/'
refuses 'a wider lot' "$header" 's/(gm_roll_strike\(.*)uint32_t lot/\1uint64_t lot/'
refuses 'totals by value' "$header" 's/(gm_roll_strike.*)gm_totals \*totals/\1gm_totals totals/'
refuses 'a call more' "$header" 's/^gm_read_answer gm_read\(/uint8_t gm_more(uint32_t n);\n&/'
refuses 'a call more, whose name begins as another' "$header" 's/^gm_read_answer gm_read\(/gm_written gm_read_more(uint8_t n);\n&/'
refuses 'a call less' "$header" '/^gm_outcome gm_receive_entry\(/d'
refuses 'one house more' "$header" 's/GM_MOST_HOUSES = /&1 + /'
refuses 'a longer book' "$header" 's/GM_LONGEST_BOOK = /&1 + /'
refuses 'a size more' "$header" 's/^    GM_MESSAGE_BYTES = /    GM_MORE = 1,\n&/'
refuses 'a field more, in padding' "$ffi" 's/^    pub length: u64,/    pub more: u8,\n&/'
refuses 'a narrower field' "$ffi" 's/^    pub season: u32,/    pub season: u16,/'
refuses 'a struct in any order' "$ffi" 's/^#\[repr\(C\)\]$//'
refuses 'a wider parameter' "$ffi" 's/\<house: u32/house: u64/'
refuses 'a call more' "$ffi" 's/^    pub fn gm_read\(/    pub fn gm_more(n: u32) -> u8;\n&/'
refuses 'two fields of a line exchanged' "$ffi" \
    '/^pub struct Line/,/^}/ { s/moisture:/place:/; s/conductivity:/moisture:/; s/place:/conductivity:/ }'
refuses 'a wider lot' "$ffi" 's/\<lot: u32\) -> u8/lot: u64) -> u8/'
refuses 'one line more' "$ffi" 's/^pub const MOST_LINES: usize = /&1 + /'
refuses 'one house more' "$ffi" 's/^pub const MOST_HOUSES: u32 = /&1 + /'
refuses 'a size more' "$ffi" 's/^pub const MESSAGE_BYTES/pub const MORE: u32 = 1;\n&/'
