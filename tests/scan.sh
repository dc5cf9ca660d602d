#!/usr/bin/env bash
# The fast scan of bench/, beside which receiving is measured, says of every book what the reference's test of legality says
# (tests/scan/main.rs). Last, edits of the scan are tried: each has to be refused. Says nothing where all passes.
set -uo pipefail
cd "$(dirname "${BASH_SOURCE[0]}")/.." || exit 1
who=scan
room=$PWD/target/scan
# shellcheck source=tests/shared
. tests/shared
fresh_folder "$room"
cp tests/scan/main.rs "$room/"
cargo_in rust reference build --release

build() { # RUSTC-WORDS...
    rustc --edition 2021 -C opt-level=2 "$@" --extern "reference=target/rust/release/libreference.rlib" -o "$room/scan" "$room/main.rs"
}
cp bench/scan.rs "$room/"
quiet 'bench/scan.rs' build -D warnings -F unsafe_code
quiet 'the fast scan and the reference differ' "$room/scan"

# ---- edits that must be refused
refuses() { # WHAT SED-WORDS
    sed -E "$2" bench/scan.rs >"$room/scan.rs"
    ! cmp -s bench/scan.rs "$room/scan.rs" || fail "an edit changes nothing: $1"
    quiet "an edit is no Rust: $1" build --cap-lints allow
    ! "$room/scan" 2>"$room/said" || fail "not refused: $1"
    grep -q 'n = .*, slot ' "$room/said" || fail "refused, but by no book: $1"
}
refuses 'the presence byte is not gathered' 's/word\(slot, 0\)/word(slot, 1)/'
refuses 'byte 8 is not gathered' 's/word\(slot, 8\)/word(slot, 9)/'
refuses 'the last byte is not gathered' 's/word\(slot, 13\)/word(slot, 12)/'
refuses 'a word is not gathered' 's/middle \| word\(slot, 8\)/middle/'
refuses 'presence 2 is full' 's/slot\[0\] == 1/slot[0] > 0/'
refuses 'presence 3 is full' 's/slot\[0\] == 1/slot[0] \& 1 == 1/'
refuses 'the first turn is skipped' 's/^( *)\.fold\(\[0; 3\]/\1.skip(1)&/'
refuses 'the last turn is skipped' 's/^( *)\.iter\(\)$/&.rev().skip(1)/'
refuses 'the rest is skipped' 's/rest\.iter\(\)\.fold\(strays, gather\)/strays/'
refuses 'the rest alone is looked at' 's/fold\(strays, gather\) ==/fold([0; 3], gather) ==/'
