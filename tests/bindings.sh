#!/usr/bin/env bash
# What a house links: the header as C11 and C++17, the C examples and each answer over the archive, the Rust crate and its examples.
#
# Rust is native: it links bindings/rust/stand-in on every machine, and on x86-64 the archive too. Both examples of a house write one
# account and the same books, to the byte; both with a roll another account, and the same books and rolls. Says nothing where all passes.
set -uo pipefail
cd "$(dirname "${BASH_SOURCE[0]}")/.." || exit 1
export LC_ALL=C.UTF-8
who=bindings
room=$PWD/target/bindings
header='#include "grassmunch.h"'
# shellcheck source=tests/linking
. tests/linking
need_archive
mkdir -p "$room"

# ---- the header
# shellcheck disable=SC2086
check_header() { # LANGUAGE STANDARD COMPILER...
    local language=$1 standard=$2
    shift 2
    quiet "the header, $standard by $1" "$@" -x "$language" -std="$standard" $strict -Ibindings/c -fsyntax-only - <<<"$header"
}
# shellcheck disable=SC2086
check_header c c11 "$clang" $bare
# shellcheck disable=SC2086
check_header c++ c++17 "$clang" $bare -Wold-style-cast
header+='
int main() {
    gm_declaration lot = {77, 40, 800, 17.5F, 0.5F};
    uint8_t declaration[GM_DECLARATION_BYTES], sheet[GM_SHEET_BYTES];
    gm_declaration_to_bytes(declaration, &lot);
    gm_declaration_from_bytes(&lot, declaration);
    gm_sheet_to_bytes(sheet, 20, gm_gate_at_most(20.0F), gm_gate_between(0.1F, 0.8F));
    gm_line roll[1] = {gm_roll_line(declaration)}, line = roll[0];
    gm_totals totals = gm_empty_totals();
    uint8_t bytes[GM_TOTALS_BYTES];
    gm_line_to_bytes(declaration, &line);
    gm_totals_to_bytes(bytes, &totals);
    gm_totals_from_bytes(&totals, bytes);
    if (gm_roll_test(roll, 1, &totals) != gm_roll_insert(roll, 1, &totals, line) || gm_roll_strike(roll, 1, &totals, 77) != 0) {
        return 1;
    }
    return gm_answer_text(gm_judge(sheet, sizeof sheet, declaration)) == nullptr;
}'
# shellcheck disable=SC2086
check_header c++ c++17 "$clang" $bare -Wold-style-cast
header='#include "grassmunch.h"'

# the machine's own compilers, where it has them, with their own headers
if cc -fsyntax-only -x c - <<<'#include <unistd.h>' 2>/dev/null; then
    check_header c c11 cc
    for source in bindings/c/*.c; do
        # shellcheck disable=SC2086
        quiet "$source by cc" cc -std=c11 $strict -fsyntax-only "$source"
    done
fi
if c++ -fsyntax-only -x c++ - <<<'#include <stdint.h>' 2>/dev/null; then
    check_header c++ c++17 c++
fi

# ---- C over the archive
build_c() { # NAME [FLAGS...]
    local name=$1
    shift
    link_c "$room/$name" "bindings/c/$name.c" "$@" -- "$archive"
}

run_c() { # NAME [WORDS...]
    local name=$1
    shift
    run_linked "$room/$name" "$@"
}

build_c every_answer -ffast-math
quiet 'an answer of the archive, to a house that is built with -ffast-math' run_c every_answer
build_c every_answer
quiet 'an answer of the archive' run_c every_answer
build_c example_house
fresh_folder "$room/books-c"
run_c example_house "$room/books-c" >"$room/account-c" || fail 'the C example ended with an error'
quiet 'the account of the C example' diff bindings/example_house.stdout "$room/account-c"
build_c example_roll
fresh_folder "$room/rolls-c"
run_c example_roll "$room/rolls-c" >"$room/account-rolls-c" || fail 'the C example with a roll ended with an error'
quiet 'the account of the C example with a roll' diff bindings/example_roll.stdout "$room/account-rolls-c"

# ---- the Rust crate
unsafe_files=$(grep -lrw --include='*.rs' unsafe bindings/rust/src bindings/rust/examples)
[ "$unsafe_files" = bindings/rust/src/ffi.rs ] || fail "unsafe stands in: $unsafe_files"

export RUSTFLAGS='-D warnings' RUSTDOCFLAGS='-D warnings'

in_crate() { (cd bindings/rust && "$@"); }

# A folder with an archive, and a stamp as ./build writes it.
lay() { # FOLDER LIBRARY
    mkdir -p "$1"
    cp "$2" "$1/libgrassmunch.a"
    bash .ci/archive stamp "$2" >"$1/grassmunch.stamp"
}

try_rust() { # WHAT LIBRARY
    local what=$1 house end
    lay "$room/lib-$what" "$2"
    export CARGO_TARGET_DIR=$room/rust-$what GRASSMUNCH_LIB=$room/lib-$what
    quiet "the Rust crate over the $what" in_crate cargo build --offline --locked --lib --examples
    quiet "a doc test over the $what" in_crate cargo test --offline --locked --doc
    fresh_folder "$room/books-$what"
    "$room/rust-$what/debug/examples/house" "$room/books-$what" >"$room/account-$what" || fail "the Rust example over the $what"
    quiet "the account of the Rust example over the $what" diff bindings/example_house.stdout "$room/account-$what"
    for house in 0 1 2 3; do
        quiet "the file of house $house, C and Rust over the $what" \
            cmp "$room/books-c/house-$house.book" "$room/books-$what/house-$house.book"
    done
    fresh_folder "$room/rolls-$what"
    "$room/rust-$what/debug/examples/roll" "$room/rolls-$what" >"$room/account-rolls-$what" ||
        fail "the Rust example with a roll over the $what"
    quiet "the account of the Rust example with a roll over the $what" diff bindings/example_roll.stdout "$room/account-rolls-$what"
    for house in 0 1 2 3; do
        for end in book roll; do
            quiet "the $end of house $house that keeps a roll, C and Rust over the $what" \
                cmp "$room/rolls-c/house-$house.$end" "$room/rolls-$what/house-$house.$end"
        done
    done
}

build_stand_in
try_rust stand-in "$stand_in"
if [ "$machine" = x86_64 ]; then
    try_rust archive "$archive"
fi
quiet 'the pages of the Rust crate' in_crate cargo doc --offline --locked --no-deps

# ---- an archive that is not for this build: a clear line, and no program
refuses() { # LINE CARGO-WORDS...
    local line=$1 said
    shift
    if said=$(in_crate cargo check --offline --locked --lib "$@" 2>&1); then
        fail "the Rust crate was built, where it should say: $line"
    fi
    grep -qF -- "$line" <<<"$said" || fail "the Rust crate should say: $line; and said: $said"
}

export CARGO_TARGET_DIR=$room/rust-refused GRASSMUNCH_LIB=$room/lib-refused
rm -rf "$GRASSMUNCH_LIB"
refuses "libgrassmunch.a can't be read"
lay "$GRASSMUNCH_LIB" "$room/lib-stand-in/libgrassmunch.a"
other=aarch64
[ "$machine" = x86_64 ] || other=x86_64
refuses "libgrassmunch.a is for $machine, and this is built for $other" --target "$other-unknown-linux-gnu"
sed -i 's/^version .*/version 1.0.0/' "$GRASSMUNCH_LIB/grassmunch.stamp"
refuses 'the archive is version 1.0.0, and this crate is'
lay "$GRASSMUNCH_LIB" "$room/lib-stand-in/libgrassmunch.a"
sed -i 's/^sources .*/sources 0/' "$GRASSMUNCH_LIB/grassmunch.stamp"
refuses 'libgrassmunch.a is stale'
lay "$GRASSMUNCH_LIB" "$room/lib-stand-in/libgrassmunch.a"
printf '\n' >>"$GRASSMUNCH_LIB/libgrassmunch.a"
refuses 'libgrassmunch.a is stale'
rm "$GRASSMUNCH_LIB/grassmunch.stamp"
said=$(in_crate cargo check --offline --locked --lib 2>&1) || fail "the Rust crate over an archive with no stamp: $said"
grep -qF 'grassmunch.stamp is not there' <<<"$said" || fail 'the Rust crate does not say that the archive has no stamp'
