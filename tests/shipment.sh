#!/usr/bin/env bash
# What `./build dist` packs: twice the same bytes, with all that a house needs; unpacked elsewhere, its sums are right and its C and Rust
# examples, of a house and with a roll, build over it and write their accounts. Says nothing where all passes.
set -uo pipefail
cd "$(dirname "${BASH_SOURCE[0]}")/.." || exit 1
export LC_ALL=C.UTF-8
who=shipment
room=$PWD/target/shipment
# shellcheck source=tests/linking
. tests/linking
fresh_folder "$room"

# ---- the same bytes, at another time and with other rights
quiet 'packing' bash .ci/pack "$room/one.tar.gz"
sleep 1
(umask 077 && TZ=Asia/Tokyo quiet 'packing again' bash .ci/pack "$room/other.tar.gz") || exit 1
quiet 'packed twice, and not the same bytes' cmp "$room/one.tar.gz" "$room/other.tar.gz"

# ---- what is in it
elsewhere=$(mktemp -d)
trap 'rm -rf "$elsewhere"' EXIT
quiet 'unpacking' tar -xzf "$room/one.tar.gz" -C "$elsewhere"
top=$(echo "$elsewhere"/grassmunch-*)
for file in README.md CHANGELOG.md SHA256SUMS docs/HOUSE.md docs/BOOK.md docs/RULES.md include/grassmunch.h lib/libgrassmunch.a \
    lib/grassmunch.stamp lib/pkgconfig/grassmunch.pc rust/Cargo.toml rust/build.rs rust/src/lib.rs examples/example_house.c \
    examples/example_roll.c; do
    [ -s "$top/$file" ] || fail "no $file in it"
done
(cd "$top" && quiet 'the sums' sha256sum --strict --quiet -c SHA256SUMS) || exit 1
[ "$(wc -l <"$top/SHA256SUMS")" -eq "$(find "$top" -type f ! -name SHA256SUMS | wc -l)" ] || fail 'a file has no sum'
quiet 'the archive in it' cmp "$top/lib/libgrassmunch.a" "$archive"
quiet 'the header in it' cmp "$top/include/grassmunch.h" bindings/c/grassmunch.h
grep -qxF "kit $(cat .ci/kit)" "$top/lib/grassmunch.stamp" || fail 'the stamp does not name the kit'
if commit=$(git rev-parse HEAD 2>/dev/null); then
    grep -q "^commit $commit" "$top/lib/grassmunch.stamp" || fail 'the stamp does not name the commit'
fi

# ---- C: by the plain flags, by pkg-config where it is there, and by the machine's own compiler where it is one for x86-64
account() { # EXAMPLE WHAT COMMAND...
    local example=$1 what=$2
    shift 2
    fresh_folder "$room/books"
    "$@" "$room/books" >"$room/account" 2>"$room/said" || fail "$what ended with an error: $(cat "$room/said")"
    quiet "the account of $what" diff "$top/examples/$example.stdout" "$room/account"
}
try_c() { # WHAT FLAGS -- LIBRARIES
    local what=$1 example
    shift
    for example in example_house example_roll; do
        link_c "$room/example" "$top/examples/$example.c" "$@"
        account "$example" "$example.c by $what" run_linked "$room/example"
    done
}
try_c 'plain flags' -I"$top/include" -- -L"$top/lib" -lgrassmunch
if [ "$machine" = x86_64 ] && cc -fsyntax-only -x c - <<<'#include <unistd.h>' 2>/dev/null; then
    for example in example_house example_roll; do
        quiet "$example.c by cc" cc -std=c11 -I"$top/include" "$top/examples/$example.c" -L"$top/lib" -lgrassmunch -o "$room/native"
        account "$example" "$example.c by cc" "$room/native"
    done
fi
if command -v pkg-config >/dev/null; then
    export PKG_CONFIG_PATH=$top/lib/pkgconfig
    read -ra flags < <(pkg-config --cflags grassmunch)
    read -ra libraries < <(pkg-config --libs grassmunch)
    try_c pkg-config "${flags[@]}" -- "${libraries[@]}"
    [ "grassmunch-$(pkg-config --modversion grassmunch)" = "${top##*/}" ] || fail 'pkg-config has another version'
fi

# ---- Rust: the archive is found in ../lib; on another processor the stand-in lies there
unset GRASSMUNCH_LIB
if [ "$machine" != x86_64 ]; then
    build_stand_in
    cp "$stand_in" "$top/lib/libgrassmunch.a"
fi
export CARGO_TARGET_DIR=$room/rust
for example in house roll; do
    account "example_$example" "the Rust example $example" \
        cargo run --quiet --offline --locked --manifest-path "$top/rust/Cargo.toml" --example "$example" --
done
