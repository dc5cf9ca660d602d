#!/usr/bin/env bash
# One version in the header, the Rust crate and the changes; and one sentence for each answer in the header and the Rust crate. Says
# nothing where all is so.
set -uo pipefail
cd "$(dirname "${BASH_SOURCE[0]}")/.." || exit 1
export LC_ALL=C.UTF-8
header=bindings/c/grassmunch.h
crate=bindings/rust
who=version
# shellcheck source=tests/shared
. tests/shared
# shellcheck source=.ci/shared
. .ci/shared

part() { sed -n "s/^#define GM_VERSION_$1 //p" "$header"; }

version=$(version_here)
[[ $version =~ ^[0-9]+\.[0-9]+\.[0-9]+$ ]] || wrong "$header: GM_VERSION is no version: '$version'"
[ "$version" = "$(part MAJOR).$(part MINOR).$(part PATCH)" ] || wrong "$header: GM_VERSION is not its three numbers"
for file in "$crate/Cargo.toml" "$crate/Cargo.lock"; do
    found=$(sed -n '/^name = "grassmunch"$/,$s/^version = "\(.*\)"$/\1/p' "$file" | head -n 1)
    [ "$found" = "$version" ] || wrong "$file has $found, the header $version"
done
found=$(sed -n 's/^## \([^ ]*\).*/\1/p' CHANGELOG.md | head -n 1)
[ "$found" = "$version" ] || wrong "CHANGELOG.md begins with $found, the header is $version"

# The header's and the crate's sentences, in the order of the answers.
in_header=$(sed -n '/gm_answer_text/,/^}/s/.*return "\(.*\)";/\1/p' "$header" | grep -v '^accepted$')
in_crate=$(sed -n '/pub fn sentence/,/^    }/p' "$crate/src/refusal.rs" | grep -o '"[^"]*"' | tr -d '"')
[ "$(wc -l <<<"$in_header")" -ge 19 ] || wrong "$header: only these sentences were found: $in_header"
[ "$in_header" = "$in_crate" ] || wrong "sentences that differ: $(diff <(echo "$in_header") <(echo "$in_crate") | grep '^[<>]')"
exit "$bad"
