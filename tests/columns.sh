#!/usr/bin/env bash
# The two columns of crates.txt hold: a crate above the line 'What is done' has no function and depends on none below it, so that nothing
# that is said rests on code.
set -uo pipefail
cd "$(dirname "${BASH_SOURCE[0]}")/.." || exit 1
export LC_ALL=C.UTF-8
who=columns
# shellcheck source=tests/shared
. tests/shared

said=$(sed '/^# What is done/,$d' crates.txt | sed -n 's/^\([a-z]*\)[a-z ]*:.*/\1/p')
coded=$(sed '1,/^# What is done/d' crates.txt | sed -n 's/^\([a-z]*\)[a-z ]*:.*/\1/p')
for column in "$said" "$coded"; do
    [ "$(wc -w <<<"$column")" -ge 5 ] || wrong 'crates.txt: a column has fewer than five crates'
done

for name in $said; do
    found=$(find "crates/$name/src" -name '*.rt' -exec grep -nHE '^[^/]*\bfn\b' {} +)
    [ -z "$found" ] || wrong "$name is said, and has a function: $found"
    for other in $(sed -n "s/^$name://p" crates.txt); do
        grep -qxF -- "$other" <<<"$said" || wrong "$name is said, and depends on $other, which is not"
    done
done
exit "$bad"
