#!/usr/bin/env bash
# No line of Rattle and antt is over 140 characters, and no proof file keeps what rt prints while one works. That files are in rt's layout
# rt ci sees.
set -uo pipefail
cd "$(dirname "${BASH_SOURCE[0]}")/.." || exit 1
export LC_ALL=C.UTF-8
who=style
# shellcheck source=tests/shared
. tests/shared

# Nothing was found; else the first ten lines of it are shown.
none() { # WHAT FOUND
    [ -z "$2" ] || wrong "$1:
$(head -n 10 <<<"$2")"
}

none 'over 140 characters' "$(find crates -name out -prune -o \( -name '*.rt' -o -name '*.antt' \) -exec grep -nHE '^.{141,}$' {} + | cut -c1-100)"
none 'a place or an import that was printed for the author' \
    "$(find crates \( -name 'Proof.antt' -o -name 'Answers.antt' -o -name 'Invariants.antt' \) -exec grep -nHE '^-- src/|^use .* as lts$' {} +)"
exit "$bad"
