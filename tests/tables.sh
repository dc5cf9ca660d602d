#!/usr/bin/env bash
# The tables of numbers in the pages are the rules' formulas, for every number of houses that there may be: the wall card in docs/RULES.md,
# the counts and the lengths in docs/HOUSE.md, and the lengths in docs/BOOK.md. Says nothing where all is so.
set -uo pipefail
cd "$(dirname "${BASH_SOURCE[0]}")/.." || exit 1
export LC_ALL=C.UTF-8
who=tables
# shellcheck source=tests/shared
. tests/shared
most=$(sed -nE 's/^ *GM_MOST_HOUSES = ([0-9]+),$/\1/p' bindings/c/grassmunch.h)
[ -n "$most" ] || fail 'the header does not say how many houses there may be'

# The rows of the table with this head.
table() { # PAGE HEAD
    awk -v head="$2" '$0 == head { inside = 1; getline; next } inside && !/^\|/ { exit } inside' "$1"
}

# Rows by the formulas, as the pages write them: those of the wall card, of the counts, of the lengths, or of the lengths and slots of the
# n and S that are given.
rows() { # WHAT [N S]...
    awk -v most="$most" -v what="$1" -v sizes="${*:2}" '
        function tolerated(n, f) { return int((n - 2 * f - 1) / 3) }
        function quorum(n, f) { return int((n + tolerated(n, f) + 2) / 2) }
        function counts(n, f) { return 2 * f < n ? tolerated(n, f) ", " quorum(n, f) ", " (2 * tolerated(n, f) + f + 1) : 9 }
        function slots(n, s) { return s + s * n * (2 * n + 3) }
        function bytes(n, s) { return 31 + n + 21 * slots(n, s) }
        function told(x) { return x < 1000 ? x : int(x / 1000) sprintf(",%03d", x % 1000) }
        BEGIN {
            card["column"] = "|column|"; card["t"] = "|t|"; card["quorum"] = "|echo quorum|"
            for (n = 1; n <= most; n++) {
                card["column"] = card["column"] n "|"
                card["t"] = card["t"] tolerated(n, 0) "|"
                card["quorum"] = card["quorum"] quorum(n, 0) "|"
                row = "| " n " |"
                for (k = 0; k < 5; k++) if (what == "counts") row = row " " counts(n, k) " |"
                for (k = 1; k < 5; k++) if (what == "lengths") row = row " " told(bytes(n, k)) " |"
                if (what == "counts" || what == "lengths") print row
            }
            if (what in card) print card[what]
            count = split(sizes, size, " ")
            for (k = 1; k < count; k += 2)
                print "| " size[k] " | " size[k + 1] " | " told(slots(size[k], size[k + 1])) " | " told(bytes(size[k], size[k + 1])) " |"
        }'
}

same() { # WHAT FOUND WANTED
    [ -n "$2" ] || wrong "no table: $1"
    [ "$2" = "$3" ] || wrong "not the formulas: $1
$(diff <(echo "$2") <(echo "$3") | grep '^[<>]')"
}

same 'the wall card in docs/RULES.md' "$(grep -E '^\|(column|t|echo quorum)\|' docs/RULES.md)" "$(rows column && rows t && rows quorum)"
same 'the counts in docs/HOUSE.md' "$(table docs/HOUSE.md '| n | f = 0 | f = 1 | f = 2 | f = 3 | f = 4 |')" "$(rows counts)"
same 'the lengths in docs/HOUSE.md' "$(table docs/HOUSE.md '| n | S = 1 | S = 2 | S = 3 | S = 4 |')" "$(rows lengths)"
same 'the lengths in docs/BOOK.md' "$(table docs/BOOK.md '| n | S | slots | bytes |')" "$(rows some 1 1 4 1 4 4 16 1 16 4 "$most" 1 "$most" 4)"
exit "$bad"
