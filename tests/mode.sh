#!/usr/bin/env bash
# No instruction of the archive obeys the processor's float mode: of those that touch a float register it has moves (of a whole register, of
# a part, or by a mask's bits), bitwise logic and whole-number work alone. Where no disassembler is on the machine it says so; that answers do not depend on the mode is run
# by the driver at every call that is compared (tests/driver/driver.c), and with denormal moistures on a roll by bindings/c/every_answer.c,
# with one or without.
set -uo pipefail
cd "$(dirname "${BASH_SOURCE[0]}")/.." || exit 1
who=mode
# shellcheck source=tests/shared
. tests/shared
need_archive
if ! objdump=$(disassembler); then
    echo 'mode: no disassembler on this machine, so the instructions of the archive were not looked at'
    exit 0
fi

listing=$("$objdump" -d --no-show-raw-insn "$archive")

# each call is among what is looked at
read -ra calls < <(sed -nE 's/^[a-z0-9_]+ (gm_[a-z_]+)\(.*/\1/p' bindings/c/grassmunch.h | xargs)
[ "${#calls[@]}" = 14 ] || fail "the header has not fourteen calls: ${calls[*]}"
for call in "${calls[@]}"; do
    grep -q "<$call>:" <<<"$listing" || fail "the disassembly has no $call"
done

# the names of the instructions that touch a float register, or are of the old float unit
found=$(awk '$1 ~ /^[0-9a-f]+:$/ && (/%[xyz]mm[0-9]/ || $2 ~ /^f/) { print $2 }' <<<"$listing" | sort -u)
grep -q '^mov' <<<"$found" || fail 'the disassembly was not read: it has no move of a float register'
others=$(grep -vE '^v?(mov[a-z0-9]+|(insert|extract)ps|blendvp[sd]|xorp[sd]|andn?p[sd]|orp[sd]|unpck[lh]p[sd]|shufp[sd]|p[a-z0-9]+)$' <<<"$found")
[ -z "$others" ] || fail "the archive has instructions that may obey the float mode: $others"
