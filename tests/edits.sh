#!/usr/bin/env bash
# Each must-fail edit was refused because a fact fails, and not because a name is missing or a limit was met: reads what rt ci said of each
# (target/log/rt-ci, which .ci/run leaves). Says nothing where all is so.
set -uo pipefail
cd "$(dirname "${BASH_SOURCE[0]}")/.." || exit 1
export LC_ALL=C.UTF-8
who=edits
# shellcheck source=tests/shared
. tests/shared
log=target/log/rt-ci
[ -f "$log" ] || fail "there is no $log: .ci/run leaves it"

for edit in crates/*/must-fail/*.edit; do
    crate=${edit#crates/} crate=${crate%%/*} name=${edit##*/}
    line=$(grep -F -m 1 "must-fail $crate/$name: " "$log")
    case $line in
    '') wrong "$edit was not tried" ;;
    *': refused, as it must be: '*)
        if grep -qE "is not in scope|has no \`|has no field|cannot name" <<<"$line"; then
            wrong "$edit is refused for a name, and not for a fact: ${line#*: }"
        fi
        ;;
    *) wrong "$edit: ${line#*: }" ;;
    esac
done
exit "$bad"
