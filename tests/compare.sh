#!/usr/bin/env bash
# The proved library against document 01 in ordinary Rust, call by call: says how many calls were compared, and all that was said where one
# differs. A driver works for each processor, or as many as COMPARE_DRIVERS says; COMPARE_TIMES=1 shows each check with its calls and its
# time. With a word, as in `tests/compare.sh roll`, those checks alone run that have it in their name; the gate gives none.
set -uo pipefail
cd "$(dirname "${BASH_SOURCE[0]}")/.." || exit 1

unset COMPARE_CHECKS
[ $# -eq 0 ] || export COMPARE_CHECKS=$1
bash tests/compare/build || exit 1
mapfile -t words <target/driver/words
target/rust/release/compare gate "${words[@]}"
status=$?
if [ "$status" -ne 0 ]; then
    echo 'compare: the library and the reference differ, or a check failed'
fi
exit "$status"
