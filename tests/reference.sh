#!/usr/bin/env bash
# The tests of reference/, document 01 in ordinary Rust: says nothing where they pass, and all they said where one fails.
set -uo pipefail
cd "$(dirname "${BASH_SOURCE[0]}")/.." || exit 1
who=reference
# shellcheck source=tests/shared
. tests/shared
cargo_in rust reference test --release
