#!/usr/bin/env bash
# No call copies a book or a roll, and nothing here keeps one on a stack. The archive calls the C library's memory functions at most and has
# no variable, so that it could copy one to the stack alone; and there each call, with each of its answers, goes a few hundred bytes deep,
# as deep with four houses or lines as with the most (tests/memory/memory.c). Beside that a call touches no byte before or behind the book,
# the roll and the totals, and writes none where it is to change none. And no function of the C sources here has a large frame.
#
# Last, wrongs are planted: each has to be refused. Says nothing where all passes; target/memory/depths has the depths.
set -uo pipefail
cd "$(dirname "${BASH_SOURCE[0]}")/.." || exit 1
export LC_ALL=C.UTF-8
who=memory
room=$PWD/target/memory
# shellcheck source=tests/linking
. tests/linking
need_archive
fresh_folder "$room"
# a planted wrong may end its program
ulimit -c 0

# ---- the archive alone: it has no variable and nothing that runs by itself
memory=$(printf -- '--defsym=%s=0 ' memset memcpy memmove memcmp bcmp)
# shellcheck disable=SC2086
alone() { # LINKER-WORDS...
    "$tools/bin/ld.lld" -m elf_x86_64 -shared --no-undefined $memory --whole-archive "$@" -o "$room/alone.so" -Map="$room/alone.map" || return
    ! grep -E '\.o\)?:\(\.(data|bss|tdata|tbss|init|fini)' "$room/alone.map" | grep -v '(\.data\.rel\.ro'
}
quiet 'the archive has variables, or calls more than memory functions' alone "$archive"
grep -q '\.o):(\.text' "$room/alone.map" || fail 'the map of the archive has no code'

# ---- each call on a painted stack, with the book, the roll and the totals between walls
measured() { # DEPTHS LINKER-WORDS...
    local depths=$1 ended
    shift
    link_c "$room/program" tests/memory/memory.c -Ibindings/c -- -z now "$@"
    run_linked "$room/program" >"$depths"
    ended=$?
    [ "$ended" -ne 0 ] || return 0
    cat "$depths"
    [ "$ended" -le 128 ] || echo ' touches what it may not'
    return 1
}
quiet 'the memory of a call' measured "$room/depths" "$archive"

# ---- no function of the C sources here takes more stack than this
most=2048
small_frames() { # SOURCE [FLAGS...]
    # shellcheck disable=SC2086
    "$clang" $bare -std=c11 -O2 -fPIC -Ibindings/c -Wframe-larger-than="$most" -Werror "${@:2}" -c "$1" -o "$room/frames.o"
}
for source in bindings/c/*.c tests/driver/*.c tests/memory/memory.c; do
    quiet "a large frame in $source" small_frames "$source"
done

# ---- planted wrongs, in receiving and in receiving by entry, in entering and in striking
plant() { # CALL STATEMENTS [SOURCE LAST]
    # shellcheck disable=SC2086
    quiet "planting $2" "$clang" $bare -std=c11 $strict -O2 -fPIC -Ibindings/c -DCALL="$1" -DPLANTED="$2" -DLAST="${4:-}" \
        -c "tests/memory/${3:-planted.c}" -o "$room/planted.o"
}
refuses() { # WHAT SAID COMMAND...
    local what=$1 wanted=$2 said
    shift 2
    ! said=$("$@" 2>&1) || fail "not refused: $what"
    grep -qE -- "$wanted" <<<"$said" || fail "$what: refused, and not for '$wanted': $said"
}
refuses_in() { # CALL WHAT SAID STATEMENTS [SOURCE LAST]
    plant "$1" "$4" "${@:5}"
    refuses "$2, in $1" "$3" measured "$room/depths-planted" --wrap="$1" "$room/planted.o" "$archive"
}
refuses_call() { # WHAT SAID STATEMENTS; what is said begins with the line's name for the call
    refuses_in gm_receive "$1" "^receiving $2" "$3"
    refuses_in gm_receive_entry "$1" "^by entry $2" "$3"
}
refuses_roll() { # WHAT SAID STATEMENTS
    refuses_in gm_roll_insert "$1" "^entering $2" "$3" planted_roll.c gm_line
    refuses_in gm_roll_strike "$1" "^striking $2" "$3" planted_roll.c uint32_t
}
refuses_alone() { # WHAT SAID STATEMENTS
    plant gm_receive_entry "$3"
    refuses "$1" "$2" alone --defsym=__real_gm_receive_entry=0 "$room/planted.o"
}
copied='memcpy(copy, book, sizeof copy); use(copy)'
refuses_call 'a copy of the book on the stack' '0, SEND: [0-9]{5,} not the same' "uint8_t copy[len]; $copied"
refuses_call 'a copy of a part that grows' '0, SEND: .* not the same' "uint8_t copy[len / 1000]; $copied"
refuses_call "a copy of an entry's slots" '0, SEND: .* not the same' "uint8_t copy[21 * (2 * (book == NULL ? 0 : book[0]) + 3)]; $copied"
refuses_call 'a copy that is not in bounds' '0, SEND: .* not in bounds' "uint8_t copy[2000]; $copied"
refuses_call 'a store on a refusal' '1, [^:]*: touches' 'lent[0] = lent[0]'
refuses_call 'a byte before the book' '0, SEND: touches' 'lent[-1]'
refuses_call 'a byte behind the book' '0, SEND: .*touches' 'lent[len]'
refuses_call 'another answer' '0, SEND: another answer' 'house++'
listed='memcpy(copy, roll, sizeof copy); use(copy)'
refuses_roll 'a copy of the roll on the stack' '0, the front: [0-9]{5,} not the same' "gm_line copy[len]; $listed"
refuses_roll 'a copy of the lines in use' '0, the front: .* not the same' "gm_line copy[totals->lines > len ? 1 : totals->lines]; $listed"
refuses_roll 'a copy of a part that grows' '0, the front: .* not the same' "uint8_t copy[1 + len / 100]; $listed"
refuses_roll 'a copy that is not in bounds' '0, the front: .* not in bounds' 'uint8_t copy[2000]; memcpy(copy, totals, 24); use(copy)'
refuses_roll 'a store to the roll on a refusal' '20, [^:]*: touches' 'lines[0] = lines[0]'
refuses_roll 'a store to the totals on a refusal' '20, [^:]*: touches' 'sums[5] = sums[5]'
refuses_roll 'a number before the roll' '0, the front: touches' 'lines[-1]'
refuses_roll 'a number behind the roll' '0, the front: .*touches' 'lines[5 * len]'
refuses_roll 'a number before the totals' '0, the front: touches' 'sums[-1]'
refuses_roll 'a number behind the totals' '0, the front: .*touches' 'sums[6]'
refuses_roll 'another answer' '0, the front: another answer' 'len = 0'
refuses_alone 'a variable' 'planted.o:\(\.bss' 'static size_t kept; kept = len; use(&kept)'
refuses_alone 'a variable that is set' 'planted.o:\(\.data' 'static size_t kept = 1; kept += len; use(&kept)'
refuses_alone 'an allocation' 'undefined symbol: malloc' 'use(malloc(len))'
refuses 'a large frame' 'stack frame size' small_frames tests/memory/planted.c -DCALL=gm_receive_entry \
    -DPLANTED="uint8_t copy[GM_LONGEST_BOOK]; $copied"
