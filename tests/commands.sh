#!/usr/bin/env bash
# What a newcomer meets: ./show, ./build, .ci/run and tests/long say a clear line and end with an error where there is no kit, or another
# one, where target/ can't be written, where another run is at work, where a proof fails, and where the archive is of other sources.
#
# They run in a copy of the tree, with a stand-in for rt that proves nothing and says what rt says. Says nothing where all passes.
set -uo pipefail
cd "$(dirname "${BASH_SOURCE[0]}")/.." || exit 1
export LC_ALL=C.UTF-8
room=$(mktemp -d)
trap 'rm -rf "$room"' EXIT
tree=$room/tree
who=commands
# shellcheck source=tests/shared
. tests/shared

# ---- the tree and the stand-in

mkdir -p "$tree/tests" "$room/kit" "$room/none"
cp -R show build .ci bindings docs CHANGELOG.md "$tree/"
tar -cf - --exclude='crates/*/out' crates | tar -xf - -C "$tree"
printf '%s\n' '# five crates' 'card:' 'words:' 'lot: words' 'house staticlib: card lot' 'transcript: lot std' >"$tree/crates.txt"
cat >"$room/kit/rt" <<'END'
#!/usr/bin/env bash
# Says what rt says, and proves nothing.
crate=${PWD##*/}
case $1 in
version) echo "${KIT:-$(cat .ci/kit)}" && exit ;;
ci) echo "rt: ok; handles allowed: none; must-fail edits: 9 refused${BAD:-}; all of it" && echo '9 passed, 0 failed' && exit ;;
esac
if [ "$crate" = words ] && [ -n "${WAIT:-}" ]; then echo started >"$WAIT.started" && read -r _ <"$WAIT.go"; fi
if [ "$crate" = lot ] && [ -n "${FAILS:-}" ]; then echo 'fn lot::half: not proved' && echo 'logic=not-proved' && exit 1; fi
mkdir -p out
case "$crate $1" in
'transcript run') cat stdout && echo 'logic=proved functions=1' >&2 ;;
'house lib') echo an archive >out/libhouse.a ;;
*' lib') echo 'logic=proved functions=1' ;;
*) exit 2 ;;
esac
END
chmod +x "$room/kit/rt"

# All that the commands call, but no rt.
for tool in awk bash cat cp cut dirname env find flock git grep gzip head mkdir mktemp mv realpath rm sed sha256sum sort tail tar tee \
    touch tr uname wc xargs; do
    found=$(command -v "$tool") && ln -s "$found" "$room/none/$tool"
done

# Runs a command in the tree. `path` and `with` say with which rt; what it said is in $said, its status in $status.
path=$room/kit:$PATH with=()
try() { # COMMAND...
    said=$(cd "$tree" && env -u GRASSMUNCH_LOCK PATH="$path" "${with[@]}" "$@" 2>"$room/told")
    status=$?
    told=$(cat "$room/told")
}

# The last command ended with this status, and said this line.
ended() { # STATUS LINE WHAT
    [ "$status" -eq "$1" ] || wrong "$3: ended with $status, and not with $1"
    grep -qF -- "$2" <<<"$said$told" || wrong "$3: did not say '$2', but: $(tail -n 3 <<<"$said") $(tail -n 3 <<<"$told")"
}

keep() { mkdir -p "$tree/target/house" "$tree/target/staticlib" && touch "$tree/target/house/kept" "$tree/target/staticlib/kept"; }
kept() { # WHAT
    local folder
    for folder in house staticlib; do
        [ -e "$tree/target/$folder/kept" ] || wrong "$1: something in target/$folder was deleted"
    done
}

commands=('./show' './show season' './build' './build dist' '.ci/run')

# ---- no kit, another kit, no room

each() { # STATUS LINE WHAT
    local command
    for command in "${commands[@]}"; do
        # shellcheck disable=SC2086
        try $command
        ended "$1" "$2" "$command, $3"
    done
}

keep
path=$room/none
each 1 "'rt version' prints '$(cat .ci/kit)'" 'no kit'
path=$room/kit:$PATH with=('KIT=rattle-kit-4 logic 0')
each 1 "pinned to the kit '$(cat .ci/kit)', and here is 'rattle-kit-4 logic 0'" 'another kit'
kept 'no kit, or another'
with=()
rm -rf "$tree/target" && touch "$tree/target"
each 1 "target/ can't be written here" 'target is a file'
rm "$tree/target"

# ---- words

for command in './show' './build'; do
    try "$command" --help
    ended 0 "$command " "$command --help"
    [ -z "$told" ] || wrong "$command --help says something beside"
    try "$command" nonsense
    ended 2 "$command " "$command nonsense"
    try "$command" dist season
    ended 2 "$command " "$command with two words"
done
for words in abc x3 3x -3 '5 abc' ''; do
    # shellcheck disable=SC2086
    said=$(bash tests/long $words 2>&1)
    status=$? told=''
    ended 2 'tests/long SECONDS [SEED]' "tests/long $words"
done

# ---- two runs at once

mkfifo "$room/wait.started" "$room/wait.go"
(cd "$tree" && env -u GRASSMUNCH_LOCK PATH="$path" WAIT="$room/wait" GRASSMUNCH_PACE=1 ./show >"$room/shown" 2>&1) &
first=$!
if timeout 20 cat "$room/wait.started" >/dev/null; then
    keep
    each 1 'another run (./show, ./build or .ci/run) is at work in this tree' 'two at once'
    kept 'two at once'
    sleep 1.2
    timeout 20 tee "$room/wait.go" <<<go >/dev/null
else
    wrong './show did not come to rt'
fi
wait "$first" || wrong "the first of two runs failed: $(cat "$room/shown")"
grep -q '^show: 0 min [1-9][0-9]* s: 0 of 3; left: words lot transcript$' "$room/shown" || wrong './show did not say what is left while rt is at work'

# ---- what ./show shows

try ./show
ended 0 'show: 1 of 3: words proved (' './show'
ended 0 'show: 3 of 3: transcript proved (' './show'
[ "$(head -n 1 <<<"$said")" = '== What the proved calls did (all)' ] || wrong './show has no headline'
scenes=$(awk -v RS= 'END { print NR - 1 }' crates/transcript/stdout)
case $(tail -n 1 <<<"$said") in
"== Seen: $scenes scenes,"*'Read next: docs/RULES.md'*) ;;
*) wrong "./show ends with: $(tail -n 1 <<<"$said")" ;;
esac
head -n 3 crates/transcript/stdout >"$room/intro"
cp "$room/intro" "$room/parts"
for part in cases season errors; do
    try ./show "$part"
    ended 0 'Read next: docs/' "./show $part"
    sed '1,2d;$d' <<<"$said" | sed '$d' >"$room/part"
    head -n 3 "$room/part" | cmp -s - "$room/intro" || wrong "./show $part does not begin with how to read it"
    sed 1,3d "$room/part" >>"$room/parts"
done
cmp -s "$room/parts" crates/transcript/stdout || wrong 'the three parts of ./show are not the whole'

# ---- a proof that fails

with=(FAILS=1)
keep
try ./build
ended 1 'logic=not-proved' './build, a proof fails'
ended 1 'build: not proved (target/build.log has all that rt said)' './build, a proof fails'
[ ! -e "$tree/target/house" ] || wrong './build left something, and a proof failed'
try ./show
ended 1 'show: not proved (target/show.log has all that rt said)' './show, a proof fails'
with=()

# ---- the archive and its stamp

try ./build
ended 0 'build: 1 of 4: card proved (' './build'
ended 0 'build: 4 of 4: house proved (' './build'
for file in libgrassmunch.a grassmunch.h grassmunch.stamp; do
    [ -s "$tree/target/house/$file" ] || wrong "./build left no $file"
done
stale() { # WHAT
    try .ci/archive
    ended 1 'libhouse.a is stale' "$1"
    try .ci/archive check target/house
    ended 1 'libgrassmunch.a is stale' "$1"
    try .ci/pack target/dist/any.tar.gz
    ended 1 'libhouse.a is stale' "$1, packing"
}
fresh() { # WHAT
    try .ci/archive
    ended 0 '' "$1"
    try .ci/archive check target/house
    ended 0 '' "$1"
}
fresh 'an archive as built'
for source in crates/lot/src/lib.rt crates/season/specs/Claims.antt crates/lot/proofs/added.antt crates.txt; do
    [ ! -e "$tree/$source" ] || cp "$tree/$source" "$room/source"
    echo >>"$tree/$source"
    stale "$source changed"
    if [ -e "$room/source" ]; then mv "$room/source" "$tree/$source"; else rm "$tree/$source"; fi
done
fresh 'the sources as they were'
sed -i 's/^\(#define GM_VERSION "\).*"/\19.9.9"/' "$tree/bindings/c/grassmunch.h"
stale 'another version'
cp bindings/c/grassmunch.h "$tree/bindings/c/grassmunch.h"
echo other >"$tree/target/house/libgrassmunch.a"
echo other >"$tree/target/staticlib/libhouse.a"
stale 'another archive beside the stamp'
rm "$tree/target/staticlib/libhouse.a.stamp"
try .ci/archive
ended 1 'libhouse.a is stale' 'an archive with no stamp'
try ./build
fresh 'built again'

# ---- the gate

touch "$tree/target/staticlib/earlier"
echo 'exit 1' >"$tree/tests/part.sh"
echo 'echo compared' >"$tree/tests/compare.sh"
try .ci/run
ended 1 'ci: tests/part.sh failed' '.ci/run, a test fails'
[ ! -e "$tree/target/staticlib/earlier" ] || wrong '.ci/run left what an earlier run made'
[ "$(tail -n 1 <<<"$said")" = 'ci: tests/part.sh failed' ] || wrong '.ci/run says something after a test that failed'
echo 'bash .ci/archive && sleep 0.2 && echo later' >"$tree/tests/part.sh"
echo 'echo sooner' >"$tree/tests/second.sh"
try .ci/run
ended 0 'rt: ok; ' '.ci/run'
[ "$(tail -n 1 <<<"$said")" = '9 passed, 0 failed' ] || wrong '.ci/run does not end with the last line of rt ci'
[ "$(grep -A 1 '^ci: tests' <<<"$said" | grep -cx -e 'ci: tests/part.sh' -e later -e 'ci: tests/second.sh' -e sooner)" = 4 ] ||
    wrong '.ci/run does not tell what each test said below its name'
echo 'exit 1' >"$tree/tests/compare.sh"
try .ci/run
ended 1 'ci: tests/compare.sh failed' '.ci/run, the comparison fails'
echo 'echo compared' >"$tree/tests/compare.sh"
with=('BAD=, 1 bad')
try .ci/run
ended 1 'ci: must-fail edits are bad' '.ci/run, an edit is bad'
with=()

# ---- a document that is not there

said=$(DOCUMENTS=$room bash tests/trace.sh 2>&1)
status=$? told=''
ended 0 "trace: document 01 is not in $room" 'tests/trace.sh without document 01'
exit "$bad"
