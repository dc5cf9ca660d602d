#!/usr/bin/env bash
# The pages name files that are there, and names that those files have; and each sentence of the documents has its row in docs/TRACE.md.
#
# In a row, `a/path` in the last cell is a file of the repository, and each `name` after it, up to the next path, is found in that file.
# Elsewhere in a page a path is a file, and no more is asked; and a link leads to a file.
#
# docs/AMENDMENTS.md is applied first, row by row, to the sentences of document 01 and of the requests that have landed (docs/changes has
# a page for each). As they then stand, each sentence of document 01 is the first cell of a row, and these rows have nothing else; the
# first cells of a request's part, read one after the other, have each of its sentences; and what was replaced has no row. The documents
# are asked for only where they stand beside the repository, or where DOCUMENTS says.
#
# A row's second cell has the numbers of docs/RULES.md that its sentence became, or a dash where it asks for work and is no rule: each is
# there, and in the parts of document 01 that state rules it speaks of the same things; and each rule is named by some row. Where
# docs/HOUSE.md or docs/BOOK.md quotes a sentence with a number, a row has both.
set -uo pipefail
cd "$(dirname "${BASH_SOURCE[0]}")/.." || exit 1
export LC_ALL=C.UTF-8
documents=${DOCUMENTS:-../shared/documents}
room=$(mktemp -d)
trap 'rm -rf "$room"' EXIT
checked=0
who=trace
# shellcheck source=tests/shared
. tests/shared

# ---- files, and names in them

for page in README.md docs/TRACE.md docs/SEASON.md docs/RULES.md docs/AMENDMENTS.md docs/BOOK.md docs/DECISIONS.md; do
    if [ ! -f "$page" ]; then
        wrong "no page $page"
        continue
    fi
    number=0
    while IFS= read -r line; do
        number=$((number + 1))
        case $line in
        '|'*) row=yes last=${line%|*} tokens=${last##*|} ;;
        *) row=no tokens=$line ;;
        esac
        case $tokens in *'`'*) ;; *) continue ;; esac
        file=''
        while IFS= read -r token; do
            case $token in
            crates/* | docs/* | tests/* | bindings/* | reference/* | .ci/*)
                file=$token
                checked=$((checked + 1))
                if [ ! -e "$file" ]; then
                    wrong "$page:$number: no file $file"
                    file=''
                fi
                ;;
            *)
                [ "$row" = yes ] && [ -n "$file" ] && [ -f "$file" ] || continue
                checked=$((checked + 1))
                grep -qF -- "$token" "$file" || wrong "$page:$number: $file has no '$token'"
                ;;
            esac
        done < <(grep -o '`[^`]*`' <<<"$tokens" | tr -d '`')
    done <"$page"
done
[ "$checked" -ge 50 ] || wrong "only $checked names were checked"

# A link in a page leads to a file.
for page in README.md CHANGELOG.md docs/*.md docs/changes/*.md; do
    while IFS= read -r link; do
        [ -e "$(dirname "$page")/$link" ] || wrong "$page: a link leads to no file: $link"
    done < <(grep -oE '\]\([^)#: ]+\)' "$page" | sed 's/^](//; s/)$//')
done

# Each edit that the season's claims refuse is told on its page.
for edit in crates/{season,protocol,entry,runs,liar}/must-fail/*.edit; do
    grep -qE "^\|.*\`$(basename "$edit" .edit)\`" docs/SEASON.md || wrong "docs/SEASON.md: no row for $edit"
done

# ---- the sentences of the documents, and the rows of docs/TRACE.md

# The first cell of each row on standard input, with marks taken off; a table's head is left out.
firsts() {
    grep -E '^\|' | grep -vE '^\|(-| sentence \|| answer \|| clause \|)' | cut -d'|' -f2 | sed -E 's/`|\*\*//g; s/^ +//; s/ +$//'
}

# A request's part of docs/TRACE.md, its first cells read one after the other.
part() { # REQUEST
    sed -n "/^### $1 /,/^##/p" docs/TRACE.md | firsts | tr '\n' ' '
}

has() { # TEXT SENTENCE
    case " $1 " in *" $2 "*) true ;; *) false ;; esac
}

landed=$(cd docs/changes 2>/dev/null && ls 2026-*.md 2>/dev/null | sed 's/\.md$//')
sed '/^## Document 02/,$d' docs/TRACE.md | firsts >"$room/rows"
for request in $landed; do
    part "$request" >"$room/rows-$request"
    [ -s "$room/rows-$request" ] || wrong "docs/TRACE.md has no part $request"
done

# Document 01's sentences in one file, each landed request's in its own.
if [ -f "$documents/01-scope.md" ]; then
    bash tests/sentences "$documents/01-scope.md" >"$room/01"
else
    echo "trace: document 01 is not in $documents: no row was held to its sentences (DOCUMENTS says where it is)"
fi
if [ ! -f "$documents/02-change-requests.md" ]; then
    echo "trace: document 02 is not in $documents: no row was held to a request's sentences"
else
    for request in $landed; do
        sed -n "s/^\*\*$request [^*]*\*\* *//p" "$documents/02-change-requests.md" >"$room/text"
        [ -s "$room/text" ] || wrong "document 02 has no request $request"
        bash tests/sentences "$room/text" >"$room/02-$request"
    done
fi

# ---- the amendments

# Puts a sentence in another's place in the file that has it.
amend() { # STOOD STANDS
    local file
    for file in "$room"/01 "$room"/02-*; do
        [ -f "$file" ] && grep -qxF -- "$1" "$file" || continue
        while IFS= read -r sentence; do
            [ "$sentence" = "$1" ] && sentence=$2
            printf '%s\n' "$sentence"
        done <"$file" >"$room/text"
        mv "$room/text" "$file"
        return 0
    done
    return 1
}

: >"$room/stood"
: >"$room/stands"
: >"$room/requests"
while IFS='|' read -r _ request stood stands _; do
    read -r request <<<"$request"
    read -r stood <<<"$stood"
    read -r stands <<<"$stands"
    printf '%s\n' "$request" >>"$room/requests"
    [ "$stood" != "$stands" ] || wrong "docs/AMENDMENTS.md: nothing is replaced: $stood"
    printf '%s\n' "$stood" >>"$room/stood"
    printf '%s\n' "$stands" >>"$room/stands"
    [ -f "$room/01" ] || continue
    if [ "$stood" = - ]; then
        printf '%s\n' "$stands" >>"$room/01"
    else
        amend "$stood" "$stands" || wrong "docs/AMENDMENTS.md: no sentence stands so: $stood"
    fi
done < <(grep -E '^\| 2026-[0-9]+ \|' docs/AMENDMENTS.md | tr -d '`')
for request in $(sort -u "$room/requests"); do
    [ -f "docs/changes/$request.md" ] || wrong "docs/AMENDMENTS.md: $request has no page in docs/changes"
done

# ---- the rows against the sentences

# What was replaced has no row; what stands in its place has one.
while IFS= read -r sentence; do
    grep -qxF -- "$sentence" "$room/rows" && wrong "replaced, and still a row: $sentence"
done < <(grep -vxFf "$room/stands" "$room/stood")
while IFS= read -r sentence; do
    grep -qxF -- "$sentence" "$room/rows" || has "$(cat "$room"/rows-* 2>/dev/null)" "$sentence" || wrong "no row for: $sentence"
done < <(grep -vxFf "$room/stood" "$room/stands")

if [ -f "$room/01" ]; then
    while IFS= read -r sentence; do
        grep -qxF -- "$sentence" "$room/rows" || wrong "no row for: $sentence"
    done < <(grep -vxFf "$room/stands" "$room/01")
    while IFS= read -r sentence; do
        wrong "no sentence of document 01 as it stands: $sentence"
    done < <(grep -vxFf "$room/01" "$room/rows")
fi
for request in $landed; do
    [ -f "$room/02-$request" ] || continue
    while IFS= read -r sentence; do
        has "$(cat "$room/rows-$request")" "$sentence" || wrong "$request: no row for: $sentence"
    done <"$room/02-$request"
done

# ---- the rules' numbers

# Says what is wrong with the second cells. A rule and a sentence speak of the same things where two in five of the sentence's words, by
# their first four letters, stand in the rule; an answer's sentence stands there as it is; a clause of fewer than seven words is too short
# to tell. Rule 1.1 says who is who, and is no sentence's.
numbers() {
    awk -F'|' '
        function each(text, list, count, k) {
            text = tolower(text)
            gsub(/[`*]/, "", text)
            gsub(/[^a-z0-9]+/, " ", text)
            split("", word)
            count = split(text, list, " ")
            for (k = 1; k <= count; k++) word[substr(list[k], 1, 4)] = 1
        }
        FNR == 1 { file++ }
        file == 1 && /^## [0-9]+\. / { at = $0; gsub(/^## |\..*/, "", at); known[at] = 1 }
        file == 1 && /^\*\*[0-9]+\.[0-9]+\*\* / { at = substr($1, 3); sub(/\*.*/, "", at); known[at] = 1 }
        file == 1 && at == "8.1" && /^\| [0-9]+ / { answer[$2 + 0] = $3 }
        file == 1 { each($0); for (w in word) has[at, w] = 1 }
        file == 1 { next }
        /^## Slips/ { told = 1 }
        /^## Document 02/ { told = 0; fewest = 7 }
        /^\|(-| sentence \|| answer \|| clause \|)/ { answers = / answer \|/ || (answers && /^\|-/); next }
        !/^\|/ { next }
        {
            row = $2
            gsub(/^ +| +$/, "", row)
            rules = $3
            gsub(/ /, "", rules)
            if (NF != 5 || rules !~ /^(-|[0-9]+(\.[0-9]+)?(,[0-9]+(\.[0-9]+)?)*)$/) { print "no rule and no dash: " row; next }
            count = split(rules, number, ",")
            for (k = 1; k <= count; k++) {
                cited[number[k]] = 1
                if (number[k] != "-" && !(number[k] in known)) print "docs/RULES.md has no rule " number[k] ": " row
            }
            if (answers) {
                text = row
                sub(/^[0-9]+ /, "", text)
                if (rules != "8.1" || index(answer[row + 0], " " text) != 1) print "not so in rule 8.1: " row
            } else if (!told && rules != "-") {
                each(row)
                all = found = 0
                for (w in word) {
                    all++
                    for (k = 1; k <= count; k++) if ((number[k], w) in has) { found++; break }
                }
                if (all >= fewest && 5 * found < 2 * all) print "rule " rules " speaks of other things than: " row
            }
        }
        END { for (at in known) if (at ~ /\./ && at != "1.1" && !(at in cited)) print "no row has rule " at }
    ' docs/RULES.md docs/TRACE.md
}
while IFS= read -r said; do
    wrong "$said"
done < <(numbers)

# Each sentence that a page quotes with numbers, as NUMBER, SENTENCE and PAGE.
quoted() { # PAGE
    local quote number
    tr '\n' ' ' <"$1" | grep -oE '\*"[^"]*"\* \(rules? [^)]*\)' | while IFS= read -r quote; do
        for number in $(grep -oE '[0-9]+\.[0-9]+' <<<"${quote##*(}"); do
            quote=${quote#'*"'}
            printf '%s|%s|%s\n' "$number" "${quote%'"*'*}" "$1"
        done
    done
}

# The quote has a row's sentence in it, or the other way round; stops at the end and capitals do not count.
while IFS= read -r said; do
    wrong "$said"
done < <(awk -F'|' '
    function plain(text) {
        gsub(/^ +|[ .,;:]+$/, "", text)
        return tolower(text)
    }
    NR == FNR { if (/^\|/) { row[++rows] = plain($2); rule[rows] = "," $3 ","; gsub(/ /, "", rule[rows]) } next }
    {
        quote = plain($2)
        for (k = 1; k <= rows; k++)
            if (index(rule[k], "," $1 ",") && row[k] != "" && (index(row[k], quote) || index(quote, row[k]))) next
        print $3 ": no row has rule " $1 " for: " $2
    }' docs/TRACE.md <(quoted docs/HOUSE.md && quoted docs/BOOK.md))
for page in docs/HOUSE.md docs/BOOK.md; do
    [ "$(quoted "$page" | wc -l)" -ge 8 ] || wrong "$page: too few sentences with their rule were found"
done
for number in $(grep -ohE 'rules? [0-9]+\.[0-9]+' docs/*.md | grep -oE '[0-9]+\.[0-9]+' | sort -u); do
    grep -qE "^\*\*$number\*\*" docs/RULES.md || wrong "docs/RULES.md has no rule $number, which a page names"
done
exit "$bad"
