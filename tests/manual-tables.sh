#!/usr/bin/env bash
# Holds the contents of docs/MANUAL.md against its headings, and its tables against the rest: codes and refusals against include/fantanolive_text.h, the orders of refusals against
# include/fantanolive.h, columns and states against the definitions in crates/*/specs, names of theorems against those that are there, the version
# against the header. Prints each difference, and each list that is empty since a heading or a file has another name, and then status 1. Wants the built program.
set -u
export LC_ALL=C
cd -- "$(dirname -- "$(readlink -f -- "$0")")/.." || exit 2
manual=docs/MANUAL.md
program=target/program/fantanolive
if [ ! -x "$program" ]; then
    echo "manual: $program is not built (bin/build-program)" >&2
    exit 1
fi
work=$(mktemp -d) || exit 2
trap 'rm -rf -- "$work"' EXIT
failed=

# compare WHAT FOUND WANTED: two texts, neither of them empty
compare() {
    if [ -z "$2$3" ]; then
        echo "manual: $1: there is nothing to compare"
        failed=yes
    elif ! diff <(printf '%s\n' "$2") <(printf '%s\n' "$3") >"$work/diff"; then
        echo "manual: $1 (< the manual, > the rest):"
        cat "$work/diff"
        failed=yes
    fi
}

# section HEADING: the lines behind a heading, up to the next
section() {
    awk -v heading="$1" '/^##/ { on = ($0 == heading); next } on' "$manual"
}

# --- The contents.

# anchors: headings as the names that links use
anchors() {
    sed -E 's/^#+ //' | tr '[:upper:]' '[:lower:]' | sed -e 's/[^a-z0-9 _-]//g' -e 's/ /-/g'
}
compare contents "$(sed -nE 's/^([0-9]+)\. \[(.*)\]\(#(.*)\)$/\1 \2 \3/p' "$manual")" \
    "$(grep '^## ' "$manual" | sed 's/^## //' | paste -d' ' - <(grep '^## ' "$manual" | anchors) | awk '{ print NR, $0 }')"
links=$(grep -oE '\]\(#[^)]*\)' "$manual" | sed -E 's/^\]\(#(.*)\)$/\1/' | sort -u)
compare 'links, and those that lead somewhere' "$links" "$(comm -12 <(echo "$links") <(grep -E '^##+ ' "$manual" | anchors | sort -u))"

# --- Codes and refusals.

# rows_of TABLE FORMAT: the entries of fantanolive_text.h as rows of a table
rows_of() {
    local number wrong where fix
    sed -n "/ $1\[\] = {\$/,/^};\$/p" include/fantanolive_text.h | sed '1d;$d' |
        sed -E 'N;N;N;s/^    \{([0-9]+),\n     "(.*)",\n     "(.*)",\n     "(.*)"\},$/\1|\2|\3|\4/' |
        while IFS='|' read -r number wrong where fix; do printf "| $2 | %s | %s | %s |\n" "$number" "$wrong" "$where" "$fix"; done
}
compare codes "$(section '## Codes' | grep '^| [0-9]')" "$(rows_of fantanolive_code_texts %02d)"
compare refusals "$(section '## Refusals' | grep '^| [0-9]')" "$(rows_of fantanolive_refusal_texts %d)"

# A line `CALL NUMBERS` for each call of the header; to_ascii has those of to_ebcdic.
orders() {
    awk '/^\/\* fantanolive_[a-z_]*:/ { call = $2; sub("fantanolive_", "", call); sub(":", "", call); order[call] = call }
        /^ \*   [0-9]+ +FANTANOLIVE_/ && $2 != 0 { order[call] = order[call] " " $2 }
        END { order["to_ascii"] = order["to_ebcdic"]; sub("to_ebcdic", "to_ascii", order["to_ascii"]); for (call in order) print order[call] }' \
        include/fantanolive.h | sort
}

# The same from the manual's rows, `| \`CALL\`, .. | NUMBERS, .. |`.
shown_orders() {
    local calls numbers call
    section '## Refusals' | sed -nE 's/^\| (`[^|]*) \| ([0-9 ]*[0-9]).*/\1|\2/p' | tr -d '`,' | while IFS='|' read -r calls numbers; do
        for call in $calls; do echo "$call $numbers"; done
    done | sort
}
compare 'orders of refusals' "$(shown_orders)" "$(orders)"

# --- Columns.

# table_of HEADING WIDTH: a line `FIRST LAST NAME` for each row of the table below a heading
table_of() {
    section "### $1 ($2 bytes)" | tr -d '*' | sed -nE -e 's/^\| ([0-9]+)-([0-9]+) \| ([^|]*) \|.*/\1 \2 \3/p' -e 's/^\| ([0-9]+) \| ([^|]*) \|.*/\1 \1 \2/p'
}

# columns_of HEADING WIDTH FILE: the table's columns follow each other up to the width, and each field of the file begins and ends with one of them;
# the front of a last name, which rules read by itself, is a part of a field
columns_of() {
    local shown fields next=1 first last
    shown=$(table_of "$1" "$2")
    fields=$(sed -nE -e '/^[a-zA-Z_]*name_front /d' -e 's/^[a-zA-Z0-9_]+ (rec|row|line|last) = columns ([0-9]+) ([0-9]+) .*/\2 \3/p' "crates/$3")
    if [ -z "$shown" ] || [ -z "$fields" ]; then
        echo "manual: $1: no table in the manual, or no field in crates/$3"
        failed=yes
        return
    fi
    while read -r first last _; do
        compare "$1, columns" "$first" "$next"
        next=$((last + 1))
    done <<<"$shown"
    compare "$1, width" "$((next - 1))" "$2"
    while read -r first last; do
        compare "$1, a field of $3" "$(grep -c "^$first " <<<"$shown") $(grep -c "^[0-9]* $last " <<<"$shown")" '1 1'
    done <<<"$fields"
}

columns_of 'A row of the master' 200 casemaster/specs/Row.antt
columns_of 'A detail of a batch' 245 layout/specs/ChartA1.antt
columns_of 'The control record of a batch' 245 layout/specs/ChartA2.antt
columns_of 'A reject record' 245 layout/specs/Chart01.antt
columns_of 'The control record of a reject file' 245 layout/specs/Chart02.antt
columns_of 'A REC record of a reconciliation file' 245 layout/specs/Chart06.antt
columns_of 'The RCT record of a reconciliation file' 245 layout/specs/Chart07.antt
columns_of 'A contact record' 220 contactrecord/specs/ChartA3.antt
columns_of 'A line of a collection file' 240 collectionfile/specs/Chart04.antt
columns_of 'The TOTAL record of a collection file' 240 collectionfile/specs/Chart05.antt

# --- Names of fields: those that the program shows.

# names_of HEADING WIDTH KIND FRONT [FROM]: the table, from a column on, against what `show` lists of the last record of a file of that kind. The
# file has two records of hyphens, the last with FRONT in front.
names_of() {
    local record listed options=(--list --from 2 --all) from=${5:-1}
    printf -v record '%*s' "$2" ''
    record=${record// /-}
    printf '%s' "$record$4${record:${#4}}" >"$work/file"
    [ "$3" = master ] || options+=(--ascii)
    listed=$("$program" show "$3" "$work/file" "${options[@]}" | sed -nE \
        -e 's/^  (.*[^ ])  +([0-9]+)-([0-9]+)(  .*)?$/\2 \3 \1/p' -e 's/^  (.*[^ ])  +([0-9]+)(  .*)?$/\2 \2 \1/p')
    compare "$1, names" "$(table_of "$1" "$2" | awk -v from="$from" '$1 >= from')" "$(awk -v from="$from" '$1 >= from' <<<"$listed")"
}

names_of 'A row of the master' 200 master ''
names_of 'A detail of a batch' 245 batch ''
names_of 'The control record of a batch' 245 batch '--CTL'
names_of 'A reject record' 245 rejects '' 228
names_of 'The control record of a reject file' 245 rejects '--CTL'
names_of 'A REC record of a reconciliation file' 245 reconciliation 'REC'
names_of 'The RCT record of a reconciliation file' 245 reconciliation 'RCT'
names_of 'A contact record' 220 contacts ''
names_of 'A line of a collection file' 240 collections ''
names_of 'The TOTAL record of a collection file' 240 collections '-----TOTAL    '

# --- Statuses: those of the help.

shown=$(section '### For other programs' | sed -nE 's/^\| ([0-9]) \| (.*) \|$/\1  \2/p')
helped=$("$program" --help | sed -n '/^Exit status:$/,$p' | sed 1d | sed -E -e ':join' -e '$!N' -e 's/\n {5}/ /' -e 't join' -e 'P' -e 'D' | sed 's/^  //')
compare statuses "$shown" "$helped"

# --- Names of definitions and theorems.

declared=$(sed -nE 's/^ *((abbrev|unfoldable) )?(pub )?([^ ]+) :.*/\4/p' crates/*/specs/*.antt crates/*/proofs/*.antt | sort -u)
cited=$(section '## How agreement with another engine is shown' | tr '\n' ' ' | grep -oE '\(.[^)]*.\)' | grep -oE '`[A-Za-z_-]+`' | tr -d '`' | sort -u)
compare 'names of definitions and theorems' "$cited" "$(comm -12 <(echo "$cited") <(echo "$declared"))"

# --- States, version.

table=$(sed -n '/^state_table =/,/^$/p' crates/layout/specs/States.antt | sed 's/letter_\([a-z]\)/\U\1/g' | grep -oE '\([^)]*\)' | while read -r state; do tr -cd '[:upper:]' <<<"$state" && echo; done)
shown=$(section '## Words' | tr '\n' ' ' | sed -n 's/.*\*\*State\.\*\* One of the table of 54: \([A-Z ]*\)\..*/\1/p' | tr ' ' '\n')
compare 'state table' "$shown" "$table"
shown=$(sed -n '/^ \*   state  /,/^ \*   key  /p' include/fantanolive.h | grep -oE '\b[A-Z]{2}\b' | grep -v '^A$')
compare 'state table of the header' "$shown" "$table"
compare version "$(sed -n 's/^Version \([0-9.]*\)\. .*/\1/p' "$manual")" "$(bin/version)"

[ -z "$failed" ] || exit 1
echo "manual: tables hold"
