#!/usr/bin/env bash
# Holds include/fantanolive_text.h against the rest: its refusals against the constants of include/fantanolive.h and against the calls that answer them
# there, its codes against the masks of a verdict, the definitions of crates/judging and docs/RULES.md; and its form, which other tools read line by line.
# Prints each difference, and then status 1.
set -u
export LC_ALL=C
cd -- "$(dirname -- "$(readlink -f -- "$0")")/.." || exit 2
work=$(mktemp -d) || exit 2
trap 'rm -rf -- "$work"' EXIT
header=include/fantanolive.h
texts=include/fantanolive_text.h
failed=

# compare WHAT FOUND WANTED: two lists of lines
compare() {
    if ! diff <(printf '%s\n' "$2") <(printf '%s\n' "$3") >"$work/diff"; then
        echo "text: $1:"
        cat "$work/diff"
        failed=yes
    fi
}

# --- It compiles without a warning, used or not, as C99 and as C++.

options=(-std=c99 -Wall -Wextra -pedantic -Werror -Iinclude)
printf '#include "fantanolive_text.h"\nint main(void) { return 0; }\n' >"$work/unused.c"
${CC:-cc} "${options[@]}" -o "$work/unused" "$work/unused.c" || failed=yes
if command -v c++ >/dev/null; then
    c++ -x c++ -Wall -Wextra -Werror -Iinclude -c -o "$work/unused.o" "$work/unused.c" || failed=yes
fi
${CC:-cc} "${options[@]}" -o "$work/text" tests/text.c || exit 1
"$work/text" >"$work/said" || failed=yes

# --- Its form: an entry is four lines.

# entries TABLE: a line `NUMBER|WRONG|WHERE|MEND` for each entry; any other line as it is
entries() {
    sed -n "/ $1\[\] = {\$/,/^};\$/p" "$texts" | sed '1d;$d' |
        sed -E 'N;N;N;s/^    \{([0-9]+),\n     "([^"\\|]+)",\n     "([^"\\|]+)",\n     "([^"\\|]+)"\},$/\1|\2|\3|\4/'
}
refusals=$(entries fantanolive_refusal_texts)
codes=$(entries fantanolive_code_texts)
compare 'lines that are no entry' "$(printf '%s\n' "$refusals" "$codes" | grep -vE '^[0-9]+\|[^|]+\|[^|]+\|[^|]+$')" ''
compare 'bytes that are not ASCII' "$(grep -nP '[^\x20-\x7e]' "$texts")" ''

compare 'papers that the header names' "$(grep -nE 'document 0|Chart' "$header")" ''

# --- Refusals.

numbers=$(printf '%s\n' "$refusals" | cut -d'|' -f1)
constants=$(sed -n '/^\/\* The answers/,/^$/s/^#define FANTANOLIVE_[A-Z_]* \([0-9]*\) .*/\1/p' "$header" | grep -v '^0$')
compare 'refusals with an entry, and constants of the header' "$numbers" "$constants"
compare 'refusals with an entry, and as looked up' "$numbers" "$(sed -n 's/^refusal //p' "$work/said")"

# A line `NUMBER CALL` for each refusal that the header names with a call; to_ascii has those of to_ebcdic.
answered() {
    awk '/^\/\* fantanolive_[a-z_]*:/ { call = $2; sub("fantanolive_", "", call); sub(":", "", call) }
        /^ \*   [0-9]+ +FANTANOLIVE_/ && $2 != 0 { print $2, call; if (call == "to_ebcdic") print $2, "to_ascii" }' "$header" | sort
}

# The same from the words, which name the calls before a colon: `apply, find: ..; reconcile: ..`.
named() {
    local number where part call
    while IFS='|' read -r number _ where _; do
        while read -r part; do
            [[ $part == *:* ]] || continue
            for call in ${part%%:*}; do echo "$number ${call%,}"; done
        done <<<"${where//; /$'\n'}"
    done <<<"$refusals" | sort
}
compare 'calls named with a refusal, and calls that answer it' "$(named)" "$(answered)"

# --- Codes.

numbers=$(printf '%s\n' "$codes" | cut -d'|' -f1)
compare 'codes with an entry, and codes of a verdict' "$numbers" "$(sed -n 's/^code //p' "$work/said")"
padded=$(awk '{ printf "%02d\n", $1 }' <<<"$numbers")
defined=$(sed -nE 's/^unfoldable pub (error|warning)([0-9]+) :.*/\2/p' crates/judging/specs/Errors.antt crates/judging/specs/Warnings.antt | sort)
compare 'codes with an entry, and definitions' "$padded" "$defined"
ruled=$(sed -n "/^## A record's errors/,/^## One-case/p" docs/RULES.md | sed -nE 's/^\| ([0-9]{2})(:| \().*/\1/p' | sort -u)
compare 'codes with an entry, and lines of docs/RULES.md' "$padded" "$ruled"

[ -z "$failed" ] || exit 1
echo "text: $(wc -l <"$work/said") entries hold"
