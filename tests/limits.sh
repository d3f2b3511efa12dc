#!/usr/bin/env bash
# The limit of the papers is one number. Fails, with the file and line, where a definition or theorem that is said to be over any limit, or its laws and proof, name the
# limit of the code, but for the one statement that a journal's buffer has room at that limit; and where the number itself stands outside the few files that are
# there for it. Fails too where a file or an exception that is named here is gone. It doesn't look at definitions that these theorems use. Needs grep alone.
set -u
cd -- "$(dirname -- "$(readlink -f -- "$0")")/.." || exit 2
failed=

fault() {
    echo "limits: $1" >&2
    failed=yes
}

# searched WORDS PATH..: the lines with the words in the files below the paths; what rt keeps in crates/*/out is no source
searched() {
    local words=$1
    shift
    find "$@" -regex 'crates/[^/]*/out' -prune -o -type f -exec grep -HnE -- "$words" {} +
}

# the names and the number that are looked for
grep -qE '^max_rows = 16777215$' crates/layout/specs/Limits.antt || fault 'crates/layout/specs/Limits.antt has no max_rows of 16777215'
grep -qE '^pub const MAX_ROWS: usize = 16777215;$' crates/layout/src/limits.rt || fault 'crates/layout/src/limits.rt has no MAX_ROWS of 16777215'
grep -qE '^pub const MAX_RECORDS: usize = 16777216;$' crates/layout/src/limits.rt || fault 'crates/layout/src/limits.rt has no MAX_RECORDS of 16777216'

# definitions and theorems over any limit
theorems=(crates/effects crates/takingback/specs crates/balancing/specs crates/leading crates/premises crates/merging/specs/Theorem.antt crates/totalling/specs/Theorem.antt
    crates/casemaster/specs crates/takeback/specs
    crates/lookup/specs crates/lookup/proofs/FindLaws.antt crates/lookup/proofs/ManyLaws.antt crates/lookup/proofs/LookupProof.antt
    crates/reconciliation/specs crates/reconciliation/proofs/ReconcileOutcomeLaws.antt
    crates/pages/specs crates/pages/proofs/OutcomeLaws.antt crates/pages/proofs/PagesProof.antt
    crates/addcents/specs/Theorem.antt crates/addcents/proofs/ConvertLaws.antt crates/addcents/proofs/ConvertProof.antt)
for path in "${theorems[@]}"; do
    [ -n "$(find "$path" -regex 'crates/[^/]*/out' -prune -o -name '*.antt' -print -quit 2>/dev/null)" ] || fault "$path has no definition or proof"
done
room='^crates/takingback/specs/JournaledBatch.antt:[0-9]+:(use |EnoughRoom = )'
named=$(searched 'max_rows|max_records|MAX_ROWS|MAX_RECORDS' "${theorems[@]}")
[ "$(grep -cE "$room" <<<"$named")" = 2 ] || fault 'EnoughRoom of takingback no longer names the limit of the code'
if grep -vE "$room" <<<"$named"; then
    fault 'a definition or theorem over any limit names the limit of the code'
fi

# the number: definition, code, the law that ties them, and two proofs that hand the code's constant on; in the journal an example; in posting the bound of three
# bytes, which is the same number
numbered=(
    layout/specs/Limits.antt
    layout/src/limits.rt
    layout/proofs/LimitsLaws.antt
    batch/proofs/refusals/most_rows/Answers.antt
    merging/proofs/merge/cannot_merge/Answers.antt
    journal/proofs/ExamplesProof.antt
    posting/src/hints.rt
)
found=$(searched '1677721[56]' crates | grep -E '^[^:]*\.(rt|antt):')
for path in "${numbered[@]}"; do
    grep -qF "crates/$path:" <<<"$found" || fault "the number of the limit doesn't stand in crates/$path, which is named here"
done
if grep -vF "${numbered[@]/#/-ecrates/}" <<<"$found"; then
    fault 'the number of the limit stands where it should not'
fi
[ -z "$failed" ] || exit 1
echo 'limits: named once'
