#!/usr/bin/env bash
# Closed layers: a proof opens (`unfolding`, with names on the same line or on lines indented below it, or `unfold NAME.. in`) a definition of a lower crate only where
# tests/open-definitions.txt lists it; nor does a tactic of the code (`unfolding(crate::..)`). The proofs of computed examples that tests/computed-examples.txt names may open any. Prints each
# other opening with its file and line, each entry of the two lists that nothing needs and each that is there twice, and fails where there is one. Needs awk alone.
set -u
root=$(dirname -- "$(dirname -- "$(readlink -f -- "$0")")")
cd -- "$root" || exit 2
mapfile -d '' -t files < <(find crates -regex 'crates/[^/]*/out' -prune -o \( -name '*.antt' -o -name '*.rt' \) -print0 | LC_ALL=C sort -z)
awk '
function fault(text) { print text; faults++ }

# entry KEY: one entry of tests/open-definitions.txt
function entry(key) {
    if (key in open) fault("tests/open-definitions.txt: " key " is there twice")
    open[key] = 1
}

# opened NAME: a name behind `unfolding`
function opened(word, key, pair) {
    if (!(word in from) || from[word] == own) return
    openings++
    key = from[word] ": " name[word]
    pair = from[word] " > " own
    if (FILENAME in examples) { if (!(key in open) && !(pair in open)) needed[FILENAME] = 1 }
    else if (pair in open) used[pair] = 1
    else if (key in open) used[key] = 1
    else fault(FILENAME ":" FNR ": opens " name[word] " of " from[word])
}

# imported TEXT: names between the brackets of an import, or some of them
function imported(text, item, as, n, i, k) {
    gsub(/^ +| +$/, "", text)
    n = split(text, item, / *, */)
    for (i = 1; i <= n; i++) if (item[i] != "") { k = split(item[i], as, " as "); from[as[k]] = crate; name[as[k]] = as[1] }
}

# by_path TEXT: the names of a list of paths, `CRATE::specs::FILE::NAME`, of which `crate` is this crate and names nothing lower
function by_path(text, path, step, n, i, k) {
    n = split(text, path, / *, */)
    for (i = 1; i <= n; i++) {
        k = split(path[i], step, "::")
        if (step[1] == "crate") continue
        from[path[i]] = step[1]
        name[path[i]] = step[k]
        opened(path[i])
    }
}

BEGIN {
    while ((getline line < "tests/open-definitions.txt") > 0) {
        sub(/#.*/, "", line)
        if (split(line, pair, / *> */) == 2) { sub(/ *$/, "", pair[2]); entry(pair[1] " > " pair[2]); continue }
        n = split(line, word, /[: ]+/)
        for (i = 2; i <= n; i++) if (word[i] != "") entry(word[1] ": " word[i])
    }
    while ((getline line < "tests/computed-examples.txt") > 0) {
        sub(/ *#.*/, "", line)
        if (line == "") continue
        if (line in examples) fault("tests/computed-examples.txt: " line " is there twice")
        examples[line] = 1
    }
}
FNR == 1 { delete from; delete name; split(FILENAME, part, "/"); own = part[2]; opening = importing = 0 }
FILENAME ~ /\.rt$/ {
    while (match($0, /unfolding\([^)]*\)/)) {
        by_path(substr($0, RSTART + 10, RLENGTH - 11))
        $0 = substr($0, RSTART + RLENGTH)
    }
    next
}
importing {
    names = $0
    if (sub(/\}.*/, "", names)) importing = 0
    imported(names)
    next
}
/^(pub )?use Rattle\.[a-z_]+\.specs\.[A-Za-z0-9]+\.\{/ {
    crate = $0; sub(/^(pub )?use Rattle\./, "", crate); sub(/\..*/, "", crate)
    if (crate == "std") next
    names = $0; sub(/^[^{]*\{/, "", names)
    importing = !sub(/\}.*/, "", names)
    imported(names)
    next
}
{ match($0, /^ */); indent = RLENGTH }
/^ *unfolding( |$)/ { opening = 1; keyword = indent; for (i = 2; i <= NF; i++) opened($i); next }
opening && NF && indent > keyword { for (i = 1; i <= NF; i++) opened($i); next }
{ opening = 0 }
/(^|[ (])unfold .* in / { for (i = 1; i < NF; i++) if ($i ~ /^\(*unfold$/) while ($(++i) != "in" && i <= NF) opened($i) }
END {
    if (!openings) fault("no proof that opens a definition of a lower crate is found")
    for (key in open) if (!(key in used)) fault("tests/open-definitions.txt: nothing opens " key)
    for (file in examples) if (!(file in needed)) fault("tests/computed-examples.txt: " file " needs no exception")
    exit faults > 0
}' "${files[@]}"
