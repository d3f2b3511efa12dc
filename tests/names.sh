#!/usr/bin/env bash
# Holds the names that docs/RULES.md cites in backquotes against the source. In a table the column's head says what a name must be:
#   definition   declared in the file of specs/ that is named last before it (`Row `is_live`, `is_deleted``), or the name of such a file
#   promise      FILE::NAME or TYPE::NAME, an item of src/; declared in the file in brackets behind it or behind its list (`a`, `b` (FormLaws)); declared
#                in the file of specs/ before it or before its list; else a name that one file alone declares
#   tests, edits an edit of must-fail/, a crate, or NAME or FILE::NAME, a test function in Rust
# Where a file, an item or an edit of this name is in several crates, the crate's name stands before it (`casemaster Refusals `refusal3``). The first
# column has the paper's words and isn't looked at. Outside tables a name may be any of these or `ensures` or `requires`, and a text with a space in it
# isn't a name. Anywhere a name with a slash or a file's ending is a path: from the root, from a crate, or in a crate's src/.
# Every edit of must-fail/ and every call of include/fantanolive.h must be cited. Prints each fault with its line, and then status 1. Needs awk alone.
set -eu
cd -- "$(dirname -- "$(readlink -f -- "$0")")/.."
shopt -s nullglob globstar
find . -name target -prune -o -name .git -prune -o -regex './crates/[^/]*/out' -prune -o -print | sed 's,^\./,,' | LC_ALL=C awk -v sheet=docs/RULES.md '
function has(list, one) { return index(list " ", " " one " ") > 0 }
function with(list, one) { return has(list, one) ? list : list " " one }
function several(list) { return split(list, parts, " ") > 1 }
function fault(text) { print sheet (FNR ? ":" FNR : "") ": " text; faults++ }

# --- the source

# the crate and the name of the file that is read
FNR == 1 {
    n = split(FILENAME, part, "/")
    crate = part[2]
    folder = part[3]
    file = part[n]
    sub(/\.[a-z]*$/, "", file)
    type = ""
    if (folder == "specs") specs[file] = with(specs[file], crate)
    if (folder == "proofs") proofs[file] = with(proofs[file], crate)
}

# a name that an .antt file declares, for others to see or not
function declare(name, seen) {
    declared[folder, crate, file, name] = 1
    if (folder == "proofs") laws[file, name] = with(laws[file, name], crate)
    if (seen) { places[name] = with(places[name], FILENAME); anywhere[name] = 1 }
}

function first_word(text, before) {
    sub(before, "", text)
    sub(/ .*/, "", text)
    return text
}

# paths from standard input
FILENAME == "-" || FILENAME == "" {
    path[$0] = 1
    n = split($0, part, "/")
    if (part[1] != "crates") next
    if (n == 2) is_crate[part[2]] = 1
    else path[substr($0, length("crates/" part[2] "/") + 1)] = 1
    if (n == 4 && part[3] == "src") path[part[4]] = 1
    if (part[3] == "must-fail" && sub(/\.edit$/, "", part[4])) edits[part[4]] = with(edits[part[4]], part[2])
    next
}

# .antt: at the start of a line, or with pub inside a record or a module of parameters
FILENAME ~ /\.antt$/ {
    if ($0 ~ /^ *(pub )?(data|record) [^ ]/) declare(first_word($0, "^ *(pub )?(data|record) "), $0 ~ /^ *pub /)
    else if ($0 ~ /^((abbrev|unfoldable) )?(pub )?[^ ]+ :/) declare(first_word($0, "^((abbrev|unfoldable) )?(pub )?"), $0 ~ /^([a-z]+ )?pub /)
    else if ($0 ~ /^ +((abbrev|unfoldable) )?pub [^ ]+ :/) declare(first_word($0, "^ +((abbrev|unfoldable) )?pub "), 1)
    next
}

# .rt: the items, and the type that an impl is of
FILENAME ~ /\.rt$/ {
    if ($0 ~ /^impl[ <]/) { type = first_word($0, "^impl(<[^>]*>)? "); sub(/[^A-Za-z0-9_].*/, "", type) }
    else if ($0 ~ /^}/) type = ""
    else if ($0 ~ /^ *(pub )?(extern "C" )?(fn|const|static|struct|enum) [A-Za-z0-9_]/) {
        name = first_word($0, "^ *(pub )?(extern \"C\" )?(fn|const|static|struct|enum) ")
        sub(/[^A-Za-z0-9_].*/, "", name)
        items[file "::" name] = with(items[file "::" name], crate)
        if (type != "") items[type "::" name] = with(items[type "::" name], crate)
        else { places[name] = with(places[name], FILENAME); anywhere[name] = 1 }
    }
    next
}

# .rs: the functions behind #[test]
function note_test(name) { tests[name] = with(tests[name], FILENAME) }
FILENAME ~ /\.rs$/ {
    if (after_mark && $0 ~ /^ *fn [a-z0-9_]/) {
        name = first_word($0, "^ *fn ")
        sub(/[^a-z0-9_].*/, "", name)
        note_test(name)
        note_test(file "::" name)
    }
    after_mark = $0 ~ /^ *#\[test\]/
    next
}

FILENAME ~ /\.h$/ {
    if (match($0, /fantanolive_[a-z_]+\(/)) calls[substr($0, RSTART, RLENGTH - 1)] = 1
    next
}

# --- the sheet

function is_path(name) { return name ~ /\// || name ~ /\.(rt|antt|edit|rs|c|h|cob|sh|md|txt|bin)$/ }

function has_path(name) { sub(/\/$/, "", name); return name in path }

# a word without punctuation
function bare(word) { gsub(/[,;:()]/, "", word); return word }

# the crate named directly before word i, or nothing; another plain word there must be one that joins
function crate_named(words, i, word) {
    word = i > 1 ? words[i - 1] : ""
    if (word in is_crate) return word
    if (word ~ /^[a-z_]+$/ && word !~ /^(and|but|in|of|or|over|uses)$/) fault("no such crate: " word " " words[i])
    return ""
}

# the last word of a text that names a file of specs/, with its crate where that stands before it: found_file, found_crate
function find_file(text, words, n, i) {
    n = split(text, words, " ")
    for (i = 1; i <= n; i++) if (bare(words[i]) in specs) {
        found_file = bare(words[i])
        found_crate = crate_named(words, i)
    }
}

# a name in a file of a folder, specs or proofs, of the crate that is named or the only one
function in_file(folder, crate, file, name, homes) {
    homes = folder == "specs" ? specs[file] : laws[file, name]
    if (crate != "" && !declared[folder, crate, file, name]) fault("not in " crate " " file ": " name)
    else if (crate == "" && several(homes)) fault("which crate: " file " " name " (" homes " )")
    else if (crate == "" && !declared[folder, substr(homes, 2), file, name]) fault("not in " file ": " name)
}

function look_definition(i, name) {
    find_file(before[i])
    if (name in specs && found_file == "") {
        if (crate_before(i) != "") list_crate = crate_before(i)
        if (!has(specs[name], list_crate)) fault("not in " list_crate ": the file " name)
    }
    else if (found_file == "") fault("no file before the name: " name)
    else in_file("specs", found_crate, found_file, name)
}

# the crate that stands directly before a name, or nothing
function crate_before(i, words, n) {
    n = split(before[i], words, " ")
    return before[i] ~ / $/ && words[n] in is_crate ? words[n] : ""
}

# whether names i and i + 1 stand in one list
function joined(i) { return i < count && (before[i + 1] == ", " || before[i + 1] == " and ") }

function look_promise(i, name, first, last, words, n) {
    if (name ~ /::/) { look_item(i, name); return }
    for (last = i; joined(last); last++) ;
    if (before[last + 1] ~ /^ \([A-Za-z0-9_ ]+\)/) {
        n = split(before[last + 1], words, /[ ()]+/)
        if (words[2] in proofs) { in_file("proofs", "", words[2], name); return }
        if (words[2] in is_crate && words[3] in proofs) { in_file("proofs", words[2], words[3], name); return }
    }
    for (first = i; first > 1 && joined(first - 1); first--) ;
    n = split(before[first], words, " ")
    if (words[n] in specs) { in_file("specs", crate_named(words, n), words[n], name); return }
    if (!(name in anywhere)) fault("no such name: " name)
    else if (several(places[name])) fault("which file: " name " (" places[name] " )")
}

function look_item(i, name, home) {
    home = crate_before(i)
    if (!(name in items)) fault("no such item: " name)
    else if (home != "" && !has(items[name], home)) fault("not in " home ": " name)
    else if (home == "" && several(items[name])) fault("which crate: " name " (" items[name] " )")
}

function look_test(i, name, home) {
    home = crate_before(i)
    if (name in edits) {
        if (home != "" && has(edits[name], home)) cited[home, name] = 1
        else if (several(edits[name])) fault("which crate: " name " (" edits[name] " )")
        else cited[substr(edits[name], 2), name] = 1
    } else if (name in tests) {
        if (several(tests[name])) fault("which file: " name " (" tests[name] " )")
    } else if (!(name in is_crate)) fault("no such test or edit: " name)
}

function look_any(name) {
    if (name ~ / / || name == "ensures" || name == "requires") return
    if (name in edits && !several(edits[name])) cited[substr(edits[name], 2), name] = 1
    else if (!(name in specs || name in anywhere || name in items || name in tests || name in calls || name in is_crate)) fault("no such name: " name)
}

# the names in backquotes of a cell or a line
function look(kind, text, pieces, n, i) {
    n = split(text, pieces, "`")
    count = int(n / 2)
    for (i = 1; i <= count + 1; i++) before[i] = pieces[2 * i - 1]
    found_file = found_crate = list_crate = ""
    for (i = 1; i <= count; i++) {
        name = pieces[2 * i]
        all++
        mentioned[name] = 1
        if (is_path(name)) { if (!has_path(name)) fault("no such path: " name) }
        else if (kind == "definition") look_definition(i, name)
        else if (kind == "promise") look_promise(i, name)
        else if (kind == "test") look_test(i, name)
        else look_any(name)
    }
}

function kind_of(head) { return head ~ /definition/ ? "definition" : head ~ /promise/ ? "promise" : head ~ /test|edit/ ? "test" : "any" }

!/^\|/ { in_table = 0; look("any", $0); next }
{
    n = split($0, cells, "|")
    for (c = 3; c < n; c++) if (in_table) look(kinds[c], cells[c]); else kinds[c] = kind_of(cells[c])
    in_table = 1
}

END {
    FNR = 0
    for (label in edits) {
        n = split(edits[label], homes, " ")
        for (i = 1; i <= n; i++) if (!((homes[i], label) in cited)) fault("cited nowhere: the edit " label " of " homes[i])
    }
    for (call in calls) if (!(call in mentioned)) fault("cited nowhere: the call " call)
    print "names: " all " cited, " (faults ? faults " wrong" : "all there")
    exit faults > 0
}' - crates/*/specs/*.antt crates/*/proofs/**/*.antt crates/*/src/*.rt tests/rust/**/*.rs bindings/rust/**/*.rs agreement/**/*.rs include/fantanolive.h docs/RULES.md
