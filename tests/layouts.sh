#!/usr/bin/env bash
# Holds package/layouts.json against the columns of crates/*/specs and the sizes of include/fantanolive.h; the files that bin/generate-layouts writes from it
# against it, column by column; and random records that each language reads and writes against each other: the same texts, the same numbers, the same
# bytes. Skipped are, with a line, the parts that want Python 3.8 or later, Java 17 or GnuCOBOL. Prints each difference, and then status 1.
set -u
export LC_ALL=C PYTHONDONTWRITEBYTECODE=1
root=$(dirname -- "$(dirname -- "$(readlink -f -- "$0")")")
cd -- "$root" || exit 2
work=$(mktemp -d) || exit 2
trap 'rm -rf -- "$work"' EXIT
table=package/layouts.json
failed=

# compare WHAT FOUND WANTED: two lists of lines
compare() {
    if ! diff <(printf '%s\n' "$2") <(printf '%s\n' "$3") >"$work/diff"; then
        echo "layouts: $1:"
        cat "$work/diff"
        failed=yes
    fi
}

# value KEY: a sed command that leaves the value of a key in a line of the table
value() {
    printf 's/.*"%s": "\\{0,1\\}\\([^,"}]*\\)"\\{0,1\\}[,}].*/\\1/' "$1"
}

# A line `LAYOUT FIRST LAST NAME KIND DEFINITION` for each field and group; a group has no kind.
listed() {
    awk '
        function value(key) { return match($0, "\"" key "\": \"?[^,\"}]*") ? substr($0, RSTART, RLENGTH) : "" }
        function part(key, found) { found = value(key); sub("\"" key "\": \"?", "", found); return found == "" ? "-" : found }
        /^\{"name"/ { layout = part("name") }
        /^  \{"name"/ { print layout, part("first"), part("last"), part("name"), part("kind"), part("definition") }' "$table"
}
listed >"$work/listed"
layouts=$(sed -n 's/^{"name": "\([a-z_]*\)".*/\1/p' "$table")
fields() {
    awk '$5 != "-"' "$work/listed"
}

# --- The columns of the specs.

# defined LAYOUT FILE [RECORD]: a line `LAYOUT FIRST LAST DEFINITION` for each definition of columns in a file of crates/, or in a record of it
defined() {
    local digits
    digits=$(sed -n 's/^page_digits = //p' crates/pages/specs/Forms.antt)
    if [ $# -eq 2 ]; then
        sed -nE "s/^([a-zA-Z0-9_]+) (rec|row|line|last) = columns ([0-9]+) ([0-9]+) .*/$1 \3 \4 \1/p" "$2"
    else
        sed -n "/^pub record $3 /,/^\$/p" "$2" | sed -nE 's/^  pub ([a-zA-Z0-9_-]+) : columns (\([^)]*\)|[0-9]+) (\([^)]*\)|[0-9]+) line .*/\2|\3|\1/p' |
            while IFS='|' read -r first last name; do echo "$1 $((${first//page_digits/$digits})) $((${last//page_digits/$digits})) $name"; done
    fi
}

specified() {
    local layout='' file record
    while IFS= read -r text; do
        case $text in
        '{"name"'*) layout=$(sed "$(value name)" <<<"$text") ;;
        ' "definitions"'*)
            file=$(sed "$(value definitions)" <<<"$text")
            record=$(sed -n "/\"record\"/$(value record)p" <<<"$text")
            defined "$layout" "$file" ${record:+"$record"}
            ;;
        esac
    done <"$table"
}
# The rules read the front of a last name by itself: the first four columns of the field.
specified | sort >"$work/specified"
compare 'columns of the table, and of crates/*/specs' "$(awk '$6 != "null" { print $1, $2, $3, $6 }' "$work/listed" | sort)" "$(grep -v 'name_front$' "$work/specified")"
compare 'the front of a last name' "$(awk '$1 !~ /^page_/ && $6 ~ /^(last_name|row_last_name)$/ { print $1, $2, $2 + 3 }' "$work/listed" | sort)" "$(sed -n 's/ [a-zA-Z_]*name_front$//p' "$work/specified")"

# --- Widths, and no gaps.

size() {
    sed -n "s/^#define FANTANOLIVE_$1 \([0-9]*\)\$/\1/p" include/fantanolive.h
}
widths=$(sed -n 's/^{"name": "\([a-z_]*\)".*"width": \([0-9]*\),$/\1 \2/p' "$table")
wanted=$(printf '%s\n' "row $(size ROW)" "contact $(size CONTACT)" "line $(size LINE)" "total $(size LINE)" "page_line $(size PAGE_LINE)" \
    "page_heading $(size PAGE_LINE)" "page_foot $(size PAGE_LINE)"
    for layout in detail control reject reject_control rec rct; do echo "$layout $(size RECORD)"; done)
compare 'widths' "$(sort <<<"$widths")" "$(sort <<<"$wanted")"
compare 'gaps' "$(fields | awk '$1 != layout { layout = $1; next_one = 1 } $2 != next_one { print } { next_one = $3 + 1 }')" ''
compare 'ends' "$(fields | awk '{ end[$1] = $3 } END { for (layout in end) print layout, end[layout] }' | sort)" "$(sort <<<"$widths")"
compare 'names that stand twice' "$(awk '{ print $1, $4 }' "$work/listed" | sort | uniq -d)" ''

# --- What is generated, column by column.

compare 'columns of fantanolive_layout.h' \
    "$(sed -nE 's/^#define FANTANOLIVE_([A-Z0-9_]+)_FIELD ([0-9]+), ([0-9]+)$/\1 \2 \3/p' include/fantanolive_layout.h | sort)" \
    "$(awk '{ print toupper($1 "_" $4), $2 - 1, $3 - $2 + 1 }' "$work/listed" | sort)"
compare 'fields of fantanolive_layout.h' \
    "$(sed -nE -e 's/^static const struct fantanolive_field fantanolive_([a-z_]+)_fields\[\] = \{$/ \1/p' \
        -e 's/^    \{"([a-z0-9_]+)", "[^"]*", ([0-9]+), ([0-9]+), FANTANOLIVE_KIND_([A-Z]+)\},$/\1 \2 \3 \4/p' include/fantanolive_layout.h |
        awk '/^ / { layout = $1; next } { print layout, $2 + 1, $2 + $3, $1, tolower($4) }')" \
    "$(fields | cut -d' ' -f1-5)"

# A line `LAYOUT FIRST LAST NAME` for each item of the copybooks that has a name and a picture
copied() {
    local layout
    for layout in $layouts; do
        grep -v '\*>' "package/cobol/fantanolive-${layout//_/-}.cpy" | tr -s ' \n' ' ' | grep -oE '[A-Z0-9-]+ PIC [X9]\([0-9]+\)(V99)?' |
            sed -E 's/^[A-Z]+-(.*) PIC [X9]\(([0-9]+)\)/\L\1 \2 /; s/^FILLER PIC X\(([0-9]+)\)/- \1/; s/V99/2/i; s/-/_/g' |
            awk -v layout="$layout" '{ width = $2 + $3; if ($1 != "_") print layout, at + 1, at + width, $1; at += width }'
    done
}
compare 'columns of the copybooks' "$(copied)" "$(fields | awk '$5 != "filler" { print $1, $2, $3, $4 }')"
compare 'columns of layouts.rs' \
    "$(sed -nE -e 's/^    const NAME: .* = "([a-z_]+)";$/ \1/p' \
        -e 's/^        Field \{ name: "([a-z0-9_]+)", title: "[^"]*", first: ([0-9]+), last: ([0-9]+), kind: Kind::([A-Za-z]+) \},$/\1 \2 \3 \4/p' \
        bindings/rust/src/layouts.rs | awk '/^ / { layout = $1; next } { print layout, $2, $3, $1, tolower($4) }')" "$(fields | cut -d' ' -f1-5)"
compare 'columns of layouts.py' \
    "$(sed -nE -e 's/^    NAME: .* = "([a-z_]+)"$/ \1/p' -e 's/^        Field\("([a-z0-9_]+)", "[^"]*", ([0-9]+), ([0-9]+), "([a-z]+)"\),$/\1 \2 \3 \4/p' \
        bindings/python/fantanolive/layouts.py | awk '/^ / { layout = $1; next } { print layout, $2, $3, $1, $4 }')" "$(fields | cut -d' ' -f1-5)"

# pascal NAME
pascal() {
    sed -E 's/(^|_)([a-z])/\U\2/g' <<<"$1"
}
compare 'columns of the Java records' "$(for layout in $layouts; do
    sed -nE "s/^ *new Field\(\"([a-z0-9_]+)\", \"[^\"]*\", ([0-9]+), ([0-9]+), Field.Kind.([A-Z]+)\).*/$layout \2 \3 \1 \L\4/p" \
        "bindings/java/src/fantanolive/$(pascal "$layout").java"
done)" "$(fields | cut -d' ' -f1-5)"

# The kind by which the program shows a field: its Numbers are the counts and totals of control records
kind_shown() {
    awk '$5 == "date" || $5 == "number" && $1 !~ /^(control|reject_control|total|rct)$/ { $5 = "text" } { print $1, $2, $3, $4, $5 }'
}
compare 'columns of the program' \
    "$(sed -nE -e 's/^pub mod ([a-z_]+) \{$/ \1/p' \
        -e 's/^    pub const ([A-Z0-9_]+): Field = field\("[^"]*", ([0-9]+), ([0-9]+), Kind::([A-Za-z]+)\);$/\1 \2 \3 \4/p' \
        program/src/records/columns.rs | awk '/^ / { layout = $1; next } { print layout, $2, $3, tolower($1), tolower($4) }')" \
    "$(fields | grep -v '^page_' | kind_shown)"
compare 'fields of the program' \
    "$(sed -nE -e 's/^pub mod ([a-z_]+) \{$/ \1/p' -e 's/^        ([A-Z0-9_]+),$/\1/p' program/src/records/columns.rs | awk '/^ / { layout = $1; next } { print layout, tolower($1) }')" \
    "$(fields | grep -v '^page_' | awk '{ print $1, $4 }')"

has_python() {
    python3 -c 'import sys; sys.exit(sys.version_info < (3, 8))' 2>/dev/null
}
has_java() {
    [ "$(javac -version 2>&1 | sed -n 's/^javac \([0-9]*\).*/\1/p')" -ge 17 ] 2>/dev/null && command -v java >/dev/null
}
if has_python; then
    bin/generate-layouts --check || failed=yes
else
    echo 'skipped: there is no Python 3.8 or later, so what is generated is not generated again'
fi

# --- Random records, in each language.

${CC:-cc} -std=c99 -O1 -Wall -Wextra -pedantic -Werror -Iinclude -o "$work/fields" tests/layouts/fields.c || exit 1
printf '#include "fantanolive.h"\n#include "fantanolive_layout.h"\n#include "fantanolive_text.h"\nint main(void) { return 0; }\n' >"$work/unused.c"
${CC:-cc} -std=c99 -Wall -Wextra -pedantic -Werror -Iinclude -c -o "$work/unused.o" "$work/unused.c" || failed=yes
if command -v c++ >/dev/null; then c++ -x c++ -Wall -Wextra -Werror -Iinclude -c -o "$work/unused.o" "$work/unused.c" || failed=yes; fi
export CARGO_TARGET_DIR=${CARGO_TARGET_DIR:-$root/target/rust} FANTANOLIVE_LIB_DIR=${FANTANOLIVE_LIB_DIR:-$root/target/staticlib}
cargo build --quiet --offline --manifest-path bindings/rust/Cargo.toml --example fields || exit 1
languages='rust'
for layout in $layouts; do
    "$work/fields" "$layout" 200 7 >"$work/$layout.bin"
    "$work/fields" "$layout" <"$work/$layout.bin" >"$work/$layout.c"
    "$CARGO_TARGET_DIR/debug/examples/fields" "$layout" <"$work/$layout.bin" >"$work/$layout.rust"
    compare "$layout: bytes read and written" "$(sed -n 's/^= //p' "$work/$layout.c" | tr -d '\n')" "$(od -An -v -tx1 "$work/$layout.bin" | tr -d ' \n')"
done
if has_python; then
    languages+=' python'
    for layout in $layouts; do PYTHONPATH=bindings/python python3 tests/layouts/fields.py "$layout" <"$work/$layout.bin" >"$work/$layout.python"; done
fi
if has_java; then
    languages+=' java'
    mkdir "$work/classes"
    # shellcheck disable=SC2086
    javac -Xlint:all -Werror -d "$work/classes" bindings/java/src/fantanolive/*.java tests/layouts/Fields.java &&
        (cd -- "$work" && java -cp classes Fields $layouts) || failed=yes
else
    echo 'skipped: there is no Java 17 or later, so its records are not compared'
fi
for language in $languages; do
    for layout in $layouts; do compare "$layout in C and in $language" "$(cat "$work/$layout.c")" "$(cat "$work/$layout.$language")"; done
done

# --- The copybooks: each item shows its columns, and gives them to another record.

# A program with a record of each layout, as its copybook has it, twice
copying_program() {
    local layout prefix
    printf '%s\n' '       IDENTIFICATION DIVISION.' '       PROGRAM-ID. COPIES.' '       DATA DIVISION.' '       WORKING-STORAGE SECTION.'
    for layout in $layouts; do
        printf '%s\n' "       01  A-${layout//_/-}." "           COPY \"fantanolive-${layout//_/-}.cpy\"." "       01  B-${layout//_/-}." "           COPY \"fantanolive-${layout//_/-}.cpy\"."
    done
    printf '%s\n' '       PROCEDURE DIVISION.' '       MAIN-PART.'
    for layout in $layouts; do
        prefix=$(sed -nE 's/.*LEADING ==([A-Z]+)-==.*/\1/p' "package/cobol/fantanolive-${layout//_/-}.cpy")
        printf '%s\n' "           ACCEPT A-${layout//_/-}" "           MOVE SPACES TO B-${layout//_/-}"
        fields | awk -v layout="$layout" -v prefix="$prefix" '$1 == layout && $5 != "filler" {
            name = toupper(prefix "-" $4); gsub("_", "-", name); record = layout; gsub("_", "-", record); n = $3 - $2 + 1
            print "           DISPLAY " name
            print "             OF A-" record "(1:" n ")"
            print "           MOVE " name
            print "             OF A-" record "(1:" n ")"
            print "             TO " name
            print "             OF B-" record "(1:" n ")" }'
        printf '%s\n' "           DISPLAY B-${layout//_/-}"
    done
    printf '%s\n' '           STOP RUN.'
}

# What it prints of records whose columns are letters and digits in turn
copies_wanted() {
    local layout record
    for layout in $layouts; do
        record=$(record_of "$layout")
        fields | while read -r own first last _ kind _; do
            [ "$own" != "$layout" ] || [ "$kind" = filler ] || echo "${record:first-1:last-first+1}"
        done
        fields | awk -v layout="$layout" -v record="$record" '$1 == layout { part = substr(record, $2, $3 - $2 + 1); if ($5 == "filler") gsub(".", " ", part); out = out part } END { print out }'
    done
}

record_of() {
    awk -v layout="$1" '$1 == layout { width = $2 } END { for (i = 0; i < width; i++) printf "%s", substr("ABCDEFGHIJKLMNOPQRSTUVWXYZ0123456789abcdefghijklmnopqrstuvwxyz", i * 7 % 62 + 1, 1) }' <<<"$widths"
}
if command -v cobc >/dev/null; then
    copying_program >"$work/copies.cob"
    if cobc -x -Ipackage/cobol -o "$work/copies" "$work/copies.cob" 2>"$work/errors"; then
        for layout in $layouts; do record_of "$layout" && echo; done | "$work/copies" >"$work/copied"
        compare 'copybooks in GnuCOBOL' "$(sed 's/ *$//' "$work/copied")" "$(copies_wanted | sed 's/ *$//')"
    else
        cat "$work/errors"
        failed=yes
    fi
else
    echo 'skipped: GnuCOBOL is not installed, so the copybooks are not compiled'
fi

[ -z "$failed" ] || exit 1
echo "layouts: $(wc -w <<<"$layouts") layouts, $(fields | wc -l) fields, C $languages"
