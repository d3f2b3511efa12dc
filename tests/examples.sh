#!/usr/bin/env bash
# Builds each example, runs it and compares what it prints with what was worked out by hand. A line for each; status 1 at the first that
# differs or fails. The library and apply-batch are built where they are missing or older than a file of crates/.
set -eu
cd -- "$(dirname -- "$(readlink -f -- "$0")")/.."
library=target/staticlib/libfantanolive.a
log=target/examples/build.log
mkdir -p target/examples
# shellcheck source=tests/fresh-apply-batch.sh
. tests/fresh-apply-batch.sh
if [ -f "$library" ] && ! newer_crates "$library"; then only=--examples; else only=; fi
if ! { bin/build-library $only && fresh_apply_batch; } >"$log" 2>&1; then
    cat "$log"
    echo "examples: not built"
    exit 1
fi

# the file with what it must print, and the program, which runs in a folder with the paper's batch
cp crates/apply_batch/data/batch.bin target/examples/batch.bin
compare() {
    if (cd target/examples && ./"$2" >"$2".out) && diff "$1" target/examples/"$2".out; then
        echo "$1: passed"
    else
        echo "$1 $2: failed"
        exit 1
    fi
}

compare examples/c/expected.txt apply-c
compare examples/c/contacts-expected.txt contacts-c
compare examples/c/post.txt post-c
if command -v cobc >/dev/null; then
    compare examples/cobol/expected.txt apply-cobol
    compare examples/cobol/post.txt post-cobol
    compare examples/cobol/rejects.txt rejects-cobol
else
    echo "skipped: GnuCOBOL is not installed"
fi
compare bindings/rust/expected.txt apply-rust
if bin/paper-example >target/examples/paper.out && diff examples/paper/expected.txt target/examples/paper.out; then
    echo "examples/paper: passed"
else
    echo "examples/paper: failed"
    exit 1
fi
