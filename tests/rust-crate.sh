#!/usr/bin/env bash
# The Rust crate as a maker gets it: nothing in it panics by its words, its documentation has no warning, and a program outside the repository is built with
# the installed crate and run, the library found by pkg-config, by the crate's own place, and by its folders. Prints each case that fails, and then status 1.
# Skipped is, with a line, what wants pkg-config.
set -u
export LC_ALL=C
umask 022
root=$(dirname -- "$(dirname -- "$(readlink -f -- "$0")")")
cd -- "$root" || exit 2
unset FANTANOLIVE_LIB_DIR FANTANOLIVE_INCLUDE_DIR PKG_CONFIG PKG_CONFIG_PATH PKG_CONFIG_LIBDIR DESTDIR
export CARGO_TARGET_DIR=$root/target/rust
work=$(mktemp -d) || exit 2
trap 'rm -rf -- "$work"' EXIT
failed=

# want WHAT FOUND WANTED
want() {
    if [ "$2" != "$3" ]; then
        printf 'rust-crate: %s: [%s], not [%s]\n' "$1" "$2" "$3"
        failed=yes
    fi
}

want 'words that panic' "$(grep -nE '\.(unwrap|expect)\(|\b(panic|unreachable|todo|unimplemented|assert|assert_eq)!' bindings/rust/src/*.rs | grep -v '^[^:]*:[0-9]*://!')" ''
want 'warnings of the documentation' "$(RUSTDOCFLAGS='-D warnings' cargo doc --quiet --offline --no-deps --manifest-path bindings/rust/Cargo.toml 2>&1)" ''

# --- Outside the repository.

bin/install --without-program "$work/package" >/dev/null || exit 1
mkdir -p "$work/program/src" "$work/elsewhere"
cp bindings/rust/examples/judge.rs "$work/program/src/main.rs"

# uses CRATE: the program takes the crate from a folder
uses() {
    printf '[package]\nname = "judge"\nversion = "1.0.0"\nedition = "2021"\n\n[dependencies]\nfantanolive = { path = "%s" }\n\n[workspace]\n' "$1" >"$work/program/Cargo.toml"
}

# run [NAME=VALUE]..: builds and runs the program with these variables
run() {
    (cd -- "$work/program" && CARGO_TARGET_DIR=$work/target env "$@" cargo run --quiet --offline) 2>&1
}

expected=$(cat bindings/rust/judge.txt)
uses "$work/package/share/fantanolive/rust"
want 'by its own place' "$(run PKG_CONFIG=/nowhere)" "$expected"
cp -r "$work/package/share/fantanolive/rust" "$work/elsewhere/fantanolive"
uses "$work/elsewhere/fantanolive"
want 'not found' "$(run PKG_CONFIG=/nowhere | grep -o 'the Fantanolive library is not found: set PKG_CONFIG_PATH')" 'the Fantanolive library is not found: set PKG_CONFIG_PATH'
want 'by its folders' "$(run PKG_CONFIG=/nowhere "FANTANOLIVE_LIB_DIR=$work/package/lib" "FANTANOLIVE_INCLUDE_DIR=$work/package/include")" "$expected"
if command -v pkg-config >/dev/null; then
    want 'by pkg-config' "$(run "PKG_CONFIG_PATH=$work/package/lib/pkgconfig")" "$expected"
else
    echo 'skipped: pkg-config is not installed'
fi

[ -z "$failed" ] || exit 1
echo 'rust-crate: passed'
