#!/usr/bin/env bash
# Counts the instructions of one call with callgrind, case by case, of the library and of the speed engine, and prints them in
# millions. Cases can be named; without any all are counted. It wants bin/build-library before it, or another library in
# FANTANOLIVE_LIB_DIR, and valgrind.
set -u
root=$(dirname -- "$(dirname -- "$(readlink -f -- "$0")")")
cd -- "$root" || exit 2
if ! command -v valgrind >/dev/null; then
    echo "instructions: no valgrind, nothing is counted"
    exit 0
fi
export CARGO_TARGET_DIR="$root/target/rust" FANTANOLIVE_LIB_DIR="${FANTANOLIVE_LIB_DIR:-$root/target/staticlib}"
cargo build --quiet --release --offline --manifest-path tests/rust/Cargo.toml -p benchmark || exit 1
said=$(mktemp) || exit 2
trap 'rm -f -- "$said"' EXIT

# The millions of instructions of one call: case, engine.
count() {
    valgrind --tool=callgrind --callgrind-out-file=/dev/null --toggle-collect=measured_call \
        target/rust/release/benchmark --once "$1" "$2" 2>"$said" >/dev/null || {
        cat -- "$said" >&2
        exit 1
    }
    awk '/Collected/ { printf "%.1f", $4 / 1e6 }' "$said"
}

both="find find-10-names find-100-names reconcile 100-changes 8192-changes 16384-changes 32768-changes 65535-changes"
both+=" 262144-changes in-order-changes 65535-adds 1000-codes 1000-codes-blank 19660-adds mixed half-known-adds one-key post post-in-order post-one-row contacts to-ebcdic to-ascii"
later=
later+=" journaled-100-changes journaled-65535-changes journaled-65535-adds"
later+=" take-back-100-changes take-back-65535-changes take-back-19660-adds"
later+=" find-10-keys find-65535-keys"
later+=" merge"
later+=" pages"
later+=" totals"
[ "$#" -gt 0 ] || set -- $both $later
printf '%-24s%10s%10s\n' "case" library speed
for name in "$@"; do
    case " $both " in
    *" $name "*) speed=$(count "$name" speed) ;;
    *) speed=- ;;
    esac
    printf '%-24s%10s%10s\n' "$name" "$(count "$name" library)" "$speed"
done
