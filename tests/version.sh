#!/usr/bin/env bash
# Holds every copy of the version against include/fantanolive.h: the numbers there, the newest entry of CHANGELOG.md, the Python module, the Cargo files
# of the Rust crate, of the program and of the Rust tests, the soname and the names of packages in README.md and the manual. Prints each that differs, and then status 1.
set -u
cd -- "$(dirname -- "$(readlink -f -- "$0")")/.." || exit 2
version=$(bin/version)
failed=

# holds WHAT FOUND
holds() {
    if [ "$2" != "$version" ]; then
        echo "version: $1 has '$2', include/fantanolive.h '$version'"
        failed=yes
    fi
}

part() {
    sed -n "s/^#define FANTANOLIVE_VERSION_$1 \([0-9]*\)\$/\1/p" include/fantanolive.h
}

holds 'its numbers' "$(part MAJOR).$(part MINOR).$(part PATCH)"
holds CHANGELOG.md "$(sed -n 's/^## \[\([0-9.]*\)\] - [0-9-]*$/\1/p' CHANGELOG.md | head -n 1)"
for file in bindings/rust/Cargo.toml program/Cargo.toml; do
    holds "$file" "$(sed -n 's/^version = "\(.*\)"$/\1/p' "$file" | head -n 1)"
done
for file in bindings/rust/Cargo.lock program/Cargo.lock tests/rust/Cargo.lock; do
    holds "$file" "$(awk -F '"' '$1 == "name = " { own = $2 ~ /^fantanolive/ } own && $1 == "version = " { print $2 }' "$file" | sort -u)"
done
if [ "$(grep -o 'libfantanolive\.so\.[0-9]*' docs/MANUAL.md | sort -u)" != "libfantanolive.so.$(part MAJOR)" ]; then
    echo "version: docs/MANUAL.md doesn't name the soname libfantanolive.so.$(part MAJOR) alone"
    failed=yes
fi
holds "README.md and docs/MANUAL.md, names of packages," "$(grep -ohE 'fantanolive[-_][0-9]+\.[0-9]+\.[0-9]+' README.md docs/MANUAL.md | sed 's/.*[-_]//' | sort -u)"
holds bindings/python "$(sed -n "s/^VERSION = '\(.*\)'\$/\1/p" bindings/python/fantanolive/_header.py)"
[ -z "$failed" ] || exit 1
echo "version: $version everywhere"
