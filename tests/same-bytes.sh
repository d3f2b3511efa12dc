#!/usr/bin/env bash
# Builds everything from a copy of the source in another folder, in another time zone and with another mask, and compares the packages (bin/package) with those of this folder:
# the same bytes in every file, and no path of either folder in the programs or the libraries. The archive is proved and built there too (rt begins with what it kept here); it is copied, with a
# line, where the Rattle kit is missing or a crate has changed since it was built. Wants the built programs. Prints what differs, and then status 1.
set -u
export LC_ALL=C PYTHONDONTWRITEBYTECODE=1
root=$(dirname -- "$(dirname -- "$(readlink -f -- "$0")")")
cd -- "$root" || exit 2
unset DESTDIR SOURCE_DATE_EPOCH
if [ ! -x target/program/fantanolive ]; then
    echo 'same-bytes: target/program/fantanolive is not built (bin/build-program)' >&2
    exit 1
fi
work=$(mktemp -d) || exit 2
trap 'rm -rf -- "$work"' EXIT
other=$work/another/folder
mkdir -p "$other/program" "$other/target" || exit 2
cp -r agreement bin bindings docs examples include package CHANGELOG.md README.md "$other"
cp -r program/src "$other/program"
failed=

# built FOLDER COMMAND..: runs a command there
built() {
    if ! (cd -- "$1" && shift && umask 027 && TZ=Pacific/Auckland "$@") >"$work/out" 2>&1; then
        cat "$work/out"
        exit 1
    fi
}
archive=target/staticlib/libfantanolive.a
# shellcheck source=tests/fresh-apply-batch.sh
. tests/fresh-apply-batch.sh
if command -v rt >/dev/null && [ -f crates/fantanolive/out/libfantanolive.a ] && ! newer_crates "$archive"; then
    tar -cf - --anchored --no-wildcards-match-slash --exclude='crates/*/out' crates crates.txt | tar -xf - -C "$other"
    built "$other" bin/build-library --archive
else
    echo 'skipped: without the Rattle kit and the proved crates the archive is not built again'
    mkdir "$other/target/staticlib"
    cp "$archive" "$other/target/staticlib"
fi
built / "$other/bin/build-shared"
built / "$other/bin/build-program"
built / "$other/bin/build-docs"
[ ! -f "target/java/fantanolive-$(bin/version).jar" ] || built / "$other/bin/build-jar"
built / "$other/bin/package"
# shellcheck source=tests/fresh-packages.sh
. tests/fresh-packages.sh
fresh_packages >"$work/out" 2>&1 || { cat "$work/out"; exit 1; }
if ! cmp "$archive" "$other/$archive"; then
    echo 'same-bytes: another folder gives another archive'
    failed=yes
fi
for program in target/program/fantanolive{,-agree}; do
    if ! cmp "$program" "$other/$program"; then
        echo 'same-bytes: another folder gives another program (was bin/build-program run on this source?)'
        failed=yes
    fi
done
if ! diff target/packages/SHA256SUMS "$other/target/packages/SHA256SUMS"; then
    echo 'same-bytes: another folder gives other packages'
    failed=yes
fi
for path in "$root" "$work" "${HOME:-/root}/"; do
    if grep -aqF -- "$path" {,"$other/"}{target/program/fantanolive,target/program/fantanolive-agree,target/sharedlib/libfantanolive.so,"$archive"}; then
        echo "same-bytes: a program or a library has the path $path in it"
        failed=yes
    fi
done
[ -z "$failed" ] || exit 1
echo "same-bytes: $(wc -l <target/packages/SHA256SUMS) packages are the same in two folders"
