#!/usr/bin/env bash
# Replays the quick start of README.md with the tarball of bin/package, in an empty folder, without the program of the repository and without the Rattle kit on the
# path, and compares what each command prints with what is shown there; and holds that of the manual against it. It must take less than five minutes, and takes
# seconds. Wants the built program. Prints each difference, and then status 1. With --write it puts what the commands print now into both.
set -u
export LC_ALL=C PYTHONDONTWRITEBYTECODE=1
umask 022
root=$(dirname -- "$(dirname -- "$(readlink -f -- "$0")")")
cd -- "$root" || exit 2
case "$*" in
'' | --write) ;;
*)
    echo "usage: tests/quick-start.sh [--write]" >&2
    exit 2
    ;;
esac
if [ ! -x target/program/fantanolive ]; then
    echo 'quick-start: target/program/fantanolive is not built (bin/build-program)' >&2
    exit 1
fi
work=$(mktemp -d) || exit 2
trap 'rm -rf -- "$work"' EXIT
# shellcheck source=tests/replay.sh
. tests/replay.sh
# shellcheck source=tests/fresh-packages.sh
. tests/fresh-packages.sh
fresh_packages >"$work/said" 2>&1 || { cat "$work/said"; exit 1; }

# section FILE: the quick start of a file
section() {
    awk '/^## / { on = $0 == "## Quick start"; next } on' "$1"
}

mkdir "$work/folder"
cp target/packages/fantanolive-"$(bin/version)"-x86_64-linux.tar.gz "$work/folder"
PATH=/usr/bin:/bin
cd -- "$work/folder" || exit 2
began=$SECONDS
if [ "$*" = --write ]; then
    replay_all "$root/README.md" >/dev/null
    cp -- "$work/new" "$root/README.md"
    section "$root/README.md" | sed -n '1,/^`fantanolive --help`/p' | sed 's/^```console$/```console quick-start/' >"$work/section"
    awk -v file="$work/section" '/^## / { on = $0 == "## Quick start" } on && /^$/ && !done { while ((getline line <file) > 0) print line; done = 1; skip = 1 }
        skip { if (/^`fantanolive --help`/) skip = 0; next } { print }' "$root/docs/MANUAL.md" >"$work/manual"
    cp -- "$work/manual" "$root/docs/MANUAL.md"
    echo "quick-start: $commands commands replayed, and written"
    exit 0
fi
replay_all "$root/README.md"
if [ $((SECONDS - began)) -gt 300 ]; then
    echo "quick-start: $((SECONDS - began)) seconds"
    failed=yes
fi
if ! diff <(section "$root/README.md" | sed -n '1,/^`fantanolive --help`/p') \
    <(section "$root/docs/MANUAL.md" | sed -n '1,/^`fantanolive --help`/p' | sed 's/^```console quick-start$/```console/'); then
    echo 'quick-start: that of README.md (<) and that of the manual (>) differ'
    failed=yes
fi
[ -z "$failed" ] || exit 1
echo "quick-start: $commands commands replayed in $((SECONDS - began)) seconds"
