#!/usr/bin/env bash
# Replays every command of the `console` blocks of docs/MANUAL.md, in order, in a temporary folder (tests/replay.sh), and compares what each prints with what is
# shown there. Wants the built program. Prints each difference, and then status 1.
# With --write it puts what the commands print now into the manual in place of what is shown; what has changed is then for a person to read.
set -u
export LC_ALL=C
umask 022
root=$(dirname -- "$(dirname -- "$(readlink -f -- "$0")")")
manual=$root/docs/MANUAL.md
case "$*" in
'' | --write) ;;
*)
    echo "usage: tests/manual.sh [--write]" >&2
    exit 2
    ;;
esac
if [ ! -x "$root/target/program/fantanolive" ]; then
    echo 'manual: target/program/fantanolive is not built (bin/build-program)' >&2
    exit 1
fi
work=$(mktemp -d) || exit 2
trap 'rm -rf -- "$work"' EXIT
# shellcheck source=tests/replay.sh
. "$root/tests/replay.sh"

mkdir "$work/folder"
PATH=$root/target/program:$PATH
cd -- "$work/folder" || exit 2
if [ "$*" = --write ]; then
    replay_all "$manual" >/dev/null
    cp -- "$work/new" "$manual"
    echo "manual: $commands commands replayed, and written"
    exit 0
fi
replay_all "$manual"
[ -z "$failed" ] || exit 1
echo "manual: $commands commands replayed"
