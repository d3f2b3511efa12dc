#!/usr/bin/env bash
# examples/dask: 54 small states on four local workers of Dask, one of which is killed in the middle; and what the program says of the state that it was at work on.
# Skipped where no Python has distributed (Debian's python3-distributed).
set -u
export LC_ALL=C PYTHONDONTWRITEBYTECODE=1
root=$(dirname -- "$(dirname -- "$(readlink -f -- "$0")")")
cd -- "$root" || exit 2
python=
for one in python3 /usr/bin/python3; do
    if "$one" -c 'import distributed, sys; sys.exit(sys.version_info < (3, 8))' 2>/dev/null; then
        python=$one
        break
    fi
done
if [ -z "$python" ]; then
    echo "skipped: no Python has Dask's distributed"
    exit 0
fi
work=$(mktemp -d) || exit 2
trap 'rm -rf -- "$work"' EXIT
bin/build-shared >/dev/null || exit 1
mkdir "$work/states"
export PYTHONPATH=$root/bindings/python:$root/examples/dask FANTANOLIVE_LIBRARY=$root/target/sharedlib/libfantanolive.so
if ! (cd -- "$work" && timeout 120 "$python" "$root/tests/dask/run.py" "$work/states") >"$work/out" 2>"$work/err"; then
    cat "$work/err" "$work/out"
    exit 1
fi
cat "$work/out"
if [ -x target/program/fantanolive ]; then
    if ! target/program/fantanolive log "$work/states/OH/master.bin" | grep -q 'apply: carried out$'; then
        echo 'dask: the program says otherwise:'
        target/program/fantanolive log "$work/states/OH/master.bin"
        exit 1
    fi
    target/program/fantanolive take-back "$work/states/OH/master.bin" "$work/states/OH/journal.bin" >"$work/out" 2>&1 || { cat "$work/out"; exit 1; }
fi
