#!/usr/bin/env bash
# Tests of the Python module over the shared library, which is linked first; that what the module has of the headers is what they say; the paper's example; its
# types, where mypy is installed; and the wheel, installed by pip into an empty folder, where pip is, with the same tests over it. Skipped where there is no
# Python 3.8 or later.
set -u
cd -- "$(dirname -- "$(readlink -f -- "$0")")/.." || exit 2
if ! python3 -c 'import sys; sys.exit(sys.version_info < (3, 8))' 2>/dev/null; then
    echo 'skipped: there is no Python 3.8 or later'
    exit 0
fi
work=$(mktemp -d) || exit 2
trap 'rm -rf -- "$work"' EXIT
export PYTHONDONTWRITEBYTECODE=1
bindings/python/generate --check || exit 1
bin/build-shared >/dev/null || exit 1

# tried: the tests and the example with the module that is found
tried() {
    python3 -m unittest discover --quiet -s bindings/python/tests && python3 bindings/python/examples/apply.py | diff examples/c/expected.txt -
}

PYTHONPATH=$PWD/bindings/python FANTANOLIVE_LIBRARY=$PWD/target/sharedlib/libfantanolive.so tried || exit 1

if command -v mypy >/dev/null; then
    (cd bindings/python && mypy --strict --no-error-summary --cache-dir="$work/mypy" fantanolive) || exit 1
    MYPYPATH=bindings/python mypy --no-error-summary --cache-dir="$work/mypy" bindings/python/examples/judge.py || exit 1
else
    echo 'skipped: mypy is not installed'
fi

bin/build-wheel >/dev/null || exit 1
wheel=$(echo target/wheel/fantanolive-"$(bin/version)"-*.whl)
if python3 -m pip --version >/dev/null 2>&1; then
    PIP_DISABLE_PIP_VERSION_CHECK=1 PIP_ROOT_USER_ACTION=ignore python3 -m pip install --quiet --no-index --no-deps --no-compile --target "$work/site" "$wheel" || exit 1
else
    echo 'skipped: there is no pip; the wheel is unpacked'
    python3 -m zipfile -e "$wheel" "$work/site" || exit 1
fi
PYTHONPATH=$work/site tried || exit 1
found=$(cd -- "$work" && PYTHONPATH=$work/site python3 -c 'import fantanolive; fantanolive.library_version(); print(fantanolive._library.path())')
if [ "$found" != "$(readlink -f -- "$work")/site/fantanolive/libfantanolive.so.$(bin/version | cut -d. -f1)" ]; then
    echo "python: the wheel's module takes the library $found"
    exit 1
fi
(cd -- "$work" && PYTHONPATH=$work/site python3 "$OLDPWD/bindings/python/examples/judge.py") | diff bindings/python/judge.txt - || exit 1
echo 'python: passed'
