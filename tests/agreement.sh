#!/usr/bin/env bash
# Agreement with another engine, with the program target/program/fantanolive, which starts fantanolive-agree, and the reference behind the C interface as the other engine:
# `agree` finds no difference and sees everything; every fixed case holds over the library, the reference and the example in Python; faults
# planted in copies of the reference are found by `agree` and by the fixed cases; crashes, hangs and writing outside are told; what is
# saved is replayed; the run in the manual is as it is shown there. With --long all faults are planted, a million cases are run and
# the limits tried in full. It prints a line for each case that fails, and at the end `agreement: N cases passed`. Skipped is, with a line, what wants Python.
set -u
export LC_ALL=C PYTHONDONTWRITEBYTECODE=1
root=$(dirname -- "$(dirname -- "$(readlink -f -- "$0")")")
cd -- "$root" || exit 2
export CARGO_TARGET_DIR="$root/target/rust" FANTANOLIVE_LIB_DIR="$root/target/staticlib"
cases=20000
faults=(error_08_of_25 order_20_before_6 m_keeps_cents place_twice)
if [ "${1-}" = --long ]; then
    cases=1000000
    faults=()
fi
program=target/program/fantanolive
work=$(mktemp -d) || exit 2
trap 'rm -rf -- "$work"' EXIT
passed=0
failed=0

# want WHAT FOUND WANTED
want() {
    if [ "$2" = "$3" ]; then
        passed=$((passed + 1))
    else
        failed=$((failed + 1))
        printf 'agreement: %s: [%s], not [%s]\n' "$1" "$2" "$3"
    fi
}

cargo build --quiet --release --offline --manifest-path tests/rust/Cargo.toml -p engine -p faults || exit 1
reference=$CARGO_TARGET_DIR/release/libengine.so
library=target/sharedlib/libfantanolive.so

# --- The reference agrees, and everything is seen.

"$program" agree "$reference" --cases "$cases" --seed 1 >"$work/out" 2>"$work/err"
want 'the reference' "$? $(head -1 "$work/out" | sed 's/in [0-9,]* cases/in N cases/') $(cat "$work/err")" '0 no difference in N cases '
want 'what was never seen' "$(grep 'not seen' "$work/out")" ''
"$program" agree "$library" --cases 2000 --seed 2 --json >"$work/out" 2>"$work/err"
want 'the library itself' "$? $(grep -c '"outcome":"no difference' "$work/out")" '0 1'
"$program" agree "$reference" --calls find,merge --cases 2000 --seed 3 >"$work/out"
want 'some calls' "$? $(grep -c '^apply' "$work/out") $(grep -c '^merge' "$work/out")" '0 0 1'

# --- The kit is in the second program alone, which takes the same arguments.

want 'the kit in the first program' "$(grep -ac FANTANOLIVE_AGREE_LIBRARY "$program")" 0
want 'the kit in the second program' "$(grep -ac FANTANOLIVE_AGREE_LIBRARY "$program-agree" | sed 's/^[1-9][0-9]*$/there/')" there
"$program-agree" "$reference" --calls find,merge --cases 2000 --seed 3 >"$work/own"
want 'the second program by itself' "$? $(diff <(sed 's/, [0-9.]* seconds$//' "$work/out") <(sed 's/, [0-9.]* seconds$//' "$work/own"))" '0 '

if [ "${1-}" = --long ]; then
    "$program" agree "$reference" --cases 1 --limits --json >"$work/out"
    want 'the limits in full' "$? $(grep -o '"limits":[0-9]*' "$work/out") $(grep -c '"beyond":\[\]' "$work/out")" '0 "limits":32 1'
fi

# --- The fixed cases.

"$program" agree "$library" --replay agreement/cases >"$work/out"
want 'the fixed cases over the library' "$? $(head -1 "$work/out" | sed 's/in [0-9,]* cases/in N cases/')" '0 no difference in N cases'
"$program" agree "$reference" --replay agreement/cases >"$work/out"
want 'the fixed cases over the reference' "$? $(head -1 "$work/out" | sed 's/in [0-9,]* cases/in N cases/')" '0 no difference in N cases'
cargo test --quiet --offline --manifest-path agreement/kit/Cargo.toml >"$work/out" 2>&1
status=$?
want 'sentences and cases' "$status" 0
[ "$status" = 0 ] || cat "$work/out"
if python3 -c 'import sys; sys.exit(sys.version_info < (3, 8))' 2>/dev/null; then
    want 'the descriptions' "$(python3 agreement/make/make.py "$library" "$reference" --check | tail -1 | sed 's/^[0-9]* //')" 'cases, 0 wrong'
    for engine in "$library" "$reference" agreement/example.py; do
        python3 agreement/run.py "$engine" >"$work/out"
        want "run.py over ${engine##*/}" "$? $(tail -1 "$work/out" | sed 's/^[0-9]* //; s/, [0-9]* left out//')" '0 cases, 0 differ'
    done
    "$program" agree agreement/example.py --cases 1500 --seed 4 >"$work/out"
    want 'the example in Python' "$? $(head -1 "$work/out" | sed 's/in [0-9,]* cases/in N cases/')" '0 no difference in N cases'
else
    echo 'skipped: there is no Python 3.8 or later'
fi

# --- Faults.

"$CARGO_TARGET_DIR/release/faults" "$program" "${faults[@]}" >"$work/out" 2>&1
want 'planted faults' "$? $(grep -c NOT "$work/out")" '0 0'
if [ "$failed" != 0 ] || [ "${1-}" = --long ]; then cat "$work/out"; fi

# --- Engines that crash, hang, write outside or end.

# engine NAME BODY: a library of one call, fantanolive_find
engine() {
    printf '#include <stdint.h>\n#include <stdlib.h>\n#include <unistd.h>\nuint64_t fantanolive_find(const uint8_t *master, size_t length, size_t rows, const uint8_t *key, size_t key_length, uint64_t *place) { (void)master; (void)length; (void)rows; (void)key; (void)key_length; (void)place; %s }\n' "$2" >"$work/$1.c"
    ${CC:-cc} -shared -fPIC -O1 -o "$work/$1.so" "$work/$1.c"
}

# told NAME WORDS: that the first difference of the engine says this
told() {
    "$program" agree "$work/$1.so" --cases "${3-60}" --seed 5 >"$work/out"
    want "an engine that $1" "$? $(grep -c "$2" "$work/out" | sed 's/^[1-9][0-9]*$/told/')" '1 told'
}

engine crashes 'return *(volatile uint64_t *)0;'
told crashes 'it crashed (SIGSEGV'
engine 'reads-outside' 'return ((volatile const uint8_t *)key)[key_length] + 0u;'
told 'reads-outside' 'it crashed (SIGSEGV'
engine 'writes-outside' '((volatile uint64_t *)place)[1] = 7; ((volatile uint64_t *)place)[-1] = 7; return 15;'
told 'writes-outside' 'it wrote outside place\|it crashed (SIGSEGV'
engine ends 'exit(4);'
told ends 'it ended with status 4'
engine 'writes-a-key' '*(volatile uint8_t *)(uintptr_t)key ^= 1; return 15;'
told 'writes-a-key' 'they part in key'
engine hangs 'for (;;) pause();'
told hangs 'it gave no answer in the time limit' 1

# --- What is saved is replayed.

"$CARGO_TARGET_DIR/release/faults" --build error_08_of_25 "$work/faulty.so" || exit 1
"$program" agree "$work/faulty.so" --cases 2000 --seed 1 --save "$work/saved" >"$work/out"
want 'a fault' "$? $(grep -c '08 (A): digits, below 25' "$work/out" | sed 's/^[1-9][0-9]*$/named/')" '1 named'
"$program" agree "$work/faulty.so" --replay "$work/saved" >"$work/out"
want 'what was saved, over the same engine' "$? $(grep -c '^difference' "$work/out")" "1 $(find "$work/saved" -name '*.txt' | wc -l)"
"$program" agree "$reference" --replay "$work/saved" >"$work/out"
want 'what was saved, over a right one' "$?" 0

# --- The run that the manual shows, up to the table and but for its time.

timeless() {
    sed 's/, [0-9.]* seconds$/, N seconds/'
}
sed -n '/^\$ fantanolive agree libother.so /,/^```$/p' docs/MANUAL.md | sed '$d' >"$work/manual"
read -ra command < <(sed -n '1s/^\$ //p' "$work/manual")
cp -- "$work/faulty.so" "$work/libother.so"
(cd -- "$work" && "$root/$program" "${command[@]:1}") >"$work/out" 2>&1
want 'the run in the manual' "$(diff <(sed 1d "$work/manual" | timeless) <(sed '/^seen$/,$d' "$work/out" | sed '$d' | timeless))" ''

# --- What can't be run is said.

for arguments in "$work/none.so" "$work/saved" "$reference --calls nothing" "$reference --up-to 15" "$reference --replay $work/none"; do
    # shellcheck disable=SC2086
    "$program" agree $arguments >/dev/null 2>"$work/err"
    want "status of agree $arguments" "$?" 3
done
printf 'no library\n' >"$work/broken.so"
"$program" agree "$work/broken.so" >/dev/null 2>"$work/err"
want 'a file that is no library' "$?" 3
printf 'no program\n' >"$work/broken"
for mode in 644 755; do
    chmod "$mode" "$work/broken"
    "$program" agree "$work/broken" >/dev/null 2>"$work/err"
    want "a file that is no program, mode $mode" "$? $(sed 's/^.*: //' "$work/err")" '3 it is neither a shared library (by its name, *.so) nor a program that may be run'
done

if [ "$failed" != 0 ]; then
    echo "agreement: $failed failed, $passed passed"
    exit 1
fi
echo "agreement: $passed cases passed"
