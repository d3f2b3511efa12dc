#!/usr/bin/env bash
# The jar, built and used by javac and java alone: every call with its refusals, arrays that are lent, threads, the example, and the native library named by a
# property. Skipped where there is no JDK of version 17 or later.
set -u
export LC_ALL=C
root=$(dirname -- "$(dirname -- "$(readlink -f -- "$0")")")
cd -- "$root" || exit 2
if ! [ "$(javac -version 2>&1 | sed -n 's/^javac \([0-9]*\).*/\1/p')" -ge 17 ] 2>/dev/null || ! command -v java >/dev/null; then
    echo 'skipped: there is no JDK of version 17 or later'
    exit 0
fi
work=$(mktemp -d) || exit 2
trap 'rm -rf -- "$work"' EXIT
bin/build-jar >"$work/out" 2>&1 || { cat "$work/out"; exit 1; }
version=$(bin/version)
jar=$root/target/java/fantanolive-$version.jar
javac -Xlint:all -Werror -d "$work" -cp "$jar" bindings/java/tests/CallsTest.java bindings/java/examples/Judge.java || exit 1
cd -- "$work" || exit 2
java -Xcheck:jni -Djava.io.tmpdir="$work" -cp "$jar:." CallsTest "$version" || exit 1
java -cp "$jar:." Judge | diff "$root/bindings/java/judge.txt" - || exit 1
if [ -n "$(find . -name 'fantanolive*')" ]; then
    echo 'java: a copy of the native library is left'
    exit 1
fi
(mkdir unpacked && cd unpacked && jar --extract --file "$jar")
java -Dfantanolive.library=unpacked/fantanolive/libfantanolive_java.so -cp "$jar:." Judge | diff "$root/bindings/java/judge.txt" - || exit 1
if java -Dfantanolive.library=/nowhere.so -cp "$jar:." Judge >out 2>&1 || ! grep -q "/nowhere.so" out; then
    echo 'java: a native library that is missing is not told'
    exit 1
fi
echo 'java: passed'
