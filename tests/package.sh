#!/usr/bin/env bash
# The package: what the shared library shows, and bin/install into temporary folders. The C example is compiled, linked and run through pkg-config
# alone, shared and from the archive, in a prefix with spaces in its path, in one that was moved, and under DESTDIR. The Python module and the program
# are run from where they are installed. It prints a line for each case that fails, and at the end `package: N cases passed`. It writes in a temporary
# folder, and links target/sharedlib anew. Skipped are, with a line, the parts that want pkg-config, a static C library, Python or the program.
set -u
export LC_ALL=C PYTHONDONTWRITEBYTECODE=1
umask 022
root=$(dirname -- "$(dirname -- "$(readlink -f -- "$0")")")
cd -- "$root" || exit 2
unset DESTDIR PREFIX FANTANOLIVE_LIBRARY LD_LIBRARY_PATH
work=$(mktemp -d) || exit 2
trap 'rm -rf -- "$work"' EXIT
passed=0
failed=0

# want WHAT FOUND WANTED
want() {
    if [ "$2" = "$3" ]; then
        passed=$((passed + 1))
    else
        failed=$((failed + 1))
        printf 'package: %s: [%s], not [%s]\n' "$1" "$2" "$3"
    fi
}

bin/build-shared >/dev/null || exit 1
version=$(bin/version)
soname=libfantanolive.so.${version%%.*}
library=target/sharedlib/libfantanolive.so.$version
with=()
if [ ! -f target/program/fantanolive ]; then
    echo 'skipped: the program is not built, so it is not installed'
    with=(--without-program)
fi

# --- The libraries.

declared=$(sed -n 's/^\(uint64_t \|const char \*\)\(fantanolive_[a-z_]*\)(.*/\2/p' include/fantanolive.h | sort)
want 'names that the archive shows' "$(nm -g --defined-only target/staticlib/libfantanolive.a | awk 'NF == 3 { print $3 }' | sort)" "$declared"
want 'names that the library shows' "$(nm -D --defined-only "$library" | awk '{ print $3 }' | sort)" "$declared"
needed=$(nm -D --undefined-only "$library" | awk '$1 == "U" { sub("@.*", "", $2); print $2 }' | tr '\n' ' ')
want 'names that the library takes from others' "$needed" 'memcpy memmove memset '
want soname "$(readelf -dW "$library" | sed -n 's/.*(SONAME).*\[\(.*\)\]/\1/p')" "$soname"
want 'text relocations' "$(readelf -dW "$library" | grep -c TEXTREL)" 0
want 'stack' "$(readelf -lW "$library" | awk '$1 == "GNU_STACK" { print $(NF - 1) }')" RW
want 'links' "$(readlink target/sharedlib/libfantanolive.so) $(readlink "target/sharedlib/$soname")" "$soname libfantanolive.so.$version"

# --- What is installed.

# A line for each file under a folder: mode, or the link's target, and path.
listing() {
    (cd -- "$1" && find . -type f -printf '%m %P\n' -o -type l -printf '%l %P\n') | sort -k2
}

expected() {
    if [ ${#with[@]} -eq 0 ]; then
        printf '755 %s\n' bin/fantanolive libexec/fantanolive/fantanolive-agree
        for file in target/docs/man/man1/*; do echo "644 share/man/man1/${file##*/}"; done
        printf '644 share/%s\n' bash-completion/completions/fantanolive zsh/site-functions/_fantanolive fish/vendor_completions.d/fantanolive.fish
    fi
    [ ! -d target/docs/man/man3 ] || for file in target/docs/man/man3/*; do echo "644 share/man/man3/${file##*/}"; done
    echo '644 share/fantanolive/installed.txt'
    [ ! -f "target/java/fantanolive-$version.jar" ] || echo "644 share/java/fantanolive-$version.jar"
    printf '644 include/%s\n' fantanolive.h fantanolive_layout.h fantanolive_text.h
    printf '%s\n' '644 lib/libfantanolive.a' "$soname lib/libfantanolive.so" "libfantanolive.so.$version lib/$soname" "755 lib/libfantanolive.so.$version"
    printf '644 lib/cmake/fantanolive/%s.cmake\n' fantanolive-config-version fantanolive-config
    printf '644 lib/pkgconfig/%s.pc\n' fantanolive-static fantanolive
    printf '644 share/doc/fantanolive/%s\n' CHANGELOG.md JSON.md MANUAL.md agreement/README.md agreement/no-case.txt
    printf '755 share/doc/fantanolive/agreement/%s\n' example.py run.py
    for file in agreement/cases/*.txt; do echo "644 share/doc/fantanolive/$file"; done
    for file in examples/c/*.c examples/cobol/*.cob bindings/python/examples/*.py bindings/rust/examples/judge.rs bindings/java/examples/*.java; do echo "644 share/doc/fantanolive/examples/${file##*/}"; done
    for file in examples/dask/*; do echo "644 share/doc/fantanolive/examples/dask/${file##*/}"; done
    echo '644 share/fantanolive/layouts.json'
    for file in package/cobol/*.cpy; do echo "644 share/fantanolive/cobol/${file##*/}"; done
    printf '644 share/fantanolive/rust/%s\n' Cargo.toml README.md build.rs examples/judge.rs
    for file in bindings/rust/src/*.rs; do echo "644 share/fantanolive/rust/src/${file##*/}"; done
    for file in bindings/python/fantanolive/*.py bindings/python/fantanolive/py.typed; do echo "644 share/fantanolive/python/fantanolive/${file##*/}"; done
}

prefix="$work/a prefix, with spaces"
want 'what install says' "$(bin/install "${with[@]}" "$prefix")" "install: fantanolive $version in $prefix"
want 'what is installed' "$(listing "$prefix")" "$(expected | sort -k2)"
before=$(listing "$prefix")
want 'a second time' "$(bin/install "${with[@]}" "$prefix" && listing "$prefix")" "install: fantanolive $version in $prefix
$before"
(cd -- "$work" && "$root/bin/install" "${with[@]}" 'relative prefix') >/dev/null
want 'a relative prefix' "$(listing "$work/relative prefix")" "$before"
DESTDIR="$work/stage" bin/install "${with[@]}" /usr >/dev/null
want 'under DESTDIR' "$(listing "$work/stage/usr")" "$before"

for arguments in '' --without-program --uninstall --unknown '-x somewhere' 'one two'; do
    # shellcheck disable=SC2086
    bin/install $arguments >"$work/out" 2>"$work/err"
    want "status of install $arguments" "$? $(cat "$work/err")" '2 usage: install [--without-program] PREFIX
       install --uninstall PREFIX'
done
want 'install --help' "$(bin/install --help | head -n 1)" 'usage: install [--without-program] PREFIX'

# --- What is uninstalled: what was installed, and nothing else.

mkdir -p "$work/place in use/lib"
echo own >"$work/place in use/lib/own.txt"
bin/install "${with[@]}" "$work/place in use" >/dev/null
want 'what was there, in another list' "$(grep -c own.txt "$work/place in use/share/fantanolive/installed.txt")" 0
echo 'lib/libfantanolive.so.0.9.9' >>"$work/place in use/share/fantanolive/installed.txt"
echo '../outside.txt' >>"$work/place in use/share/fantanolive/installed.txt"
touch "$work/place in use/lib/libfantanolive.so.0.9.9" "$work/outside.txt"
bin/install "${with[@]}" "$work/place in use" >/dev/null
want 'a file of a version before' "$([ -e "$work/place in use/lib/libfantanolive.so.0.9.9" ] && echo there)" ''
want 'uninstall' "$(bin/install --uninstall "$work/place in use")" "install: uninstalled from $work/place in use"
want 'what is left' "$(cd -- "$work/place in use" && find . | sort)" '.
./lib
./lib/own.txt'
want 'outside' "$([ -e "$work/outside.txt" ] && echo there)" there
bin/install --uninstall "$work/place in use" >"$work/out" 2>"$work/err"
want 'uninstall twice' "$? $(cat "$work/err")" "2 install: there is no package in $work/place in use"
(cd -- "$work" && "$root/bin/install" --uninstall 'relative prefix') >/dev/null
want 'a prefix that is empty then' "$([ -e "$work/relative prefix" ] && echo there)" ''

mkdir "$work/unbuilt"
cp -r agreement bin bindings docs examples include package CHANGELOG.md "$work/unbuilt"
"$work/unbuilt/bin/install" "$work/nothing" >"$work/out" 2>"$work/err"
want 'status of install before anything is built' "$?" 2
want 'what it says' "$(sed 's/ is not built: .*//' "$work/err" | tr '\n' ' ')" \
    "install: target/staticlib/libfantanolive.a install: target/sharedlib/libfantanolive.so.$version install: target/program/fantanolive "
want 'what it installs' "$([ -e "$work/nothing" ] && echo something)" ''
mkdir -p "$work/unbuilt/target/sharedlib" "$work/unbuilt/target/staticlib"
cp "$library" "$work/unbuilt/target/sharedlib" && touch -d '1 hour ago' "$work/unbuilt/$library"
cp target/staticlib/libfantanolive.a "$work/unbuilt/target/staticlib"
"$work/unbuilt/bin/install" --without-program "$work/nothing" >"$work/out" 2>"$work/err"
want 'install of an old shared library' "$? $(cat "$work/err")" "2 install: $library is older than the archive: run bin/build-shared"
want 'what it installs then' "$([ -e "$work/nothing" ] && echo something)" ''
touch "$work/unbuilt/$library"
mkdir "$work/unbuilt/target/program" && touch "$work/unbuilt/target/program/fantanolive"
"$work/unbuilt/bin/install" "$work/nothing" >"$work/out" 2>"$work/err"
want 'install of one program alone' "$? $(sed 's/ is not built: .*//' "$work/err" | tr '\n' ' ')" '2 install: target/program/fantanolive-agree install: target/docs/man/man1/fantanolive.1 '
"$work/unbuilt/bin/install" --without-program "$work/without" >"$work/out"
want 'programs without the program' "$(cd -- "$work/without" && find . -name bin -o -name libexec -o -name man1)" ''
rm "$work/unbuilt/target/staticlib/libfantanolive.a"
"$work/unbuilt/bin/build-shared" >"$work/out" 2>"$work/err"
want 'build-shared without the archive' "$? $(cat "$work/err")" '2 build-shared: target/staticlib/libfantanolive.a is not built: run bin/build-library'

# --- The C example through pkg-config.

describe() {
    PKG_CONFIG_LIBDIR="$prefix/lib/pkgconfig" pkg-config "$@"
}

# built NAME MODULE OPTION..: compiles and links examples/c/apply.c and tests/text.c
built() {
    local name=$1 module=$2 options
    shift 2
    options=$(describe --cflags --libs "$module") || return 1
    eval "${CC:-cc} -std=c99 -Wall -Wextra -pedantic -Werror -o \"\$work/$name\" examples/c/apply.c $options $*" &&
        eval "${CC:-cc} -std=c99 -o \"\$work/$name-text\" tests/text.c $options $*"
}

needs() {
    readelf -dW "$work/$1" 2>/dev/null | grep -c "(NEEDED).*\[$soname\]"
}

# try_example WHERE
try_example() {
    want "$1: version" "$(describe --modversion fantanolive) $(describe --modversion fantanolive-static)" "$version $version"
    built shared fantanolive
    want "$1: shared" "$(LD_LIBRARY_PATH="$prefix/lib" "$work/shared" | diff examples/c/expected.txt - && needs shared)" 1
    built archive fantanolive-static
    want "$1: from the archive" "$("$work/archive" | diff examples/c/expected.txt - && needs archive)" 0
    want "$1: words" "$("$work/archive-text" | wc -l)" "$(grep -c '^    {[0-9]' include/fantanolive_text.h)"
    rm -f "$work"/shared* "$work"/archive*
}

static_libc() {
    printf 'int main(void) { return 0; }\n' >"$work/empty.c"
    ${CC:-cc} -static -o "$work/empty" "$work/empty.c" 2>/dev/null
}

if command -v pkg-config >/dev/null; then
    try_example 'a prefix with spaces'
    mv -- "$prefix" "$work/moved"
    prefix=$work/moved
    try_example 'a prefix that was moved'
    if static_libc; then
        built static fantanolive -static
        want 'wholly static' "$("$work/static" | diff examples/c/expected.txt - && needs static)" 0
    else
        echo 'skipped: there is no static C library'
    fi
    prefix=$work/stage/usr
    try_example 'under DESTDIR'
else
    echo 'skipped: pkg-config is not installed'
fi

# --- The commands of the manual, as they are pasted: the package in a folder fantanolive of the home folder.

# pasted HEADING N: the Nth block of indented lines below a heading of the manual
pasted() {
    awk -v heading="$1" -v wanted="$2" '/^#/ { inside = $0 == heading } !inside { next } /^    / { if (!block) found++; block = 1; if (found == wanted) print substr($0, 5); next } { block = 0 }' docs/MANUAL.md
}

home=$work/home
mkdir -p "$home"
bin/install "${with[@]}" "$home/fantanolive" >/dev/null
cp examples/c/apply.c "$home/program.c"
# in_home COMMANDS: runs them in the home folder, with nothing but it
in_home() {
    (cd -- "$home" && env -i HOME="$home" PATH="$PATH" bash -euc "$1") 2>&1
}
if command -v pkg-config >/dev/null; then
    want 'the C commands of the manual' "$(in_home "$(pasted '### C' 1)" | diff examples/c/expected.txt - && echo same)" same
    want 'without an rpath' "$(in_home "$(pasted '### C' 1 | sed 's/ -Wl,-rpath[^ ]*//')" | grep -c "$soname: cannot open shared object file")" 1
    want 'with LD_LIBRARY_PATH' "$(in_home 'LD_LIBRARY_PATH=$HOME/fantanolive/lib ./program' | diff examples/c/expected.txt - && echo same)" same
    want 'the archive, by the manual' \
        "$(in_home "export PKG_CONFIG_PATH=$home/fantanolive/lib/pkgconfig; $(pasted '### C' 2); ./program" | diff examples/c/expected.txt - && echo same)" same
fi
if command -v cobc >/dev/null; then
    cp examples/cobol/rejects.cob "$home/program.cob" && cp crates/apply_batch/data/batch.bin "$home"
    want 'the COBOL commands of the manual' "$(in_home "$(pasted '### COBOL' 1)" | diff examples/cobol/rejects.txt - && echo same)" same
    cp examples/cobol/apply.cob "$home/program.cob"
    want 'the same with CALL STATIC' "$(in_home "$(pasted '### COBOL' 1 | sed 's/ -fstatic-call//')" | diff examples/cobol/expected.txt - && echo same)" same
else
    echo 'skipped: GnuCOBOL is not installed'
fi
printf '#include <stdio.h>\n#include <fantanolive.h>\nint main(void) { return puts(fantanolive_version()) == EOF; }\n' >"$home/version.c"
want 'fantanolive_version' "$(in_home 'cc -Ifantanolive/include -o version version.c fantanolive/lib/libfantanolive.a; ./version')" "$version"
if command -v cmake >/dev/null; then
    mkdir "$home/project"
    { printf 'cmake_minimum_required(VERSION 3.10)\nproject(program C)\nadd_executable(program ../program.c)\n' && pasted '### C' 3
        printf 'add_executable(archive ../program.c)\ntarget_link_libraries(archive PRIVATE fantanolive::static)\n'
        printf 'find_package(fantanolive 1 QUIET)\nif(fantanolive_FOUND)\n message(FATAL_ERROR "version 1 found")\nendif()\n'; } >"$home/project/CMakeLists.txt"
    in_home 'cmake -S project -B project/build -DCMAKE_PREFIX_PATH=$HOME/fantanolive && cmake --build project/build' >"$work/out" || cat "$work/out"
    want 'CMake, shared' "$(in_home project/build/program | diff examples/c/expected.txt - && readelf -dW "$home/project/build/program" | grep -c "NEEDED.*$soname")" 1
    want 'CMake, archive' "$(in_home project/build/archive | diff examples/c/expected.txt - && readelf -dW "$home/project/build/archive" | grep -c "NEEDED.*$soname")" 0
else
    echo 'skipped: CMake is not installed'
fi

# --- The Python module and the program, where they are installed.

prefix=$work/stage/usr
module="import fantanolive; print(fantanolive.__version__, fantanolive.to_ebcdic(b'OH').hex(), fantanolive._library.path())"
if python3 -c 'import sys; sys.exit(sys.version_info < (3, 8))' 2>/dev/null; then
    said=$(cd / && PYTHONPATH="$prefix/share/fantanolive/python" python3 -c "$module" 2>&1)
    want 'the Python module' "$said" "$version d6c8 $prefix/lib/$soname"
    said=$(cd / && python3 "$prefix/share/doc/fantanolive/agreement/run.py" "$prefix/lib/$soname" | tail -1 | sed 's/^[0-9]* //')
    want 'the cases where they are installed' "$said" 'cases, 0 differ, 0 left out'
else
    echo 'skipped: there is no Python 3.8 or later'
fi
if [ ${#with[@]} -eq 0 ]; then
    want 'the program' "$("$prefix/bin/fantanolive" --version)" "fantanolive $version"
    want 'its command agree' "$(cd / && "$prefix/bin/fantanolive" agree "$prefix/lib/$soname" --calls find --cases 50 --seed 1 | head -n 1 | sed 's/ [0-9]* cases.*//')" 'no difference in'
fi

if [ "$failed" != 0 ]; then
    echo "package: $failed failed, $passed passed"
    exit 1
fi
echo "package: $passed cases passed"
