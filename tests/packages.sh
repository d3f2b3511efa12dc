#!/usr/bin/env bash
# The packages of bin/package, each put into an empty folder or root and used from there: the tarball, the Debian package (dpkg, and lintian without errors), the Rust
# crate; the wheel and the jar are those of tests/python.sh and tests/java.sh. Man pages and completions: one for each command and option of the help, without a
# warning. Prints a line for each case that fails, and at the end `packages: N cases passed`. Skipped are, with a line, the parts that want a tool that is missing.
set -u
export LC_ALL=C PYTHONDONTWRITEBYTECODE=1
umask 022
root=$(dirname -- "$(dirname -- "$(readlink -f -- "$0")")")
cd -- "$root" || exit 2
unset DESTDIR PREFIX FANTANOLIVE_LIBRARY LD_LIBRARY_PATH FANTANOLIVE_LIB_DIR FANTANOLIVE_INCLUDE_DIR PKG_CONFIG_PATH
if [ ! -x target/program/fantanolive ]; then
    echo 'packages: target/program/fantanolive is not built (bin/build-program)' >&2
    exit 1
fi
work=$(mktemp -d) || exit 2
trap 'rm -rf -- "$work"' EXIT
passed=0
failed=0

# want WHAT FOUND WANTED
want() {
    if [ "$2" = "$3" ]; then
        passed=$((passed + 1))
    else
        failed=$((failed + 1))
        printf 'packages: %s: [%s], not [%s]\n' "$1" "$2" "$3"
    fi
}

# shellcheck source=tests/fresh-packages.sh
. tests/fresh-packages.sh
fresh_packages >"$work/said" 2>&1 || { cat "$work/said"; exit 1; }
version=$(bin/version)
packages=$root/target/packages
want 'checksums' "$(cd -- "$packages" && sha256sum --quiet -c SHA256SUMS 2>&1)" ''
want 'files with a checksum' "$(cd -- "$packages" && sed 's/^[0-9a-f]*  //' SHA256SUMS | sort)" "$(cd -- "$packages" && ls | grep -v SHA256SUMS)"

# used WHERE PREFIX: the program, the headers and the archive of a package
used() {
    want "$1: the program" "$("$2/bin/fantanolive" --version)" "fantanolive $version"
    want "$1: its command agree" "$("$2/bin/fantanolive" agree "$2/lib/libfantanolive.so" --calls find --cases 50 --seed 1 | head -n 1 | sed 's/ [0-9]* cases.*//')" 'no difference in'
    ${CC:-cc} -std=c99 -I"$2/include" -o "$work/example" examples/c/apply.c "$2/lib/libfantanolive.a"
    want "$1: the archive" "$("$work/example" | diff examples/c/expected.txt - && echo same)" same
    ${CC:-cc} -std=c99 -I"$2/include" -o "$work/example" examples/c/apply.c -L"$2/lib" -lfantanolive -Wl,-rpath,"$2/lib"
    want "$1: the shared library" "$("$work/example" | diff examples/c/expected.txt - && echo same)" same
    if python3 -c 'import sys; sys.exit(sys.version_info < (3, 8))' 2>/dev/null; then
        want "$1: the Python module" "$(PYTHONPATH=$2/share/fantanolive/python python3 bindings/python/examples/judge.py | diff bindings/python/judge.txt - && echo same)" same
    fi
}

# --- The tarball.

mkdir "$work/empty"
tar -xzf "$packages/fantanolive-$version-x86_64-linux.tar.gz" -C "$work/empty"
used 'tarball' "$work/empty/fantanolive-$version-x86_64-linux"
want 'links of its documents that lead nowhere' "$(cd -- "$work/empty/fantanolive-$version-x86_64-linux/share/doc/fantanolive" &&
    grep -ohE '\]\([^)#]+' ./*.md | sed 's/^](//' | grep -v '^https:' | sort -u | while read -r file; do [ -e "$file" ] || echo "$file"; done)" ''
want 'owners in the tarball' "$(tar --numeric-owner -tvzf "$packages/fantanolive-$version-x86_64-linux.tar.gz" | awk '{ print $2 }' | sort -u)" 0/0

# --- The Rust crate, with the library of the tarball.

mkdir -p "$work/crates" "$work/judge/src"
tar -xzf "$packages/fantanolive-$version.crate" -C "$work/crates"
cp bindings/rust/examples/judge.rs "$work/judge/src/main.rs"
printf '[package]\nname = "judge"\nversion = "1.0.0"\nedition = "2021"\n\n[dependencies]\nfantanolive = { path = "../crates/fantanolive-%s" }\n\n[workspace]\n' "$version" >"$work/judge/Cargo.toml"
tree=$work/empty/fantanolive-$version-x86_64-linux
want 'the crate' "$(cd -- "$work/judge" && CARGO_TARGET_DIR=$work/target FANTANOLIVE_LIB_DIR=$tree/lib FANTANOLIVE_INCLUDE_DIR=$tree/include cargo run --quiet --offline 2>&1 |
    diff "$root/bindings/rust/judge.txt" - && echo same)" same

# --- The Debian package.

if command -v dpkg-deb >/dev/null; then
    deb=$packages/fantanolive_${version}_amd64.deb
    system=$work/system
    mkdir -p "$system"/var/lib/dpkg/{info,updates,triggers}
    touch "$system/var/lib/dpkg/status" "$system/var/lib/dpkg/available"
    if [ "$(id -u)" -eq 0 ] && command -v dpkg >/dev/null; then
        dpkg --root="$system" --force-depends -i "$deb" >"$work/out" 2>&1 || { cat "$work/out"; failed=$((failed + 1)); }
        used 'Debian package' "$system/usr"
        want 'what dpkg says' "$(dpkg-query --admindir="$system/var/lib/dpkg" -W -f '${Status} ${Version}' fantanolive)" "install ok installed $version"
        dpkg --root="$system" -r fantanolive >/dev/null 2>&1
        want 'what is left when it is removed' "$(find "$system/usr" -type f 2>/dev/null | wc -l)" 0
    else
        echo 'skipped: only root can install a Debian package, so it is unpacked'
        dpkg-deb -x "$deb" "$system"
        used 'Debian package' "$system/usr"
    fi
    if command -v lintian >/dev/null; then
        want lintian "$(lintian --fail-on error "$deb" 2>&1 | grep '^E:')" ''
    else
        echo 'skipped: lintian is not installed'
    fi
else
    echo 'skipped: there is no dpkg-deb'
fi

# --- Man pages and completions.

commands=$(target/program/fantanolive --help | awk '/^commands:$/ { on = 1; next } /^$/ { on = 0 } on { print $1 }')
calls=$(sed -n 's/^uint64_t \(fantanolive_[a-z_]*\)(.*/\1/p' include/fantanolive.h)
want 'man pages' "$(cd target/docs/man && ls man1 man3 | grep '\.[13]$' | sort)" "$({ echo fantanolive.1; printf 'fantanolive-%s.1\n' $commands; printf '%s.3\n' $calls; } | sort)"
for command in $commands; do
    helped=$(target/program/fantanolive "$command" --help | sed -n '/^options:$/,$p' | grep -oE '^  --[a-z-]+' | tr -d ' ')
    want "bash: options of $command" "$(sed -n "s/^    $command) options=\"\(.*\)\" ;;\$/\1/p" target/docs/completions/fantanolive.bash | tr ' ' '\n')" "$helped"
    want "man page: options of $command" "$(sed -n '/^\.SH OPTIONS/,/^\.SH SEE/s/^\.B \\-\\-/--/p' "target/docs/man/man1/fantanolive-$command.1" | sed 's/ .*//; s/\\//g')" "$helped"
    want "zsh: options of $command" "$(sed -n "/^    $command)\$/,/^        ;;\$/p" target/docs/completions/_fantanolive | grep -oE "^            '--[a-z-]+" | tr -d " '")" "$helped"
    want "fish: options of $command" "$(sed -nE "s/^complete -c fantanolive -n '__fish_seen_subcommand_from $command' -l ([a-z-]+).*/--\1/p" target/docs/completions/fantanolive.fish)" "$helped"
done
want 'bash completes' "$(bash -c '. target/docs/completions/fantanolive.bash; COMP_WORDS=(fantanolive ta); COMP_CWORD=1; _fantanolive; echo "${COMPREPLY[*]}"')" take-back
if command -v zsh >/dev/null; then want 'zsh reads it' "$(zsh -n target/docs/completions/_fantanolive 2>&1)" ''; else echo 'skipped: zsh is not installed'; fi
if command -v fish >/dev/null; then
    want 'fish completes' "$(HOME=$work fish -c 'source target/docs/completions/fantanolive.fish; complete -C "fantanolive apply --re"' 2>/dev/null | cut -f1)" --rejects
else
    echo 'skipped: fish is not installed'
fi
if command -v groff >/dev/null; then
    want 'warnings of man pages' "$(for page in target/docs/man/man[13]/*; do groff -man -ww -Tascii -z "$page" 2>&1; done)" ''
else
    echo 'skipped: groff is not installed'
fi

[ "$failed" -eq 0 ] || { echo "packages: $failed cases failed"; exit 1; }
echo "packages: $passed cases passed"
