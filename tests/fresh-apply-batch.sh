# What is built from the crates, for scripts that source this file in the folder of the repository. What rt keeps in crates/*/out is no source.

# newer_crates FILE: whether crates.txt or a file of crates/ is newer than the file, which is there
newer_crates() {
    [ crates.txt -nt "$1" ] || [ -n "$(find crates -mindepth 2 -regex 'crates/[^/]*/out' -prune -o -newer "$1" -print -quit)" ]
}

# The program target/bin/apply_batch, proved and built where it is missing or older than the crates (rt proves only what has changed).
fresh_apply_batch() {
    local program=target/bin/apply_batch
    if [ -x "$program" ] && ! newer_crates "$program"; then return 0; fi
    bin/build-apply-batch
}
