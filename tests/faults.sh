#!/usr/bin/env bash
# Faults of apply-batch: files that are missing, can't be read or are too long; folders and disks that can't be written; an output that takes nothing; runs
# that are cut off or fail at each system call. Whatever happens, master.bin is the old or the new one, whole, and the next run is right.
# Assumes bash and coreutils; the program is proved and built where it is missing or older than crates/. strace, mount and a second user (for root) are used where
# they are there; else a line says what is skipped.
# It prints a line for each case that fails, and at the end `faults: N cases passed`. It writes in a temporary folder alone.
set -u
export LC_ALL=C
umask 022
root=$(dirname -- "$(dirname -- "$(readlink -f -- "$0")")")
# shellcheck source=tests/fresh-apply-batch.sh
. "$root/tests/fresh-apply-batch.sh"
(cd -- "$root" && fresh_apply_batch) >&2 || exit 2
work=$(mktemp -d) || exit 2
small=$work/small

clean_up() {
    [ -e "$work/mounted" ] && umount "$small"
    chmod -R u+rwX "$work"
    rm -rf "$work"
}
trap clean_up EXIT
chmod 755 "$work"
cp "$root/target/bin/apply_batch" "$work/apply_batch" && chmod 755 "$work/apply_batch" || exit 2
mkdir "$work/inputs" "$small"
out=$work/out
err=$work/err
. "$root/tests/cases.sh"
. "$root/tests/samples.sh"

# --- The files: 150 rows, and 100 details of which 30 add a row, 40 change one and 30 are rejected.

line='OH accepted 70 rejected 30 warned 0 neither 0 rows 180'
make_master | ebcdic >"$work/inputs/master.bin"
make_batch | ebcdic >"$work/inputs/batch.bin"
printf '000123' | ebcdic >"$work/inputs/locals.bin"
printf 2007 >"$work/inputs/year.txt"
cp -r "$work/inputs" "$work/start"
printf 'the old reject file' >"$work/start/rejects.bin"

# A new folder $dir with the files and an old rejects.bin.
fresh() {
    dir=$work/case
    rm -rf "$dir"
    cp -r "$work/start" "$dir"
}

# What stands in $dir: names, sums, inodes, times, modes.
listing() {
    (cd "$dir" && stat -c '%n %i %y %a %s' -- * && sha256sum -- *) 2>&1
}

# Runs a command in $dir. The shell that waits for it is the inner one, so that what it says of a signal is in $err too.
run() {
    (
        cd "$dir" || exit 2
        "$@"
        exit $?
    ) >"$out" 2>"$err"
    status=$?
}

program=("$work/apply_batch")

# The sums of master.bin and rejects.bin in $dir; none where there is no file.
read_sums() {
    local sum path
    master_sum=none
    rejects_sum=none
    while read -r sum path; do
        case $path in
        */master.bin) master_sum=$sum ;;
        */rejects.bin) rejects_sum=$sum ;;
        esac
    done < <(sha256sum -- "$dir/master.bin" "$dir/rejects.bin" 2>/dev/null)
}

# Says what master.bin and rejects.bin in $dir are.
state() {
    read_sums
    case $master_sum in
    "$old_master") master=old ;;
    "$new_master") master=new ;;
    *) master=part ;;
    esac
    case $rejects_sum in
    "$old_rejects") rejects=old ;;
    "$new_rejects") rejects=new ;;
    none) rejects=none ;;
    *) rejects=part ;;
    esac
}

want_files() {
    state
    want master.bin "$master" "$1"
    want rejects.bin "$rejects" "$2"
}

want_no_temporary() {
    local path
    for path in "$dir"/*.tmp; do
        [ -e "$path" ] && want 'left over' "${path##*/}" nothing
    done
}

# A line with one line feed at its end, or nothing at all.
want_line() {
    local text
    IFS= read -r -d '' text <"$out"
    want 'standard output' "$text" "${1:+$1$'\n'}"
}

want_no_message() {
    local text
    IFS= read -r -d '' text <"$err"
    want 'standard error' "$text" ''
}

want_untouched() {
    [ "$(listing)" = "$1" ] || want 'the folder' changed untouched
}

# A message with some words in it.
want_message() {
    local text
    IFS= read -r -d '' text <"$err"
    [[ $text == *"$1"* ]] || want 'standard error' "$text" "$1"
}

# A run that is carried out.
want_done() {
    want_line "$line"
    want_no_message
    want_files new new
    want_no_temporary
}

# The run after: fresh files beside what the last run left.
want_next() {
    cp "$work/inputs/"* "$dir"
    run "${program[@]}"
    [ -n "$wrong" ] && return
    want_done
    [ -n "$wrong" ] && wrong="the next run: $wrong"
}

# A refusal: its line, and nothing touched.
refused() {
    local number=$1 before
    shift
    before=$(listing)
    run "$@"
    want_line "refused $number"
    want_no_message
    want_untouched "$before"
}

# A run that can't write: a message with the file's name, no line, the old files.
not_written() {
    local file=$1
    shift
    run "$@"
    want_line ''
    want_message "$file"
    want_files old old
}

# --- A clean run; its files are the new ones.

begin 'a clean run'
fresh
read_sums
old_master=$master_sum
old_rejects=$rejects_sum
run "${program[@]}"
read_sums
new_master=$master_sum
new_rejects=$rejects_sum
want 'size of master.bin' "$(stat -c %s "$dir/master.bin")" 36000
want 'size of rejects.bin' "$(stat -c %s "$dir/rejects.bin")" 7595
want 'master.bin' "$([ "$old_master" = "$new_master" ] && echo unchanged)" ''
want_done
want_next
end

# --- The other user, who may neither read nor write everything.

user=("${program[@]}")
other_user() {
    local way
    [ "$(id -u)" = 0 ] || return 0
    for way in setpriv runuser su; do
        command -v "$way" >/dev/null || continue
        case $way in
        setpriv) user=(setpriv --reuid="$(id -u nobody)" --regid="$(id -g nobody)" --clear-groups -- "${program[@]}") ;;
        runuser) user=(runuser -u nobody -- "${program[@]}") ;;
        su) user=(su -s /bin/sh nobody -c "exec $(printf %q "${program[0]}")") ;;
        esac
        fresh
        rm "$dir/year.txt"
        run "${user[@]}"
        [ "$(<"$out")" = 'refused 0' ] && return 0
    done
    return 1
}
other_user && unprivileged=yes || unprivileged=

# --- Files that are missing, can't be read, are too long or are folders.

for file in master.bin batch.bin locals.bin year.txt; do
    begin "$file missing"
    fresh
    rm "$dir/$file"
    refused 0 "${program[@]}"
    end

    begin "$file a folder"
    fresh
    rm "$dir/$file"
    mkdir "$dir/$file"
    refused 0 "${program[@]}"
    end

    if [ -n "$unprivileged" ]; then
        begin "$file unreadable"
        fresh
        chmod 000 "$dir/$file"
        refused 0 "${user[@]}"
        end
    fi
done
[ -n "$unprivileged" ] || echo 'skipped: no other user can run the program'

# sized FILE BYTES REFUSAL
sized() {
    begin "$1 of $2 bytes"
    fresh
    truncate -s "$2" "$dir/$1"
    refused "$3" "${program[@]}"
    end
}
sized master.bin 40000 4
sized master.bin 40001 0
sized master.bin 40200 0
sized batch.bin 24746 0
sized batch.bin 24990 0
sized locals.bin 3000 2
sized locals.bin 3001 0
sized locals.bin 3003 0
sized year.txt 5 1

# --- Names that can't be written.

for file in rejects.bin master.bin; do
    begin "$file.tmp a folder"
    fresh
    mkdir "$dir/$file.tmp"
    not_written "$file" "${program[@]}"
    rmdir "$dir/$file.tmp"
    want_no_temporary
    want_next
    end
done

begin 'rejects.bin a folder'
fresh
rm "$dir/rejects.bin"
mkdir "$dir/rejects.bin"
run "${program[@]}"
want_line ''
want_message rejects.bin
want_no_temporary
want 'rejects.bin' "$([ -d "$dir/rejects.bin" ] && echo folder)" folder
rmdir "$dir/rejects.bin"
want_files old none
want_next
end

begin 'temporary files left over'
fresh
printf 'left over' >"$dir/rejects.bin.tmp"
head -c 50000 /dev/zero >"$dir/master.bin.tmp"
run "${program[@]}"
want_done
end

if [ -n "$unprivileged" ]; then
    begin 'a read-only folder'
    fresh
    chmod 555 "$dir"
    before=$(listing)
    not_written rejects.bin "${user[@]}"
    want_untouched "$before"
    chmod 755 "$dir"
    want_next
    end

    begin 'a read-only folder with temporary files that can be written'
    fresh
    printf 'left over' >"$dir/rejects.bin.tmp"
    printf 'left over' >"$dir/master.bin.tmp"
    chmod 666 "$dir/"*.tmp
    chmod 555 "$dir"
    not_written rejects.bin "${user[@]}"
    chmod 755 "$dir"
    want_next
    end
fi

# --- A full disk: a limit on the size of a file, in blocks of 1,024 bytes, with its signal and without.

with_limit() {
    ulimit -f "$1" && shift && "$@"
}

with_limit_unsignalled() {
    trap '' XFSZ
    with_limit "$@"
}

# limited BLOCKS FILE
limited() {
    begin "files of at most $1 blocks, with the signal"
    fresh
    run with_limit "$1" "${program[@]}"
    want_line ''
    want_files old old
    want_next
    end

    begin "files of at most $1 blocks, without the signal"
    fresh
    run with_limit_unsignalled "$1" "${program[@]}"
    want_line ''
    want_message "$2"
    want_files old old
    want_no_temporary
    want_next
    end
}
limited 1 rejects.bin
limited 7 rejects.bin
limited 8 master.bin
limited 35 master.bin

# A small disk with so many free blocks.
on_small_disk() {
    local free
    begin "a disk with $1 blocks free"
    fresh
    rm -f "$small/"*
    cp "$dir/"* "$small"
    dir=$small
    free=$(($(stat -f -c %a "$small") - $1))
    head -c $((free * $(stat -f -c %S "$small"))) /dev/zero >"$small/filler"
    want 'free blocks' "$(stat -f -c %a "$small")" "$1"
    not_written "$2" "${program[@]}"
    want_no_temporary
    rm "$small/filler"
    want_next
    end
}

if [ "$(id -u)" = 0 ] && command -v mount >/dev/null && mount -t tmpfs -o size=1m none "$small" 2>/dev/null; then
    : >"$work/mounted"
    on_small_disk 0 rejects.bin
    on_small_disk 1 rejects.bin
    on_small_disk 2 master.bin
    on_small_disk 6 master.bin
    on_small_disk 10 master.bin
else
    echo 'skipped: no small disk can be mounted'
fi

# --- A standard output that takes nothing: the files are in place, and a message says so, but where the signal of an unread pipe ends the run.

full() { "$@" >/dev/full; }
closed() { "$@" >&-; }
unread_pipe() {
    mkfifo "$work/pipe"
    exec 8<>"$work/pipe" 9>"$work/pipe"
    exec 8<&-
    rm "$work/pipe"
    "$@" >&9 9>&-
}
unread_pipe_unsignalled() {
    trap '' PIPE
    unread_pipe "$@"
}

for output in full closed unread_pipe_unsignalled unread_pipe; do
    begin "standard output $output"
    fresh
    run "$output" "${program[@]}"
    want_files new new
    [ "$output" = unread_pipe ] || want_message "the line can't be printed"
    want_no_temporary
    want_next
    end

    begin "standard output $output, a refusal"
    fresh
    rm "$dir/year.txt"
    before=$(listing)
    run "$output" "${program[@]}"
    [ "$output" = unread_pipe ] || want_message "the line can't be printed"
    want_untouched "$before"
    want_next
    end
done

without_error() { "$@" 2>&-; }
begin 'standard error closed'
fresh
run without_error "${program[@]}"
want_done
end

# --- The exit status of bin/apply-batch: 0 with a line, 1 without.

mkdir -p "$work/bin" "$work/target/bin"
cp "$root/bin/apply-batch" "$work/bin"
cp "$work/apply_batch" "$work/target/bin"

# ends WHAT STATUS COMMAND..
ends() {
    begin "exit status: $1"
    local wanted=$2
    shift 2
    run "$@"
    want status "$status" "$wanted"
    [ "$wanted" = 0 ] || [ -s "$err" ] || want 'standard error' nothing 'a message'
    end
}

fresh
ends 'a clean run' 0 "$work/bin/apply-batch"
fresh
rm "$dir/year.txt"
ends 'a refusal' 0 "$work/bin/apply-batch"
ends 'a refusal, standard output full' 1 full "$work/bin/apply-batch"
fresh
mkdir "$dir/rejects.bin.tmp"
ends 'a file that is not written' 1 "$work/bin/apply-batch"
for output in full closed unread_pipe_unsignalled; do
    fresh
    ends "standard output $output" 1 "$output" "$work/bin/apply-batch"
done

# --- System calls. A point is a call's name and its number among those of its name.

calls='?open,openat,?creat,read,write,fsync,fdatasync,?rename,renameat,renameat2,?unlink,unlinkat'

# Reads $work/trace into inputs, the points that open and read the four files, and points, those that open for writing or open the folder, write, sync,
# rename and remove. `last` is the place of master.bin's rename among them, `said` that of the line, `remove` the call that removes, `order` what is
# synced, renamed and printed.
read_trace() {
    local -A seen=()
    local text call started=
    order=
    inputs=()
    points=()
    last=-1
    said=-1
    remove=unlink
    while read -r text; do
        [[ $text =~ ^[0-9]+\ +([a-z0-9_]+)\( ]] || continue
        call=${BASH_REMATCH[1]}
        seen[$call]=$((${seen[$call]:-0} + 1))
        [[ $text == *'"master.bin"'* ]] && started=yes
        [ -n "$started" ] || continue
        case $call in
        read) inputs+=("$call ${seen[$call]}") && continue ;;
        open*) [[ $text == *'.bin"'* || $text == *'.txt"'* ]] && inputs+=("$call ${seen[$call]}") && continue ;;
        rename*)
            [[ $text == *'"master.bin"'* ]] && last=${#points[@]}
            order+='rename '
            ;;
        write) [[ $text == *'write(1, '* ]] && said=${#points[@]} && order+='line ' ;;
        *sync) order+='sync ' ;;
        unlink*) remove=$call ;;
        esac
        points+=("$call ${seen[$call]}")
    done <"$work/trace"
}

traced() {
    strace -f -qq -o "$work/trace" "$@" "${program[@]}"
}

fresh_with() {
    fresh
    [ "$1" = old ] || rm "$dir/rejects.bin"
}

# cut_off PLACE CALL NUMBER REJECTS: killed before the call.
cut_off() {
    begin "killed before $2 $3, rejects.bin $4"
    fresh_with "$4"
    run traced -e trace="$2" -e inject="$2":signal=SIGKILL:when="$3"
    want status "$status" 137
    want_line ''
    state
    if [ "$1" -le "$last" ]; then want master.bin "$master" old; else want master.bin "$master" new; fi
    if [ "$1" -lt "$last" ]; then want rejects.bin "$rejects" "$4"; else want rejects.bin "$rejects" new; fi
    want_next
    end
}

# What a run with one failing call leaves. An unlink that fails changes nothing; behind the renames the new files are in place.
want_after_error() {
    local place=$1 call=$2 old=$3
    case $call in
    unlink*)
        want_done
        return
        ;;
    esac
    [ -s "$err" ] || want 'standard error' nothing 'a message'
    if [ "$place" -gt "$last" ]; then
        want_files new new
    elif [ "$place" = "$last" ]; then
        want_files old new
    else
        want_files old "$old"
    fi
    if [ "$place" -gt "$last" ] && [ "$place" != "$said" ]; then want_line "$line"; else want_line ''; fi
    want_no_temporary
}

# failing PLACE CALL NUMBER REJECTS ERROR
failing() {
    begin "$2 $3 fails with $5, rejects.bin $4"
    fresh_with "$4"
    run traced -e trace="$2" -e inject="$2":error="$5":when="$3"
    want_after_error "$1" "$2" "$4"
    want_next
    end
}

# unread CALL NUMBER: an input that can't be read.
unread() {
    begin "$1 $2 fails with EIO"
    fresh
    refused 0 traced -e trace="$1" -e inject="$1":error=EIO:when="$2"
    want_next
    end
}

# failing_on CALL NUMBER ERROR: this call and all later ones of its name, and each that removes a file.
failing_on() {
    begin "$1 from $2 on and each $remove fail with $3"
    fresh
    if [ "$1" = "$remove" ]; then
        run traced -e trace="$1" -e inject="$1":error="$3":when="$2"+
    else
        run traced -e trace="$1,$remove" -e inject="$1":error="$3":when="$2"+ -e inject="$remove":error="$3"
    fi
    state
    want master.bin "$master" old new
    want rejects.bin "$rejects" old new
    [ -s "$out" ] && want_files new new
    [ "$master" = old ] && want_line ''
    want_next
    end
}

trace_all() {
    local place call number error
    fresh
    run traced -e trace="$calls"
    read_trace
    begin 'the trace'
    want order "$order" 'sync sync rename rename sync line '
    want calls "$((${#points[@]} > 10 && ${#inputs[@]} > 7))" 1
    end
    for place in "${!inputs[@]}"; do
        read -r call number <<<"${inputs[place]}"
        unread "$call" "$number"
    done
    for place in "${!points[@]}"; do
        read -r call number <<<"${points[place]}"
        cut_off "$place" "$call" "$number" old
        cut_off "$place" "$call" "$number" none
        for error in EIO ENOSPC EROFS; do
            failing "$place" "$call" "$number" old "$error"
        done
        failing "$place" "$call" "$number" none EIO
        failing_on "$call" "$number" EIO
    done
}

if ! command -v strace >/dev/null; then
    echo 'skipped: strace is not installed'
elif ! strace -o /dev/null true 2>/dev/null; then
    echo 'skipped: strace can trace nothing here'
else
    trace_all
fi

report_cases faults
