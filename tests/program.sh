#!/usr/bin/env bash
# Faults of the program fantanolive: files and folders that may not be read or written, disks that are full or read-only, runs at once, runs that are cut off
# or fail at each system call of a replacement; and what it does on a terminal. Whatever happens, a file is the old or the new one, whole, and the next run
# is right.
# Assumes bash, coreutils and target/program/fantanolive (bin/build-library). strace, mount, script and a second user (for root) are used where they are
# there; else a line says what is skipped. It prints a line for each case that fails, and at the end `program: N cases passed`. It writes in a temporary
# folder alone.
set -u
export LC_ALL=C
umask 022
root=$(dirname -- "$(dirname -- "$(readlink -f -- "$0")")")
if [ ! -x "$root/target/program/fantanolive" ]; then
    echo 'program: target/program/fantanolive is missing: run bin/build-library' >&2
    exit 2
fi
work=$(mktemp -d) || exit 2
small=$work/small

clean_up() {
    [ -e "$work/mounted" ] && umount "$small"
    chmod -R u+rwX "$work"
    rm -rf "$work"
}
trap clean_up EXIT
chmod 755 "$work"
cp "$root/target/program/fantanolive" "$work/fantanolive" && chmod 755 "$work/fantanolive" || exit 2
mkdir "$work/inputs" "$small"
out=$work/out
err=$work/err
. "$root/tests/cases.sh"
. "$root/tests/samples.sh"

# --- The files, and the commands that replace some of them.

make_master | ebcdic >"$work/inputs/master.bin"
sed 's/\x00 00  /\x00     /g' < <(make_master) | ebcdic >"$work/inputs/old.bin"
make_batch | ebcdic >"$work/inputs/batch.bin"
make_weekly | ebcdic >"$work/inputs/weekly.bin"
make_contacts | ebcdic >"$work/inputs/contacts.bin"
: >"$work/inputs/table.bin"
printf '000123' | ebcdic >"$work/inputs/locals.bin"
# what a batch leaves, and its journal
(
    cd "$work/inputs" || exit 2
    cp master.bin left.bin
    "$work/fantanolive" apply left.bin batch.bin --locals locals.bin --year 2007 --rejects left.rejects --journal back.bin >"$out"
    rm left.rejects left.bin.log
)
cp -r "$work/inputs" "$work/start"
chmod 640 "$work/start/"*

# A new folder $dir with the files.
fresh() {
    dir=$work/case
    rm -rf "$dir"
    cp -rp "$work/start" "$dir"
}

# choose NAME: a command: its arguments, the files that it makes or replaces in their order, those of them that it makes, and the status of a clean run.
choose() {
    name_of=$1
    clean=1
    made=
    case $1 in
    apply)
        arguments=(apply master.bin batch.bin --locals locals.bin --year 2007 --rejects rejects.bin)
        outputs=(rejects.bin master.bin)
        made=rejects.bin
        ;;
    journal)
        arguments=(apply master.bin batch.bin --locals locals.bin --year 2007 --rejects rejects.bin --journal journal.bin)
        outputs=(rejects.bin journal.bin master.bin)
        made='rejects.bin journal.bin'
        ;;
    take-back) arguments=(take-back left.bin back.bin) outputs=(left.bin) clean=0 ;;
    post) arguments=(post master.bin weekly.bin) outputs=(master.bin) ;;
    add-cents) arguments=(add-cents old.bin) outputs=(old.bin) clean=0 ;;
    contacts) arguments=(contacts table.bin contacts.bin --new) outputs=(table.bin) ;;
    reconcile) arguments=(reconcile master.bin --state OH --date 20071231 --out rec.bin) outputs=(rec.bin) made=rec.bin clean=0 ;;
    to-ascii) arguments=(to-ascii batch.bin --out batch.txt) outputs=(batch.txt) made=batch.txt clean=0 ;;
    split) arguments=(split batch.bin --at 40 --out part) outputs=(part001 part002) made='part001 part002' clean=0 ;;
    esac
    program=("$work/fantanolive" "${arguments[@]}")
}
commands='apply journal take-back post add-cents contacts reconcile to-ascii split'

# Runs a command in $dir.
run() {
    (
        cd "$dir" || exit 2
        "$@"
        exit $?
    ) >"$out" 2>"$err"
    status=$?
}

# What stands in $dir: names, sums, inodes, times, modes.
listing() {
    (cd "$dir" && stat -c '%n %i %y %a %s' -- * && sha256sum -- *) 2>&1
}

declare -A old_sum new_sum

# The sum of a file; none where there is no file.
sum_of() {
    local text
    if [ -f "$1" ] && text=$(sha256sum <"$1" 2>/dev/null); then sum=${text%% *}; else sum=none; fi
}

# What each output is, in order: old (or not there yet), new, none or part.
states() {
    local file
    found=
    for file in "${outputs[@]}"; do
        sum_of "$dir/$file"
        case $sum in
        "${old_sum[$name_of/$file]}") found+='old ' ;;
        "${new_sum[$name_of/$file]}") found+='new ' ;;
        none) found+='none ' ;;
        *) found+='part ' ;;
        esac
    done
}

# want_files STATE: of all outputs.
want_files() {
    local wanted=
    for _ in "${outputs[@]}"; do wanted+="$1 "; done
    states
    want files "$found" "$wanted"
}

# want_none_left ENDING..: no file with such an ending.
want_none_left() {
    local ending path
    for ending in "$@"; do
        for path in "$dir"/*"$ending"; do
            [ -e "$path" ] && want 'left over' "${path##*/}" nothing
        done
    done
}

# want_message WORDS: on standard error.
want_message() {
    local text
    text=$(tr -s '\n ' '  ' <"$err")
    [[ $text == *"$1"* ]] || want 'standard error' "$text" "$1"
}

want_no_message() {
    want 'standard error' "$(<"$err")" ''
}

want_untouched() {
    [ "$(listing)" = "$1" ] || want 'the folder' changed untouched
}

# A run that is carried out.
want_done() {
    want status "$status" "$clean"
    want_no_message
    want_files new
    want_none_left .tmp .lock
}

# The run after: fresh inputs beside what the last run left, but for a file that it made.
want_next() {
    local file
    [ -n "$wrong" ] && return
    cp -p "$work/inputs/"* "$dir"
    for file in $made; do rm -f "$dir/$file"; done
    run "${program[@]}"
    want_done
    [ -n "$wrong" ] && wrong="the next run: $wrong"
}

# A run that fails before anything is replaced.
not_written() {
    local words=$1
    shift
    run "$@"
    want status "$status" 3
    want 'standard output' "$(<"$out")" ''
    want_message "$words"
    want_files old
    want_none_left .tmp .lock
}

# --- Clean runs; their files are the new ones.

for each in $commands; do
    choose "$each"
    begin "a clean run of $name_of"
    fresh
    for file in "${outputs[@]}"; do sum_of "$dir/$file" && old_sum[$name_of/$file]=$sum; done
    run "${program[@]}"
    for file in "${outputs[@]}"; do
        sum_of "$dir/$file" && new_sum[$name_of/$file]=$sum
        want "$file" "$([ "$sum" = "${old_sum[$name_of/$file]}" ] && echo unchanged)" ''
        want "mode of $file" "$(stat -c %a "$dir/$file")" "$([[ " $made " == *" $file "* ]] && echo 600 || echo 640)"
    done
    want_done
    end
done

# --- The other user, who may neither read nor write everything.

user=()
other_user() {
    local way
    [ "$(id -u)" = 0 ] || return 0
    for way in setpriv runuser; do
        command -v "$way" >/dev/null || continue
        case $way in
        setpriv) user=(setpriv --reuid="$(id -u nobody)" --regid="$(id -g nobody)" --clear-groups --) ;;
        runuser) user=(runuser -u nobody --) ;;
        esac
        fresh
        run "${user[@]}" "$work/fantanolive" --version
        [ "$status" = 0 ] && return 0
    done
    return 1
}

# readable FOLDER: for the other user.
readable() {
    chmod 755 "$dir" && chmod 644 "$dir/"*
}

unprivileged() {
    local file each before
    choose apply
    for file in master.bin batch.bin locals.bin; do
        begin "$file unreadable"
        fresh
        readable
        chmod 777 "$dir"
        chmod 000 "$dir/$file"
        before=$(listing)
        run "${user[@]}" "${program[@]}"
        want status "$status" 3
        want_message "$file: can't be read: permission denied"
        chmod 777 "$dir"
        want_untouched "$before"
        end
    done
    for each in $commands; do
        choose "$each"
        begin "$name_of in a read-only folder"
        fresh
        readable
        chmod 555 "$dir"
        before=$(listing)
        not_written "can't be written: permission denied" "${user[@]}" "${program[@]}"
        want_untouched "$before"
        chmod 755 "$dir"
        want_next
        end
    done
    if [ "${user[0]-}" = setpriv ]; then
        begin "another's file of a group that the user is in"
        choose apply
        fresh
        readable
        chmod 777 "$dir"
        chgrp 4711 "$dir/master.bin"
        chmod 664 "$dir/master.bin"
        run setpriv --reuid="$(id -u nobody)" --regid="$(id -g nobody)" --groups=4711 -- "${program[@]}"
        want status "$status" 3
        want_message "master.bin: can't be written: its owner can't be kept"
        want_files old
        want_none_left .tmp .lock .log
        end
    fi
    begin 'looking into a read-only folder'
    choose apply
    fresh
    readable
    chmod 555 "$dir"
    run "${user[@]}" "$work/fantanolive" check "${arguments[@]:1}"
    want status "$status" 1
    run "${user[@]}" "$work/fantanolive" find master.bin OH900000000N
    want status "$status" 0
    run "${user[@]}" "$work/fantanolive" show batch batch.bin
    want status "$status" 0
    chmod 755 "$dir"
    end
}
if other_user; then unprivileged; else echo 'skipped: no other user can run the program'; fi

# --- A full disk: a limit on the size of a file, in blocks of 1,024 bytes, with its signal and without.

with_limit() {
    ulimit -f "$1" && shift && "$@"
}

with_limit_unsignalled() {
    trap '' XFSZ
    with_limit "$@"
}

# limited BLOCKS FILE
limited() {
    begin "$name_of, files of at most $1 blocks, with the signal"
    fresh
    run with_limit "$1" "${program[@]}"
    want status "$status" 153
    want_files old
    want_next
    end

    begin "$name_of, files of at most $1 blocks, without the signal"
    fresh
    not_written "$2: can't be written: larger than a file may be here; no file is changed" with_limit_unsignalled "$1" "${program[@]}"
    want_next
    end
}
choose apply
limited 1 rejects.bin
limited 8 master.bin
for each in post add-cents contacts reconcile to-ascii; do
    choose "$each"
    limited 1 "${outputs[0]}"
done

# on_small_disk BLOCKS WORDS: a small disk with so many free blocks.
on_small_disk() {
    local free
    begin "$name_of on a disk with $1 blocks free"
    fresh
    rm -f "$small/"*
    cp -p "$dir/"* "$small"
    dir=$small
    free=$(($(stat -f -c %a "$small") - $1))
    head -c $((free * $(stat -f -c %S "$small"))) /dev/zero >"$small/filler"
    want 'free blocks' "$(stat -f -c %a "$small")" "$1"
    not_written "the disk is full" "${program[@]}"
    want_message "$2"
    rm "$small/filler"
    want_next
    end
}

# A disk that is read-only.
on_read_only_disk() {
    begin "$name_of on a read-only disk"
    fresh
    rm -f "$small/"*
    cp -p "$dir/"* "$small"
    dir=$small
    mount -o remount,ro "$small"
    not_written "can't be written: the disk is read-only" "${program[@]}"
    mount -o remount,rw "$small"
    want_next
    end
}

if [ "$(id -u)" = 0 ] && command -v mount >/dev/null && mount -t tmpfs -o size=1m none "$small" 2>/dev/null; then
    : >"$work/mounted"
    choose apply
    on_small_disk 0 rejects.bin
    on_small_disk 1 rejects.bin
    on_small_disk 2 master.bin
    on_small_disk 6 master.bin
    for each in post add-cents contacts reconcile to-ascii; do
        choose "$each"
        on_small_disk 0 "${outputs[0]}"
    done
    for each in $commands; do
        choose "$each"
        on_read_only_disk
    done
else
    echo 'skipped: no small disk can be mounted'
fi

# --- Runs at once. The first waits for its batch, which is a pipe, and holds the lock.

choose apply

# Starts a run in $dir that waits, and waits until it has its locks.
start_waiting() {
    local tries=0
    mkfifo "$dir/pipe"
    (cd "$dir" && exec "$work/fantanolive" apply master.bin pipe --locals locals.bin --year 2007 --rejects rejects.bin) >"$work/first" 2>&1 &
    waiting=$!
    while [ ! -e "$dir/rejects.bin.lock" ] && [ "$tries" -lt 500 ]; do
        sleep 0.01
        tries=$((tries + 1))
    done
    sleep 0.02
}

begin 'two runs at once'
fresh
start_waiting
start=$(date +%s%N)
not_written_once() {
    run "${program[@]}"
    want status "$status" 5
    want_message 'master.bin: another run is at work on it'
    want_files old
    want_none_left .tmp
}
not_written_once
want 'told at once' "$((($(date +%s%N) - start) / 1000000 < 1000))" 1
run "$work/fantanolive" add-cents master.bin
want status "$status" 5
want_message 'another run is at work on it'
cat "$work/inputs/batch.bin" >"$dir/pipe"
wait "$waiting"
want 'status of the first' "$?" 1
rm "$dir/pipe"
want_files new
want_none_left .tmp .lock
want_next
end

begin 'a run that is killed leaves no lock'
fresh
start_waiting
not_written_once
kill -KILL "$waiting"
wait "$waiting" 2>/dev/null
rm "$dir/pipe"
run "${program[@]}"
want_done
end

# --- A terminal: lines are cut, colours, and after a second what is being done.

on_terminal() {
    (cd "$dir" && script -qec "stty cols 50; $1" /dev/null </dev/null) >"$out" 2>&1
}

# slow_run SECONDS: a run on a terminal whose batch comes so late.
slow_run() {
    fresh
    mkfifo "$dir/pipe"
    (sleep "$1" && cat "$work/inputs/batch.bin" >"$dir/pipe") &
    on_terminal "$work/fantanolive check master.bin pipe --locals locals.bin --year 2007"
    wait
}

terminals() {
    local escape=$'\e'
    choose apply
    begin 'lines on a terminal'
    fresh
    on_terminal "TERM=xterm $work/fantanolive check ${arguments[*]:1} --all"
    want colours "$(grep -c "$escape\[31mrecord" "$out")" 30
    want 'longest line' "$(sed -e "s/$escape\[[0-9]*m//g" -e 's/\r$//' "$out" | wc -L)" 50
    end

    begin 'a terminal without colours'
    on_terminal "NO_COLOR=1 TERM=xterm $work/fantanolive check ${arguments[*]:1}"
    want colours "$(grep -c "$escape" "$out")" 0
    on_terminal "TERM=dumb $work/fantanolive check ${arguments[*]:1}"
    want colours "$(grep -c "$escape" "$out")" 0
    end

    begin 'pages on a terminal'
    on_terminal "$work/fantanolive pages master.bin --out - --text"
    want message "$(grep -c 'pages hold SSNs whole' "$out")" 1
    want SSNs "$(grep -c '^[A-Z]*[0-9]\{9\}[AN] ' "$out")" 0
    on_terminal "$work/fantanolive pages master.bin --out - --text --full"
    want SSNs "$(($(grep -c '^[A-Z]*[0-9]\{9\}[AN] ' "$out") > 0))" 1
    end

    begin 'no terminal'
    run "${program[@]}"
    want colours "$(grep -c "$escape" "$out")" 0
    end

    begin 'a run shorter than a second'
    slow_run 0.4
    want 'what is being done' "$(grep -c "$escape\[K" "$out")" 0
    end

    begin 'a run longer than a second'
    slow_run 1.3
    want 'what is being done' "$(grep -c "reading pipe" "$out")" 1
    want 'taken away' "$(grep -c "reading pipe.$escape\[K" "$out")" 1
    end

    # a file of holes that takes longer than the run is given
    begin 'how much is done'
    fresh
    truncate -s 15G "$dir/large.bin"
    # with a log, since it is no master
    printf '%s\n' '{"time":"2007-12-31T23:59:59Z","version":"2.0.0","command":"add-cents","status":0,"inputs":[],"master_before":null,"master_after":null,"counts":{}}' >"$dir/large.bin.log"
    on_terminal "timeout 6 $work/fantanolive log large.bin"
    want 'how much is read' "$(($(grep -o "reading large.bin: [0-9]* %" "$out" | sort -u | wc -l) > 1))" 1
    (cd "$dir" && timeout 2 "$work/fantanolive" log large.bin) >"$out" 2>"$err"
    want 'without a terminal' "$(wc -c <"$err")" 0
    end
}
if command -v script >/dev/null && script -qec true /dev/null </dev/null >/dev/null 2>&1; then
    terminals
else
    echo 'skipped: script is not installed'
fi

# --- A report in a browser, at the widths of a desk and of a phone, and printed.

in_a_browser() {
    local width
    choose apply
    begin 'a page in a browser'
    fresh
    run "$work/fantanolive" check "${arguments[@]:1}" --html page.html
    want status "$status" 1
    for width in 1280 390; do
        (cd "$dir" && timeout 60 "$browser" --headless --no-sandbox --disable-gpu --window-size="$width,900" --user-data-dir="$work/browser" \
            --screenshot="$dir/page$width.png" "file://$dir/page.html") >/dev/null 2>&1
        want "a picture $width wide" "$(($(stat -c %s "$dir/page$width.png" 2>/dev/null || echo 0) > 5000))" 1
    done
    (cd "$dir" && timeout 60 "$browser" --headless --no-sandbox --disable-gpu --user-data-dir="$work/browser" --dump-dom "file://$dir/page.html") >"$out" 2>/dev/null
    want heading "$(grep -c '<h1 class="bad">check: not ready: 30 records to fix</h1>' "$out")" 1
    want records "$(grep -o '<td data-name="Record">' "$out" | wc -l)" 30
    (cd "$dir" && timeout 60 "$browser" --headless --no-sandbox --disable-gpu --user-data-dir="$work/browser" --print-to-pdf="$dir/page.pdf" "file://$dir/page.html") >/dev/null 2>&1
    want 'printed pages' "$(grep -ac '/Type /Page$' "$dir/page.pdf")" 2 3 4
    end
}
if browser=$(command -v chromium || command -v chromium-browser); then
    in_a_browser
else
    echo 'skipped: chromium is not installed'
fi

# --- System calls. A point is a call's name and its number among those of its name.

calls='openat,read,write,fsync,fdatasync,?rename,renameat,renameat2,?unlink,unlinkat,flock,fchmod,fchown,statx,flistxattr,fgetxattr'

# Reads $work/trace from the first call that names one of the files on. points are all calls; changes their places that lock, make, write, sync, rename or
# remove; place_of the place of each output's rename; said that of the report; order what is synced, renamed and printed.
read_trace() {
    local -A seen=()
    local text call file started=
    points=()
    changes=()
    declare -gA place_of=()
    said=-1
    order=
    while read -r text; do
        [[ $text =~ ^[0-9]+\ +([a-z0-9_]+)\( ]] || continue
        call=${BASH_REMATCH[1]}
        seen[$call]=$((${seen[$call]:-0} + 1))
        [[ $text == *'.bin'* ]] && started=yes
        [ -n "$started" ] || continue
        case $call in
        read | statx | *xattr) ;;
        openat) [[ $text == *O_CREAT* || $text == *"$dir\""* ]] && changes+=("${#points[@]}") ;;
        *) changes+=("${#points[@]}") ;;
        esac
        case $call in
        rename*)
            order+='rename '
            for file in "${outputs[@]}"; do
                [[ $text == *"/$file\""* ]] && place_of[$file]=${#points[@]}
            done
            ;;
        write) [[ $text == *'write(1, '* ]] && said=${#points[@]} && order+='report ' ;;
        *sync) order+='sync ' ;;
        esac
        points+=("$call ${seen[$call]}")
    done <"$work/trace"
}

traced() {
    strace -f -qq -o "$work/trace" "$@" "${program[@]}"
}

# want_replaced PLACE: those outputs are new whose rename stands before the place, the others old.
want_replaced() {
    local wanted= file
    for file in "${outputs[@]}"; do
        if [ "${place_of[$file]}" -lt "$1" ]; then wanted+='new '; else wanted+='old '; fi
    done
    states
    want files "$found" "$wanted"
}

# cut_off PLACE CALL NUMBER: killed before the call.
cut_off() {
    begin "$name_of killed before $2 $3"
    fresh
    run traced -e trace="$2" -e inject="$2":signal=SIGKILL:when="$3"
    want status "$status" 137
    want_replaced "$1"
    want_next
    end
}

# failing PLACE CALL NUMBER ERROR: either the run is carried out all the same, or it says what failed. Then with status 3 nothing is changed, with status 4 all
# files are new.
failing() {
    begin "$name_of, $2 $3 fails with $4"
    fresh
    run traced -e trace="$2" -e inject="$2":error="$4":when="$3"
    want status "$status" "$clean" 3 4
    [ "$status" = "$clean" ] || [ -s "$err" ] || want 'standard error' nothing 'a message'
    if [ "$status" = 3 ]; then
        want_files old
    else
        want_files new
        [ "$1" = "$said" ] || want report "$(wc -l <"$out")" "$lines"
    fi
    want_none_left .tmp
    # a lock file that could not be locked or removed may stay: without its lock it stops no run
    case $2 in
    flock | statx | unlink) ;;
    *) want_none_left .lock ;;
    esac
    want_next
    end
}

# failing_on CALL NUMBER ERROR: this call and all later ones of its name, and each that removes a file.
failing_on() {
    begin "$name_of, $1 from $2 on and each unlink fail with $3"
    fresh
    if [ "$1" = unlink ]; then
        run traced -e trace="$1" -e inject="$1":error="$3":when="$2"+
    else
        run traced -e trace="$1,unlink" -e inject="$1":error="$3":when="$2"+ -e inject=unlink:error="$3"
    fi
    want status "$status" "$clean" 3 4
    states
    [[ $found == *part* || $found == *none* ]] && want files "$found" 'old or new'
    [ "$status" = 3 ] || want_files new
    want_next
    end
}

# trace_all ERROR..: every point of a command.
trace_all() {
    local place call number error
    fresh
    run traced -e trace="$calls"
    lines=$(wc -l <"$out")
    read_trace
    begin "the trace of $name_of"
    case $name_of in
    apply) want order "$order" 'sync sync sync rename rename rename sync report ' ;;
    journal) want order "$order" 'sync sync sync sync rename rename sync rename rename sync report ' ;;
    post | split | take-back) want order "$order" 'sync sync rename rename sync report ' ;;
    *) want order "$order" 'sync rename sync report ' ;;
    esac
    want changes "$((${#changes[@]} > 8))" 1
    end
    for place in "${!points[@]}"; do
        read -r call number <<<"${points[place]}"
        failing "$place" "$call" "$number" EIO
    done
    for place in "${changes[@]}"; do
        read -r call number <<<"${points[place]}"
        cut_off "$place" "$call" "$number"
        for error in "$@"; do
            failing "$place" "$call" "$number" "$error"
        done
        failing_on "$call" "$number" EIO
    done
}

# A run that has opened the lock file when the run that holds it removes it, and locks it when a third run has made a new one.
removed_lock() {
    local late
    choose apply
    begin 'a lock file that is removed before it is locked'
    fresh
    start_waiting
    (cd "$dir" && exec strace -f -qq -o /dev/null -e trace=flock -e inject=flock:delay_enter=800000:when=1 "$work/fantanolive" post master.bin weekly.bin) >"$out" 2>"$err" &
    late=$!
    sleep 0.3
    cat "$work/inputs/batch.bin" >"$dir/pipe"
    wait "$waiting"
    rm "$dir/pipe"
    cp -p "$work/inputs/"* "$dir"
    rm "$dir/rejects.bin"
    start_waiting
    wait "$late"
    want 'status of the late run' "$?" 5
    want_message 'another run is at work on it'
    cat "$work/inputs/batch.bin" >"$dir/pipe"
    wait "$waiting"
    want 'status of the third run' "$?" 1
    rm "$dir/pipe"
    want_files new
    want_none_left .tmp .lock
    end
}

if ! command -v strace >/dev/null; then
    echo 'skipped: strace is not installed'
elif ! strace -o /dev/null true 2>/dev/null; then
    echo 'skipped: strace can trace nothing here'
else
    removed_lock
    choose apply
    trace_all ENOSPC EROFS
    for each in journal take-back post contacts to-ascii split; do
        choose "$each"
        trace_all
    done
fi

report_cases program
