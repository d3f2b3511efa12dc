# Replays the commands of a text, for scripts that source this file. In a block a line with `$ ` in front is a command, lines with `> ` behind it go on with it, and the
# others are what it prints, errors included. $work is a folder for it; $commands counts them, and $failed is set where one prints something else.

commands=0
failed=

# Runs a command in $work/folder, in this shell, with the status of the one before in $?.
replay() {
    [ -n "$command" ] || return 0
    (exit "$status")
    eval "$command" >"$work/out" 2>&1 </dev/null
    status=$?
    commands=$((commands + 1))
    cat "$work/out" >>"$work/new"
    if ! diff "$work/out" "$work/shown" >"$work/diff"; then
        printf '%s prints (<), and the text shows (>):\n' "$command"
        cat "$work/diff"
        failed=yes
    fi
    command=
    : >"$work/shown"
}

# replay_all FILE [FENCE]: replays the commands of a file's blocks, those that begin with the fence; $work/new is the file with what they print.
replay_all() {
    local text inside='' command='' status=0 fence=${2:-'```console'}
    : >"$work/shown"
    : >"$work/new"
    while IFS= read -r text; do
        case $inside:$text in
        :"$fence") inside=yes ;;
        :*) ;;
        yes:'```') replay && inside='' ;;
        yes:'$ '*) replay && command=${text#'$ '} ;;
        yes:'> '*) command+=$'\n'${text#'> '} ;;
        *)
            printf '%s\n' "$text" >>"$work/shown"
            continue
            ;;
        esac
        printf '%s\n' "$text" >>"$work/new"
    done <"$1"
}
