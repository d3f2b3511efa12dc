# Cases of a test in bash, for scripts that source this file: `begin NAME`, then any number of `want`, then `end`. The first thing that is
# wrong is what a case prints; passed and failed count the cases.

passed=0
failed=0

begin() {
    name=$1
    wrong=
}

end() {
    if [ -z "$wrong" ]; then
        passed=$((passed + 1))
    else
        failed=$((failed + 1))
        printf '%s: %s\n' "$name" "${wrong//$'\n'/ }"
    fi
}

# want WHAT FOUND WANTED..
want() {
    local what=$1 found=$2 one
    shift 2
    for one in "$@"; do
        [ "$found" = "$one" ] && return
    done
    wrong=${wrong:-"$what: '$found', not '$*'"}
}

# Prints how many cases of a script passed; status 1 where one failed.
report_cases() {
    if [ "$failed" != 0 ]; then
        echo "$1: $failed failed, $passed passed"
        return 1
    fi
    echo "$1: $passed cases passed"
}
