# shellcheck shell=sh
# Read by ./prove, ./test and .ci/run, whose last lines are counts.
log=$(mktemp) || exit 1
trap 'rm -f "$log"' EXIT
trap 'exit 130' INT TERM HUP
passed=0
failed=0

# Adds the counts of the last of some lines, 'N passed, M failed'; what ran failed where it is another line.
add_counts() {
    counts=$(tail -n 1 "$1" | sed -n 's/^\([0-9][0-9]*\) passed, \([0-9][0-9]*\) failed$/\1 \2/p')
    # shellcheck disable=SC2086
    set -- ${counts:-0 1}
    passed=$((passed + $1))
    failed=$((failed + $2))
}

# Runs a command that ends with such a line.
count() {
    "$@" 2>&1 | tee "$log"
    add_counts "$log"
}

# Ends with the counts of all.
tell_counts() {
    echo "$passed passed, $failed failed"
    [ "$failed" -eq 0 ]
    exit
}
