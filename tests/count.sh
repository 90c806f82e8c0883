# Counting checks in a shell script, which reads this file by '. tests/count.sh' and ends by 'summary NAME'.

passed=0
failed=0

pass() {
    passed=$((passed + 1))
}

# fail NAME WHAT
fail() {
    failed=$((failed + 1))
    echo "$1: $2"
}

# check NAME COMMAND..: passes, without a line, if COMMAND does.
check() {
    checked=$1
    shift
    if "$@"; then
        pass
    else
        fail "$checked" "failed"
    fi
}

# summary NAME: the last line; false if a check failed.
summary() {
    echo "$1: $passed passed, $failed failed"
    [ "$failed" -eq 0 ]
}
