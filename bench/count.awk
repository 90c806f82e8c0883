# The instructions of one call on each input, by the library, the plain C and the Rust:
#
#   awk -f bench/count.awk out.PROCESS.. lines=1 LINES
#
# Each out.PROCESS is a file of cachegrind's; LINES is what bench/count.rs prints, a line for each input: the number of
# calls, six processes, call, sort and input. The processes begin one after the other, each with what the program took
# so far; without the calls each has a step more than the one before. The first, the second and the last make none.

function fail(why) {
    print "count: " why >"/dev/stderr"
    failed = 1
    exit
}

# Without what the first process has, the steps since then and the division's rest.
function instructions(field) {
    return int((total[$field] - total[$FIRST] - (field - FIRST) * step) / $1)
}

function or_dash(count) {
    return count > 0 ? sprintf("%.0f", count) : "-"
}

BEGIN {
    FIRST = 2
    LIBRARY = 4
    PLAIN = 5
    RUST = 6
    LAST = 7
}

!lines && $1 == "summary:" {
    process = FILENAME
    sub(/.*\./, "", process)
    total[process] = $2
}

lines {
    for (field = FIRST; field <= LAST; field++)
        if (!($field in total))
            fail("no file of process " $field)
    step = total[$(FIRST + 1)] - total[$FIRST]
    if (total[$LAST] != total[$FIRST] + (LAST - FIRST) * step)
        fail("the processes do not begin a step apart")
    if (instructions(LIBRARY) <= 0)
        fail("the library's call took nothing")
    input = $10
    for (field = 11; field <= NF; field++)
        input = input " " $field
    printf "%-13s %-7s %-28s %12s %12s %12s\n", $8, $9, input, or_dash(instructions(LIBRARY)),
        or_dash(instructions(PLAIN)), or_dash(instructions(RUST))
}

END {
    exit failed
}
