# What the scripts that build and run test programs share. Sourced in the top folder, with `archive`, the library, and
# `out`, the folder to build in.
#
# Each check and each program adds to `passed` and `failed`. A program counts as one failure if it does not build, ends
# without its summary, made no check, or has an exit status other than 0 though none of its checks failed.

warnings='-Wall -Wextra -Wpedantic -Werror'
c="${CC:-gcc} -std=c99 -O2 -g $warnings -Iinclude -Itests"
calls='validate normalize subsumes lcs verify most_specific'
sample_files='samples/*.pic samples/*.map samples/*.ref samples/*.book samples/*.defs'
. tests/count.sh

# one NAME COMMAND..: a check that passes if COMMAND does.
one() {
    name=$1
    shift
    if "$@"; then
        pass
        echo "$name: 1 passed, 0 failed"
    else
        fail "$name" "0 passed, 1 failed"
    fi
}

# build NAME COMPILER..: builds a test program.
build() {
    name=$1
    shift
    "$@" "$archive" -o "$out/$name" || {
        fail "$name" "does not build"
        return 1
    }
}

# program NAME COMPILER..: builds a test program and counts it.
program() {
    started "$@"
    tally "$1"
}

# count NAME COMMAND..: runs it and adds what its summary, the last line, says.
count() {
    run "$@"
    tally "$1"
}

# run NAME COMMAND..: $out/NAME.log then has what it printed, and $out/NAME.status how it ended.
run() {
    running=$1
    shift
    status=0
    "$@" >"$out/$running.log" || status=$?
    echo "$status" >"$out/$running.status"
}

# started NAME COMPILER..: builds a test program and runs it.
started() {
    starting=$1
    shift
    if "$@" "$archive" -o "$out/$starting"; then
        run "$starting" "$out/$starting"
    else
        echo unbuilt >"$out/$starting.status"
    fi
}

# tally NAME: prints what it printed when it was run, and adds what its summary says.
tally() {
    name=$1
    status=$(cat "$out/$name.status")
    if [ "$status" = unbuilt ]; then
        fail "$name" "does not build"
        return
    fi
    cat "$out/$name.log"
    counts=$(sed -n '$s/^.*: \([0-9][0-9]*\) passed, \([0-9][0-9]*\) failed$/\1 \2/p' "$out/$name.log")
    case $status:$counts in
    *:) fail "$name" "ended by status $status without a summary"; return ;;
    *:'0 0') fail "$name" "made no check" ;;
    0:* | *' '[1-9]*) ;;
    *) fail "$name" "ended by status $status though no check failed" ;;
    esac
    passed=$((passed + ${counts% *}))
    failed=$((failed + ${counts#* }))
}

# both COMMAND ITEM..: calls COMMAND for every other ITEM beside the rest, so that two run at a time.
both() {
    command=$1
    shift
    (every_other "$command" "$@") &
    shift
    every_other "$command" "$@"
    wait
}
every_other() {
    command=$1
    shift
    while [ $# -gt 0 ]; do
        "$command" "$1"
        shift
        [ $# -eq 0 ] || shift
    done
}

# objects FOLDER COMPILER..: what the tests share and, in FOLDER/fuzz, what the fuzz targets share besides. Without a
# part of it no test builds, and each says so.
objects() {
    into=$1
    shift
    rm -f "$into"/*.o "$into"/fuzz/*.o
    mkdir -p "$into/fuzz"
    for source in check calls area picture rows random pages reference definitions_reference normal_reference normalize \
        evidence verify_reference witness verify subsumes lcs_reference lcs book most_specific_reference \
        most_specific under second_unit \
        fuzz/fuzz fuzz/feed fuzz/feed_rows fuzz/lent fuzz/pair; do
        "$@" -c "tests/$source.c" -o "$into/$source.o"
    done
}

# fuzz_drivers CALL..: fuzz targets with the driver, as $out/fuzz_CALL.
fuzz_drivers() {
    mkdir -p "$out/driver" build/fuzz
    for source in driver corpus seeds; do
        $c -c "tests/fuzz/$source.c" -o "$out/driver/$source.o"
    done
    for call; do
        build "fuzz_$call" $c "tests/fuzz/fuzz_$call.c" "$out"/driver/*.o "$out"/fuzz/*.o "$out"/*.o
    done
}

# left_out WHAT WHY: says so here, and once more at the end.
left_out() {
    echo "$1: not tested, $2"
    missed="$missed$1: not tested, $2
"
}
missed=''

# finish NAME: prints what was left out and the sums; fails if something did, or if there was nothing to count.
finish() {
    [ "$passed" -gt 0 ] || fail "$1" "made no check"
    echo "$failed" >"$out/failed"
    printf '%s' "$missed"
    summary "$1"
}
