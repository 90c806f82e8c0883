#!/bin/sh
# Fuzzes calls with libFuzzer, each for so many seconds: sh tests/fuzz/run.sh ARCHIVE SECONDS CALL..
#
# Without a call, all of them. What was found is kept in build/fuzz, and the next run goes on from it.
set -u

if [ $# -lt 2 ]; then
    echo "usage: sh tests/fuzz/run.sh ARCHIVE SECONDS CALL.." >&2
    exit 2
fi
archive=$1
seconds=$2
shift 2
out=build/fuzz
. tests/counting.sh
. tests/fuzz/libfuzzer.sh

[ $# -gt 0 ] || set -- $calls
mkdir -p "$out"
if ! libfuzzer_is_there; then
    echo "libFuzzer is not there: it is in Debian's clang and libclang-rt-14-dev" >&2
    exit 1
fi
objects "$out" $c
fuzz_drivers "$@"
libfuzzer_objects
for call; do
    libfuzzer "$call" "-max_total_time=$seconds"
done
finish libfuzzer
