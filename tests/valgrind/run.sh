#!/bin/sh
# Runs the library under valgrind: sh tests/valgrind/run.sh ARCHIVE
#
# All calls on the samples, with every buffer from malloc; some runs of each fuzz target; and the C tests, but for those
# at random, which the fuzz targets stand for, the large ones, and the one that has a stack of its own.
set -u

if [ $# -ne 1 ]; then
    echo "usage: sh tests/valgrind/run.sh ARCHIVE" >&2
    exit 2
fi
archive=$1
out=build/valgrind
. tests/counting.sh
. tests/valgrind/valgrind.sh

mkdir -p "$out"
objects "$out" $c
fuzz_drivers $calls
valgrind_samples
for call in $calls; do
    count "fuzz_$call" $valgrind "$out/fuzz_$call" 600 $sample_files
done
for source in tests/test_*.c; do
    name=$(basename "$source" .c)
    case $name in
    *_random | *_large | test_stack) ;;
    *) build "$name" $c "$source" "$out"/*.o && count "$name" $valgrind "$out/$name" ;;
    esac
done
finish valgrind
