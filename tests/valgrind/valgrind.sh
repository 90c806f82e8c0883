# The calls under valgrind. Sourced after tests/counting.sh.

valgrind='valgrind --quiet --error-exitcode=9 --leak-check=full'

# valgrind_samples: all calls on the samples, with every buffer from malloc.
valgrind_samples() {
    build heap_calls $c tests/valgrind/heap_calls.c "$out"/*.o &&
        count heap_calls $valgrind "$out/heap_calls" $sample_files
}
