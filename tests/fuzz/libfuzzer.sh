# Fuzzing with libFuzzer. Sourced after tests/counting.sh, whose drivers write the seeds.
#
# The library has no instrumentation: what guides the fuzzer are the branches of the targets and of the references, and
# the counters of tests/fuzz/fuzz.c, which say what was answered.

clang="${CLANG:-clang} -std=c99 -O1 -g -Iinclude -Itests"

# Is there a clang with libFuzzer?
libfuzzer_is_there() {
    echo 'int LLVMFuzzerTestOneInput(const char *data, unsigned long size) { return data != 0 && size > 9; }' |
        $clang -fsanitize=fuzzer,address -x c - -o "$out/libfuzzer" 2>/dev/null
}

libfuzzer_objects() {
    objects "$out/clang" $clang -fsanitize=fuzzer-no-link,address
}

# libfuzzer CALL OPTION..: fuzzes one call, with libFuzzer's options. The inputs that showed something new are kept in
# $out/corpus/CALL, one that failed a check in $out.
libfuzzer() {
    call=$1
    shift
    rm -rf "$out/seeds/$call"
    mkdir -p "$out/seeds/$call" "$out/corpus/$call"
    "$out/fuzz_$call" --write "$out/seeds/$call" $sample_files || {
        fail "libfuzzer $call" "no seeds"
        return
    }
    build "libfuzzer_$call" $clang -fsanitize=fuzzer,address "tests/fuzz/fuzz_$call.c" "$out"/clang/fuzz/*.o \
        "$out"/clang/*.o &&
        one "libfuzzer $call" run_libfuzzer "$@"
}

run_libfuzzer() {
    log=$out/libfuzzer_$call.log
    status=0
    "$out/libfuzzer_$call" -max_len=4096 -timeout=20 -use_value_profile=1 -artifact_prefix="$out/libfuzzer_$call-" \
        "$@" "$out/corpus/$call" "$out/seeds/$call" >"$log" 2>&1 || status=$?
    if [ "$status" -eq 0 ]; then
        sed -n '/DONE/s/^#\([0-9]*\).*\(cov: [0-9]* ft: [0-9]* corp: [0-9]*\).*$/\1 executions, \2/p' "$log"
    else
        tail -n 40 "$log"
    fi
    return "$status"
}
