#!/bin/sh
# Builds the C tests against an archive of the library and runs them; compares it with the Rust
# implementation of tests/rust, if there is a rustc; fuzzes the calls, a bounded number of times; makes
# them under valgrind, if it is there; makes a shared library of it, compares that with FaCT++, if it is
# there, and installs both; runs the examples; and tests the verdict program.
#
#   sh tests/run.sh ARCHIVE PROGRAM
#
# Prints a line for each test and last 'C tests: P passed, F failed'; exits 1 if F is not 0. F is also
# written to build/tests/failed.
set -u

if [ $# -ne 2 ]; then
    echo "usage: sh tests/run.sh ARCHIVE PROGRAM" >&2
    exit 2
fi
absolute() {
    case $1 in
    /*) echo "$1" ;;
    *) echo "$PWD/$1" ;;
    esac
}
archive=$(absolute "$1")
verdict=$(absolute "$2")
cd "$(dirname "$0")/.." || exit 2

out=build/tests
. tests/counting.sh
. tests/fuzz/libfuzzer.sh
. tests/valgrind/valgrind.sh
cxx="${CXX:-g++}"
rm -rf "$out"
mkdir -p "$out"

objects "$out" $c
c_test() {
    started "$(basename "$1" .c)" $c "$1" "$out"/*.o
}
both c_test tests/test_*.c
for source in tests/test_*.c; do
    tally "$(basename "$source" .c)"
done
# rust SOURCE ARCHIVE -o PROGRAM: the compiler's own way to say it.
rust() {
    rustc --edition 2021 -O -C panic=abort -D warnings "$1" -C link-arg="$2" "$3" "$4"
}
if command -v rustc >/dev/null; then
    program test_rust_random rust tests/rust/random.rs
else
    left_out "random pairs against the Rust implementation" "no rustc"
fi

# alone COMPILER..: no warning in a unit of each header alone, and in one that makes every call.
strict="$warnings -Wconversion -Wsign-conversion -Wshadow -Wcast-qual"
alone() {
    for header in zuvaropy.h zuvaropy_parts.h; do
        echo "#include \"$header\"" | "$@" $strict -Iinclude -c - -o "$out/alone" || return
    done
    "$@" $strict -Iinclude -c tests/second_unit.c -o "$out/alone"
}
# dropped COMPILER..: of each word, and of a length, that is dropped there is a warning, which can be an error.
dropped() {
    "$@" -Iinclude -c tests/dropped_words.c -o "$out/alone" 2>"$out/dropped.log" &&
        [ "$(grep -c 'Wunused-result' "$out/dropped.log")" -eq 13 ] &&
        ! "$@" -Werror -Iinclude -c tests/dropped_words.c -o "$out/alone" 2>"$out/dropped.log"
}
# headers COMPILER LANGUAGE STANDARD..
headers() {
    compiler=$1
    language=$2
    shift 2
    for standard; do
        one "headers alone, ${compiler%% *}, $standard" alone $compiler -x "$language" "-std=$standard"
    done
    one "dropped words, ${compiler%% *}, $1" dropped $compiler -x "$language" "-std=$1"
}
# cxx_headers COMPILER: C++ has more to warn about, and one of these warnings not every compiler has.
cxx_headers() {
    cast=-Wuseless-cast
    $1 -Werror $cast -x c++ -fsyntax-only /dev/null 2>"$out/alone.log" || cast=
    headers "$1 -Wold-style-cast -Wzero-as-null-pointer-constant $cast" c++ c++11 c++14 c++17 c++20
}
headers "${CC:-gcc}" c c99 c11 c17
if command -v "$cxx" >/dev/null; then
    cxx_headers "$cxx"
    program test_header_cxx "$cxx" -x c++ -std=c++11 $warnings -Iinclude tests/test_header.c tests/check.c \
        tests/second_unit.c -x none
    program test_parts_cxx "$cxx" -x c++ -std=c++11 $warnings -Iinclude tests/test_parts.c tests/check.c \
        tests/calls.c -x none
else
    left_out "headers as C++" "no $cxx"
fi
if command -v clang >/dev/null && command -v clang++ >/dev/null; then
    headers clang c c99 c11 c17
    cxx_headers clang++
else
    left_out "headers with clang" "not there"
fi

# Each fuzz target with its seeds, and so many inputs made from them.
fuzz_drivers $calls
fuzz_runs() {
    case $1 in
    validate) echo 100000 ;;
    normalize | most_specific) echo 40000 ;;
    subsumes | lcs | verify) echo 20000 ;;
    esac
}
fuzz() {
    run "fuzz_$1" "$out/fuzz_$1" "$(fuzz_runs "$1")" $sample_files
}
both fuzz $calls
for call in $calls; do
    tally "fuzz_$call"
done
if libfuzzer_is_there; then
    libfuzzer_objects
    for call in $calls; do
        libfuzzer "$call" -runs=3000 -seed=1
    done
else
    left_out "libFuzzer" "no clang with it"
fi
if command -v valgrind >/dev/null; then
    valgrind_samples
else
    left_out "valgrind" "not there"
fi

# The shared library, as make builds it; without the flags of the make that runs the tests.
shared() {
    MAKEFLAGS='' make -s shared CC="${CC:-gcc}" LIBRARY="$archive" SHARED="$PWD/$out/shared"
}

# The samples are what their script makes, and each example says of them what it should. Paper 01 leaves free which
# refutation is written: how long those are that the examples and the README show is this library's choice.
samples() {
    sh samples/make.sh "$out/samples" && diff -r -x '*.sh' -x '*.stdout' samples "$out/samples"
}
# example NAME COMMAND..: COMMAND runs it on the samples.
example() {
    example=$1
    shift
    $c "examples/$example.c" examples/show.c "$archive" -o "$out/$example" &&
        "$@" >"$out/$example.log" && diff "samples/$example.stdout" "$out/$example.log"
}

# The files that the verdict programs are run on are samples.
data() {
    cmp samples/both.pic crates/verdict/data/first.pic && cmp samples/each.pic crates/verdict/data/second.pic &&
        for file in crates/verdict_cases/data/*; do
            cmp "samples/$(basename "$file")" "$file" || return
        done
}
verdict_samples() {
    sh samples/verdict.sh "$verdict" >"$out/verdict_samples.log" && diff samples/verdict.stdout "$out/verdict_samples.log"
}

# block LANGUAGE N: the README's Nth program in a language, as it stands there.
block() {
    awk -v fence="\`\`\`$1" -v n="$2" '$0 == fence { at++; next } /^```$/ { if (at == n) exit } at == n' README.md
}

# shown PATTERN: the README's first block after the line that matches.
shown() {
    awk -v pattern="$1" '!at && $0 ~ pattern { at = 1; next } at && /^```/ { if (at++ == 2) exit; next } at == 2' \
        README.md
}

# readme STATUS PRINTED ARGUMENT..: the README's one program in C builds, prints this and ends so. Others are in
# examples/, and tested.
readme() {
    block c 1 >"$out/readme.c" && [ -z "$(block c 2)" ] || return
    ending=$1
    expected=$2
    shift 2
    $c "$out/readme.c" "$archive" -o "$out/readme" || return
    printed=$("$out/readme" "$@")
    [ $? -eq "$ending" ] && [ "$printed" = "$expected" ]
}

# A file that cannot be read, and one that is a folder, are told.
readme_unread() {
    for unread in samples/none.such samples; do
        ! "$out/readme" samples/both.pic $unread >"$out/readme.log" 2>&1 &&
            grep -q "^$unread: " "$out/readme.log" && [ "$(wc -l <"$out/readme.log")" -eq 1 ] || return
    done
}

readme_python() {
    block python 1 >"$out/readme.py" &&
        [ "$(LD_LIBRARY_PATH=$out/shared python3 "$out/readme.py")" = 'cards [2, 3, 4]' ]
}

# The lines about single cards in the README are among those of examples/explain.c.
explained() {
    grep '^card [0-9]*:' README.md >"$out/explained.log" && ! grep -vxFf samples/explain.stdout "$out/explained.log"
}

# The README shows what make demo prints first.
demo() {
    shown '^This is what `make demo` prints first' | diff samples/readout.stdout -
}

# It shows what examples/definitions.c prints, and one of the refusals.
defined() {
    shown 'each leads back to the other:$' >"$out/defined.log" && "$out/definitions" | diff "$out/defined.log" - &&
        grep -qxF "$(grep '^side.pic ' README.md)" samples/definitions.stdout
}

one 'shared library' shared
if command -v nm >/dev/null; then
    count symbols sh tests/symbols.sh "$archive" "$out/shared/libzuvaropy.so"
else
    left_out "symbols" "no nm"
fi
if command -v python3 >/dev/null; then
    count shared python3 tests/shared.py "$out/shared/libzuvaropy.so"
    one 'readme, Python' readme_python
else
    left_out "shared library from Python" "no python3"
fi
if command -v FaCT++ >/dev/null && command -v python3 >/dev/null; then
    count judge python3 tests/judge/judge.py "$out/shared/libzuvaropy.so" --books 42
else
    left_out "FaCT++ as a judge" "no FaCT++ or no python3"
fi
count install sh tests/install.sh "$archive" "$verdict" "$PWD/$out/shared"
count manual sh tests/manual.sh "$archive"
count instructions sh tests/instructions.sh
one samples samples
one 'example bytes' example bytes "$out/bytes"
one 'example readout' example readout "$out/readout"
one 'example validate' example validate sh samples/validate.sh "$out/validate"
one 'example normalize' example normalize sh samples/normalize.sh "$out/normalize"
one 'example verify' example verify sh samples/verify.sh "$out/verify"
one 'example subsumes' example subsumes sh samples/subsumes.sh "$out/subsumes" "$out/verify"
one 'example lcs' example lcs sh samples/lcs.sh "$out/lcs"
one 'example most_specific' example most_specific sh samples/most_specific.sh "$out/most_specific"
one 'example explain' example explain sh samples/explain.sh "$out/explain"
one 'example definitions' example definitions sh samples/definitions.sh "$out/definitions" "$out/most_specific" \
    "$out/explain"
one 'readme, yes' readme 0 "$(shown '^Of .samples/both.pic. and .samples/each.pic.')" samples/both.pic samples/each.pic
one 'readme, no' readme 0 "$(shown '^of .samples/each.pic. and .samples/both.pic.')" samples/each.pic samples/both.pic
one 'readme, refused' readme 1 "$(shown '^and of .samples/top.pic. and .samples/cut.pic.')" samples/top.pic \
    samples/cut.pic
one 'readme, unread' readme_unread
one 'readme, card refused' grep -qxF "family.pic early.book: $(grep '^refused 11,' README.md)" \
    samples/most_specific.stdout
one 'readme, explained' explained
one 'readme, demo' demo
one 'readme, definitions' defined

count verdict sh tests/verdict.sh "$verdict"
one 'verdict, samples' verdict_samples
one 'verdict, data' data

finish 'C tests'
