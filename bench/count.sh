#!/bin/sh
# Counts the instructions of one call of the library, of the plain C and of the Rust, on typical inputs, on full books
# of which every card subsumes the case and on the slowest, and compares the library's with those in bench/count.txt:
#
#   sh bench/count.sh BENCH [KEEP]
#
# Exits 1 if a call takes more than 2 % more than there, and 2 if it could not count or compare. With KEEP, which may be
# any word, it writes that file anew and exits 0 where it would exit 1.
#
# The counts are the same on every run and under any load. memset and memcpy are kept from the instructions that repeat,
# which cachegrind counts once for each byte. By where the stack begins they take a few more or fewer, and that is said
# by the environment, PWD too: so it is emptied, and the program runs in a folder whose name is as long wherever this
# one is. Where valgrind follows jumps (chasing), cachegrind counts more than callgrind and single steps do.
set -eu

bench=$1
keep=${2:-}
top=$(cd "$(dirname "$0")/.." && pwd)
kept=$top/bench/count.txt
counted=$bench.count
tunables=glibc.cpu.x86_rep_stosb_threshold=0x40000000:glibc.cpu.x86_rep_movsb_threshold=0x40000000
valgrind=$(command -v valgrind) || { echo 'valgrind is not on the PATH' >&2; exit 2; }

room=$(mktemp -d /tmp/count.XXXXXX)
trap 'rm -rf "$room"' EXIT

# processes: leaves a file of cachegrind's for each process, $room/out.NUMBER, and which is which in $room/lines.
processes() {
    cp "$bench" "$room/bench"
    (cd "$room" && env -i GLIBC_TUNABLES="$tunables" "$valgrind" --quiet --tool=cachegrind --cache-sim=no \
        --vex-guest-chase=no --cachegrind-out-file="$room/out.%p" --log-file="$room/log" ./bench count >lines) ||
        { cat "$room/log" >&2; return 1; }
}

# made_with: what the counts depend on, as comments.
made_with() {
    version=$(sed -nE 's/^.define ZUVAROPY_VERSION_(MAJOR|MINOR|PATCH) +//p' "$top/include/zuvaropy.h" | paste -sd. -)
    commit=$(git -C "$top" log -1 --format=%h -- crates)
    changed=$(git -C "$top" status --porcelain -- crates)
    echo "# zuvaropy $version, crates of ${commit:-no commit}${changed:+ and changes}, $(rt version)"
    echo "# $("$valgrind" --version), $(getconf GNU_LIBC_VERSION), $(${CC:-gcc} --version | sed 1q)," \
        "$(rustc --version | cut -d ' ' -f 1,2)"
}

processes || exit 2
awk -f "$top/bench/count.awk" "$room"/out.* lines=1 "$room/lines" >"$counted" || exit 2
status=0
before=/dev/null
[ ! -e "$kept" ] || before=$kept
awk -f "$top/bench/compare.awk" "$before" "$counted" || status=$?
[ -n "$keep" ] && [ "$status" -lt 2 ] || exit "$status"
{ made_with && cat "$counted"; } >"$room/kept"
cp "$room/kept" "$kept"
