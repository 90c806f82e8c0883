#!/bin/sh
# Tests what make count reckons: counts from those of processes (bench/count.awk), and counts beside those that are kept
# (bench/compare.awk). It counts no instructions.
cd "$(dirname "$0")/.." || exit 1
. tests/count.sh
room=$(mktemp -d)
trap 'rm -rf "$room"' EXIT

# gives STATUS SCRIPT ARGUMENT..: the script ends so and prints $room/expected, whatever the width of its columns.
gives() {
    wanted=$1
    shift
    ending=0
    awk -f "$@" >"$room/printed" 2>"$room/said" || ending=$?
    tr -s ' ' <"$room/printed" | diff - "$room/expected" && [ "$ending" -eq "$wanted" ]
}

# compared NAME STATUS: $room/kept and $room/counted give the standard input.
compared() {
    cat >"$room/expected"
    check "$1" gives "$2" bench/compare.awk "$room/kept" "$room/counted"
}

# reckoned NAME STATUS TOTAL..: two calls by processes with so many instructions, or with no file where it is '-', give
# the standard input.
reckoned() {
    cat >"$room/expected"
    name=$1
    status=$2
    shift 2
    rm -f "$room"/out.*
    number=10
    for total; do
        [ "$total" = - ] || printf 'events: Ir\nfn=f\n0 7\nsummary: %s\n' "$total" >"$room/out.$number"
        number=$((number + 1))
    done
    check "$name" gives "$status" bench/count.awk "$room"/out.* lines=1 "$room/lines"
}

cat >"$room/kept" <<'END'
# version 1
lcs     typical one, 3 % more    1000   -  7
lcs     typical one, 1 % more    1000   -  7
lcs     typical one, 2 % more    1000   -  7
lcs     typical one, gone        1000   -  7
verify  worst   as before  2588712971  20  7
verify  full    1 over 2 % 2588712950  20  7
verify  worst   half             1000  20  7
END
cat >"$room/counted" <<'END'
lcs     typical one, 3 % more    1030   -  8
lcs     typical one, 1 % more    1010   -  8
lcs     typical one, 2 % more    1020   -  8
lcs     typical one, new         1000   -  8
verify  worst   as before  2588712971  21  8
verify  full    1 over 2 % 2640487210  21  8
verify  worst   half              500  21  8
END
compared 'grown' 1 <<'END'
kept: version 1
call sort input library C Rust kept change
lcs typical one, 3 % more 1030 - 8 1000 +3.00 % more than 2 % more
lcs typical one, 1 % more 1010 - 8 1000 +1.00 %
lcs typical one, 2 % more 1020 - 8 1000 +2.00 %
lcs typical one, new 1000 - 8 - - new
verify worst as before 2588712971 21 8 2588712971 same
verify full 1 over 2 % 2640487210 21 8 2588712950 +2.00 % more than 2 % more
verify worst half 500 21 8 1000 -50.00 %
lcs typical one, gone - - - 1000 - gone
2 of 7 take more than 2 % more: lcs typical one, 3 % more; verify full 1 over 2 %
END

echo 'lcs typical input 100 - 7' >"$room/kept"
echo 'lcs typical input 103 - 7' >"$room/counted"
compared 'one grown' 1 <<'END'
call sort input library C Rust kept change
lcs typical input 103 - 7 100 +3.00 % more than 2 % more
1 of 1 takes more than 2 % more: lcs typical input
END
cp "$room/counted" "$room/kept"
compared 'as before' 0 <<'END'
call sort input library C Rust kept change
lcs typical input 103 - 7 103 same
0 of 1 take more than 2 % more
END
: >"$room/kept"
compared 'nothing kept' 0 <<'END'
call sort input library C Rust kept change
lcs typical input 103 - 7 - - new
0 of 1 take more than 2 % more
END
echo 'lcs typical input - - 7' >"$room/kept"
compared 'no count kept' 2 </dev/null
echo 'lcs typical 100 - 7' >"$room/kept"
compared 'no input kept' 2 </dev/null
: >"$room/counted"
: >"$room/kept"
compared 'nothing counted' 2 </dev/null

# A step of 10 from process to process, and what the calls take.
echo '2 10 11 12 13 14 15 verify typical map, depth 2' >"$room/lines"
reckoned 'three sides' 0 1000 1010 1220 1130 1183 1050 <<'END'
verify typical map, depth 2 100 50 71
END
reckoned 'no plain C' 0 1000 1010 5177426962 1030 1183 1050 <<'END'
verify typical map, depth 2 2588712971 - 71
END
reckoned 'steps of other lengths' 1 1000 1010 1220 1130 1183 1051 </dev/null
reckoned 'no call' 1 1000 1010 1020 1130 1183 1050 </dev/null
reckoned 'no file of a process' 1 1000 1010 1220 - 1183 1050 </dev/null

summary instructions
