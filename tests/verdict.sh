#!/bin/sh
# Runs the verdict program on pairs of files, each in a folder of its own, with as much stack as the README says.
#
#   sh tests/verdict.sh PROGRAM
#
# The last line is 'verdict program: P passed, F failed'; exits 1 if F is not 0.
set -u

case ${1-} in
'') echo "usage: sh tests/verdict.sh PROGRAM" >&2; exit 2 ;;
/*) program=$1 ;;
*) program=$PWD/$1 ;;
esac
cd "$(dirname "$0")/../samples" || exit 2
. ../tests/count.sh

room=$(mktemp -d) || exit 2
trap 'rm -rf "$room"' EXIT
mkdir "$room/files"

# KB of stack for the process. An environment would take some of it.
stack=100

# lay FIRST SECOND: the two files, in $room/folder. '-' is no file; a folder and a link are copied as such.
lay() {
    rm -rf "$room/folder" && mkdir "$room/folder" || return
    [ "$1" = - ] || cp -RP "$1" "$room/folder/first.pic" || return
    [ "$2" = - ] || cp -RP "$2" "$room/folder/second.pic"
}

# run FIRST SECOND: what the program prints, in $room/printed; false unless it ends well, says nothing else and leaves
# its folder alone.
run() {
    lay "$1" "$2" || return
    before=$(ls -l "$room/folder")
    (ulimit -s "$stack" && cd "$room/folder" && exec env -i "$program") >"$room/printed" 2>"$room/said" </dev/null &&
        [ ! -s "$room/said" ] && [ "$(ls -l "$room/folder")" = "$before" ]
}

# expect FIRST SECOND PRINTED: the lines that it prints, and no other.
expect() {
    printf '%s\n' "$3" >"$room/expected"
    if run "$1" "$2" && cmp -s "$room/printed" "$room/expected"; then
        pass
    else
        fail tests/verdict.sh "$1 $2: printed '$(cat "$room/printed")', not '$3'"
    fi
}

# refused FILE NUMBER ROW: as the first picture, and as the second; the byte is where the field after so many rows
# begins.
refused() {
    expect "$1" top.pic "refused first $2 $3 $((24 * $3))"
    expect top.pic "$1" "refused second $2 $3 $((24 * $3))"
}

# rows COUNT MORE: a picture of a root and successors, so many rows in all, and so many bytes after it.
head -c 24 both.pic >"$room/files/root"
tail -c 27 both.pic | head -c 24 >"$room/files/row"
tail -c 3 both.pic >"$room/files/end"
rows() {
    count=$1
    more=$2
    set -- "$room/files/root"
    while [ $# -lt "$count" ]; do
        set -- "$@" "$room/files/row"
    done
    cat "$@" "$room/files/end"
    head -c "$more" /dev/zero
}

# The map with the lowest images.
expect both.pic each.pic 'verdict yes
0 0
1 1
2 1'
expect family.pic top.pic 'verdict yes
0 0'
expect family.pic family.pic 'verdict yes
0 0
1 1
2 2
3 3
4 4'
expect none.pic each.pic 'verdict yes
0 0
1 0
2 0'
expect none.pic none.pic 'verdict yes
0 0'

expect each.pic both.pic 'verdict no'
expect top.pic family.pic 'verdict no'
expect family.pic none.pic 'verdict no'
expect both.pic family.pic 'verdict no'

# Each picture is read before 14 is asked of either.
refused cut.pic 6 5
refused deep.pic 12 13
refused spread.pic 14 0
expect cut.pic deep.pic 'refused first 6 5 120'
expect deep.pic cut.pic 'refused first 12 13 312'
expect spread.pic deep.pic 'refused second 12 13 312'
expect deep.pic spread.pic 'refused first 12 13 312'
expect spread.pic spread.pic 'refused first 14 0 0'

# Three rows, and one whose parent is itself.
own() {
    head -c 72 deep.pic
    tail -c +97 deep.pic
}
own >"$room/files/own"
refused "$room/files/own" 11 3

# A file that is not there is empty.
: >"$room/files/empty"
expect - - 'refused first 2 0 0'
expect - top.pic 'refused first 2 0 0'
expect top.pic - 'refused second 2 0 0'
expect - cut.pic 'refused first 2 0 0'
expect cut.pic - 'refused first 6 5 120'
expect spread.pic - 'refused second 2 0 0'
refused "$room/files/empty" 2 0

# So is one that cannot be read: a folder, and a link to nothing.
mkdir "$room/files/folder"
ln -s nothing "$room/files/dangling"
refused "$room/files/folder" 2 0
refused "$room/files/dangling" 2 0

# As many rows as allowed: of rows that are alike the lowest is taken.
most() {
    echo 'verdict yes'
    echo '0 0'
    row=1
    while [ "$row" -lt 256 ]; do
        echo "$row 1"
        row=$((row + 1))
    done
}
rows 256 0 >"$room/files/most"
expect "$room/files/most" "$room/files/most" "$(most)"
expect both.pic "$room/files/most" "$(most)"

# A longer file is read up to byte 6,148, and answered as what was read.
# long NUMBER COUNT MORE: so many rows, and bytes after them.
long() {
    rows "$2" "$3" >"$room/files/long"
    head -c 6148 "$room/files/long" >"$room/files/read"
    refused "$room/files/long" "$1" 256
    refused "$room/files/read" "$1" 256
}
long 8 256 1
long 8 256 2
long 8 256 24
long 8 256 1000000
long 5 257 0
long 5 257 1
long 5 300 0

# The deepest pictures take the most stack: a chain with itself, and with the picture that asks nothing.
chain() {
    head -c 312 deep.pic
    cat "$room/files/end"
}
chain_lines() {
    echo 'verdict yes'
    row=0
    while [ "$row" -le 12 ]; do
        echo "$row $row"
        row=$((row + 1))
    done
}
chain >"$room/files/chain"
expect "$room/files/chain" "$room/files/chain" "$(chain_lines)"
expect "$room/files/chain" top.pic 'verdict yes
0 0'
expect top.pic "$room/files/chain" 'verdict no'

# writes: how often the program writes. From a pipe of packets each write is read by itself.
writes() {
    (cd "$room/folder" && python3 - "$program") <<'END'
import os, subprocess, sys
read, write = os.pipe2(os.O_DIRECT)
program = subprocess.Popen([sys.argv[1]], stdin=subprocess.DEVNULL, stdout=write)
os.close(write)
count = 0
while os.read(read, 65536):
    count += 1
print(count if program.wait() == 0 else 'failed')
END
}
# once FIRST SECOND: it writes all lines at once.
once() {
    if lay "$1" "$2" && [ "$(writes)" = 1 ]; then
        pass
    else
        fail tests/verdict.sh "$1 $2: $(writes) writes, not 1"
    fi
}
if command -v python3 >/dev/null; then
    once "$room/files/most" "$room/files/most"
    once both.pic each.pic
    once each.pic both.pic
    once cut.pic top.pic
else
    echo 'verdict program: how often it writes is not tested, no python3'
fi

summary 'verdict program'
