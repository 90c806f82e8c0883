#!/bin/sh
# The symbols of the static and of the shared library: those that others can link to are the calls that the
# header declares, and the library calls nothing but what the compiler itself may put in.
#
#   sh tests/symbols.sh ARCHIVE SHARED
#
# The last line is 'symbols: P passed, F failed'; exits 1 if F is not 0.
set -u

if [ $# -ne 2 ]; then
    echo "usage: sh tests/symbols.sh ARCHIVE SHARED" >&2
    exit 2
fi
archive=$1
shared=$2
tests=$(dirname "$0")
. "$tests/count.sh"

room=$(mktemp -d) || exit 2
trap 'rm -rf "$room"' EXIT
sh "$tests/../package/calls.sh" | sort >"$room/calls"

# names TYPES NM..: the global symbols of these types (see nm), without the version that the C library gives its own.
names() {
    types=$1
    shift
    "$@" >"$room/symbols" &&
        awk -v types="$types" 'NF > 1 && $2 ~ types { sub(/@.*/, "", $1); print $1 }' "$room/symbols"
}

# defines NM..: the calls, and nothing else.
defines() {
    names '^[^Uwv]$' "$@" | sort | diff "$room/calls" -
}

# needs NM..: nothing else. That there are symbols at all, defines has said.
needs() {
    ! names '^[Uwv]$' "$@" | grep -vxE 'memset|memcpy|memmove|memcmp'
}

check 'archive, defined' defines nm -gP "$archive"
check 'archive, needed' needs nm -gP "$archive"
check 'shared library, defined' defines nm -DP "$shared"
check 'shared library, needed' needs nm -DP "$shared"

summary symbols
