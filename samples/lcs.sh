#!/bin/sh
# Prints the common pictures of sample pictures, two or more: sh samples/lcs.sh PROGRAM, which is that of
# examples/lcs.c.
. "$(dirname "$0")/here.sh"
program=$(program "$1")
cd "$(dirname "$0")"

common() {
    printf '%s: ' "$*"
    "$program" "$@"
}

# refused PICTURE..: the same where a picture is refused, so that the program ends with 1.
refused() {
    status=0
    common "$@" || status=$?
    [ "$status" -eq 1 ]
}

common family.pic friend.pic
common both.pic each.pic
common family.pic top.pic
common none.pic both.pic
common none.pic both.pic each.pic
refused cut.pic top.pic
refused top.pic spread.pic
refused both.pic each.pic spread.pic
