#!/bin/sh
# Checks the sample evidence: sh samples/verify.sh PROGRAM, which is that of examples/verify.c.
. "$(dirname "$0")/here.sh"
program=$(program "$1")
cd "$(dirname "$0")"

verify() {
    printf '%s %s %s: ' "$@"
    "$program" "$1" "$2" "$3"
}

# refused CASE CARD EVIDENCE: the same where one of them is refused, so that the program ends with 1.
refused() {
    status=0
    verify "$@" || status=$?
    [ "$status" -eq 1 ]
}

verify both.pic each.pic both-each.map
verify each.pic both.pic each-both.ref
verify family.pic top.pic top.map
refused each.pic both.pic both-each.map
refused both.pic each.pic each-both.ref
refused cut.pic top.pic top.map
refused top.pic spread.pic top.map
