#!/bin/sh
# Explains which cards of sample books are the most specific ones: sh samples/explain.sh PROGRAM, which is that of
# examples/explain.c.
. "$(dirname "$0")/here.sh"
program=$(program "$1")
cd "$(dirname "$0")"

explain() {
    printf '%s %s:\n' "$@"
    "$program" "$1" "$2"
}

# refused CASE BOOK: the same where one of them is refused, so that the program ends with 1.
refused() {
    status=0
    explain "$@" || status=$?
    [ "$status" -eq 1 ]
}

explain family.pic cards.book
explain both.pic cards.book
explain family.pic twins.book
explain family.pic reworded.book
refused family.pic deep.book
