#!/bin/sh
# Looks sample pictures up in sample books: sh samples/most_specific.sh PROGRAM, which is that of
# examples/most_specific.c.
. "$(dirname "$0")/here.sh"
program=$(program "$1")
cd "$(dirname "$0")"

look() {
    printf '%s %s: ' "$@"
    "$program" "$1" "$2"
}

# refused CASE BOOK: the same where one of them is refused, so that the program ends with 1.
refused() {
    status=0
    look "$@" || status=$?
    [ "$status" -eq 1 ]
}

look family.pic cards.book
look friend.pic cards.book
look both.pic cards.book
look none.pic cards.book
look family.pic twins.book
look family.pic reworded.book
look friend.pic reworded.book
look both.pic twins.book
refused cut.pic cards.book
refused family.pic open.book
refused family.pic deep.book
refused family.pic early.book
refused spread.pic cards.book
