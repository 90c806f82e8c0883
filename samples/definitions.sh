#!/bin/sh
# Runs the example with definitions, looks a sample up under sample definitions books and explains it:
# sh samples/definitions.sh DEFINITIONS MOST_SPECIFIC EXPLAIN, which are the programs of examples/.
. "$(dirname "$0")/here.sh"
definitions=$(program "$1")
most_specific=$(program "$2")
explain=$(program "$3")
cd "$(dirname "$0")"

# look CASE BOOK [DEFINITIONS]
look() {
    printf '%s: ' "$*"
    "$most_specific" "$@"
}

# refused CASE BOOK DEFINITIONS: the same where one of them is refused, so that the program ends with 1.
refused() {
    status=0
    look "$@" || status=$?
    [ "$status" -eq 1 ]
}

"$definitions"
look side.pic side.book
look side.pic side.book side.defs
printf '%s:\n' 'side.pic side.book side.defs, explained'
"$explain" side.pic side.book side.defs
for book in open early twice seated ring threefold deep; do
    refused side.pic side.book "$book.defs"
done
