#!/bin/sh
# Asks of sample pictures whether the second subsumes the first, and has the evidence checked:
# sh samples/subsumes.sh SUBSUMES VERIFY, which are the programs of examples/.
. "$(dirname "$0")/here.sh"
subsumes=$(program "$1")
verify=$(program "$2")
cd "$(dirname "$0")"
evidence=$(mktemp)
trap 'rm -f "$evidence"' EXIT

# ask CASE CARD
ask() {
    printf '%s %s: ' "$@"
    "$subsumes" "$1" "$2" "$evidence"
}

# checked CASE CARD
checked() {
    ask "$@"
    printf '  checked: '
    "$verify" "$1" "$2" "$evidence"
}

# refused CASE CARD: one of them is refused, so that the program ends with 1 and there is no evidence.
refused() {
    status=0
    ask "$@" || status=$?
    [ "$status" -eq 1 ] && [ ! -s "$evidence" ]
}

checked both.pic each.pic
checked each.pic both.pic
checked family.pic top.pic
checked top.pic family.pic
checked none.pic family.pic
refused cut.pic top.pic
refused top.pic spread.pic
