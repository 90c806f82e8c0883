#!/bin/sh
# Prints the names under which the manual page is found: the calls, as package/calls.sh has them, and the inline
# functions of a word, a number or nothing: sh package/functions.sh. What else is inline in the header serves these.
here=$(dirname "$0")
sh "$here/calls.sh"
sed -n 's/(void)$/(no argument)/; s/^static inline .*[ *]\(zuvaropy_[a-z_]*\)([a-z0-9_]* [a-z0-9_ ]*)$/\1/p' \
    "$here/../include/zuvaropy.h"
