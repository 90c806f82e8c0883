#!/bin/sh
# Validates the sample pictures: sh samples/validate.sh PROGRAM, which is that of examples/validate.c. Some of them are
# refused, so that PROGRAM ends with 1.
. "$(dirname "$0")/here.sh"
program=$(program "$1")
cd "$(dirname "$0")"
status=0
"$program" *.pic || status=$?
[ "$status" -eq 1 ]
