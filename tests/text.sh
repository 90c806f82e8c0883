#!/bin/sh
# Checks the text, in seconds: what the documents cite, and the line counts of the reading order. The layout of the
# crates' files is rt ci's to check.
#
# Prints a line for each file, citation or count that is wrong, and exits by the number of the checks that failed.
cd "$(dirname "$0")/.." || exit 1

failures=0
if ! command -v python3 >/dev/null; then
    echo 'text: what the documents cite and count is not tested, no python3'
    exit "$failures"
fi
if ! tools/cited.py; then
    echo 'text: the documents cite what is not there'
    failures=$((failures + 1))
fi
if ! tools/reading.py --check; then
    echo 'text: the line counts of the reading order are stale; tools/reading.py writes them'
    failures=$((failures + 1))
fi
exit "$failures"
