#!/bin/sh
# The loop: checks the text, proves what changed, and runs the tests. It says at the end which must-fail edits are
# left to try: those of the crates that are not as they are on origin/main (without it: in the last commit).
#
# Exits 0 only if nothing failed. It trusts what rt kept of earlier checks; the gate does not.
set -u
cd "$(dirname "$0")/.." || exit 1
. tests/memory.sh

sh tests/text.sh
failures=$?

rt all check || exit 1
sh tools/build.sh program || exit 1
sh tests/run.sh target/staticlib/libzuvaropy.a target/bin/verdict || failures=$((failures + 1))

[ "$failures" -eq 0 ] || echo 'quick: FAILED, see above'
base=$(git merge-base HEAD origin/main 2>/dev/null || echo HEAD)
edited=$({ git diff --name-only "$base" -- crates && git ls-files --others --exclude-standard crates; } |
    cut -d/ -f2 | sort -u | while read -r crate; do
        [ ! -d "crates/$crate/must-fail" ] || echo "$crate"
    done)
if [ -n "$edited" ]; then
    echo "quick: now try the edits: rt must-fail" $edited
else
    echo 'quick: no crate with must-fail edits has changed'
fi
[ "$failures" -eq 0 ]
