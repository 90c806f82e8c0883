#!/bin/sh
# The gate: checks what the documents cite; proves every crate in its layout, tries the must-fail edits, each of which
# has to be refused by the fact that it names, and runs the programs, all by one plain `rt ci`; then builds the library
# from what was proved and runs the C tests, the Rust comparison and the tests of the verdict program.
#
# The last line is 'N passed, M failed': N as rt counts it, M the failures of the text and of rt or, where rt has none,
# of the tests. It is kept in build/gate.last too. Exits 0 only if nothing failed.
set -u
cd "$(dirname "$0")/.." || exit 1

mkdir -p build
rm -f build/gate.last build/rt-ci.ok build/tests/failed
. tests/memory.sh

# finish FAILED
finish() {
    failures=$(($1 + text))
    echo "$passed passed, $failures failed" | tee build/gate.last
    [ "$failures" -eq 0 ]
    exit
}

sh tests/text.sh
text=$?

{ rt ci 2>&1 && : >build/rt-ci.ok; } | tee build/rt-ci.log
counts=$(sed -n '$s/^\([0-9][0-9]*\) passed, \([0-9][0-9]*\) failed$/\1 \2/p' build/rt-ci.log)
counts=${counts:-0 0}
passed=${counts% *}
failed=${counts#* }
[ "$failed" -eq 0 ] || finish "$failed"
[ "$passed" -gt 0 ] && [ -e build/rt-ci.ok ] || finish 1

# An edit that cannot be tried shows nothing, though rt lets it pass.
if ! grep -q '^rt: ok' build/rt-ci.log || grep -q '^rt: ok.*, [1-9][0-9]* bad' build/rt-ci.log; then
    echo 'gate: rt ci left edits untried, see its line rt: ok'
    finish 1
fi

sh tools/build.sh program || finish 1

# Each edit is refused first by the fact that it names.
if ! command -v python3 >/dev/null; then
    echo 'refusals: by which facts the edits are refused is not tested, no python3'
elif ! tools/refusals.py build/rt-ci.log >build/refusals.log; then
    grep '^!' build/refusals.log
    text=$((text + 1))
fi

if ! sh tests/run.sh target/staticlib/libzuvaropy.a target/bin/verdict; then
    failed=$(cat build/tests/failed)
    finish "${failed:-1}"
fi
finish 0
