#!/bin/sh
# Proves what changed and writes target/staticlib/libzuvaropy.a; with `program` target/bin/verdict too.
#
#   sh tools/build.sh [program]
set -eu
cd "$(dirname "$0")/.."

(cd crates/zuvaropy && rt lib)
mkdir -p target/staticlib target/bin
cp crates/zuvaropy/out/libzuvaropy.a target/staticlib/libzuvaropy.a

# rt leaves the program that it ran; what that printed is compared by rt ci.
if [ "${1-}" = program ]; then
    (cd crates/verdict && rt run >/dev/null)
    cp crates/verdict/out/verdict target/bin/verdict
fi
