#!/bin/sh
# Prints the names of the calls, as the header declares them: sh package/calls.sh.
sed -n 's/^uint64_t \(zuvaropy_[a-z_]*\)(.*/\1/p' "$(dirname "$0")/../include/zuvaropy.h"
