#!/bin/sh
# The goals of a crate's holes and its errors, without what the search tried.
#
#   tools/goals.sh CRATE
RT_CUT=0 rt dev "$1" --allow-holes 2>&1 | python3 "$(dirname "$(rt doc)")/../tools/pretty.py" |
    grep -vE ': no holes$|has-holes$|^note: what antt|^note: antt.s advice|^  was found|^  .omega. was tried|^  = [0-9]|^logic /opt|^library |unchanged since it was last proved|depends on a hole|^help: write|^    (use |--|[a-z0-9-]+ (:|c|=)|tie|pub )|^ *$' |
    cut -c1-"${WIDTH:-900}"
