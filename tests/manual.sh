#!/bin/sh
# The manual pages: they are formatted without warnings and say what the header says; the program in zuvaropy(3) runs,
# and the library takes the files in zuvaropy(5). The example in zuvaropy-verdict(1) is run by tests/install.sh.
#
#   sh tests/manual.sh ARCHIVE
#
# The last line is 'manual pages: P passed, F failed'; exits 1 if F is not 0.
set -u

case ${1-} in
'') echo "usage: sh tests/manual.sh ARCHIVE" >&2; exit 2 ;;
/*) archive=$1 ;;
*) archive=$PWD/$1 ;;
esac
cd "$(dirname "$0")/.." || exit 2
. tests/count.sh

page=docs/zuvaropy.3
files_page=docs/zuvaropy.5
pages="$page $files_page docs/zuvaropy-verdict.1"
c="${CC:-gcc} -std=c99 -Wall -Wextra -Wpedantic -Werror -Iinclude"
room=$(mktemp -d) || exit 2
trap 'rm -rf "$room"' EXIT

# silent COMMAND..: it ends well and says nothing.
silent() {
    said=$("$@" 2>&1) && [ -z "$said" ] || { echo "$said"; return 1; }
}

# formatted COMMAND..: each page by itself.
formatted() {
    for one in $pages; do
        silent "$@" "$one" || return
    done
}

# At 80 columns no line of a page is wider.
narrow() {
    for one in $pages; do
        groff -t -man -Tascii -P-cbou -rLL=80n "$one" >"$room/narrow" && [ -s "$room/narrow" ] &&
            silent awk 'length > 80' "$room/narrow" || return
    done
}

# Version and date stand where make install fills them in.
titled() {
    for one in $pages; do
        grep -q '^\.TH [A-Z-]* [135] @DATE@ "Zuvaropy @VERSION@" "[A-Za-z ]*"$' "$one" || return
    done
}

# numbers PAGE..: the names with a number in them, and the number.
numbers() {
    sed -n 's/^\.BR \(ZUVAROPY_[A-Z_]*\) " (\([0-9]*\))"$/\1 \2/p' "$@"
}

# A unit in which each of them has that number, and each function is declared as in the page.
unit() {
    echo '#include "zuvaropy.h"'
    numbers $pages |
        awk '{ printf "#if !defined %s || %s != %s\n#error \"%s\"\n#endif\n", $1, $1, $2, $1 }'
    sh package/calls.sh | sed 's/^/#undef /'
    sed -n '/^\.SH SYNOPSIS/,/^\.SH DESCRIPTION/s/^\.BI //p' "$page" | sed 's/" \([a-z_]*\) "/\1/g; s/"//g'
}
agrees() {
    unit >"$room/unit.c" && $c -c "$room/unit.c" -o "$room/unit.o"
}

# The page is found by the functions of its synopsis, and has them in its first line for apropos.
named() {
    sh package/functions.sh >"$room/functions" && [ -s "$room/functions" ] &&
        sed -n '/^\.SH SYNOPSIS/,/^\.SH DESCRIPTION/s/^\.BI "[a-z0-9_ ]*[ *]\(zuvaropy_[a-z_]*\)(.*/\1/p' "$page" |
        diff "$room/functions" - &&
        sed -n '/^\.SH NAME/,/ \\- /p' "$page" | grep -o 'zuvaropy_[a-z_]*' | diff "$room/functions" -
}

# Each call has its section.
described() {
    sed -n 's/^\.SS \(zuvaropy_[a-z_]*\)()$/\1/p' "$page" >"$room/described"
    sh package/calls.sh | diff - "$room/described"
}

# defined PATTERN: the names that the header defines and that match, but for shifts.
defined() {
    sed -n 's/^.define \(ZUVAROPY_[A-Z_]*\) .*/\1/p' include/zuvaropy.h | grep -E "$1" | grep -v '_SHIFT$' | sort
}

# Each question, input, outcome and stack size of the header is in the page.
complete() {
    defined '_(QUESTION|INPUT|OUTCOME)_|_STACK_BYTES$' >"$room/names"
    numbers "$page" | sed 's/ .*//' | sort | comm -23 "$room/names" - >"$room/missing" && [ -s "$room/names" ] &&
        silent cat "$room/missing"
}

# A program that prints each question and each input of the header, and its text.
printer() {
    printf '#include "zuvaropy.h"\n#include <stdio.h>\nint main(void)\n{\n'
    defined _QUESTION_ | sed 's/.*/    printf("& %s\\n", zuvaropy_question_text(&));/'
    defined _INPUT_ | sed 's/.*/    printf("& %s\\n", zuvaropy_input_text(&));/'
    printf '    return 0;\n}\n'
}

# The same as the page has them: the text is the line below the name, but for a capital letter.
page_texts() {
    awk 'name != "" { print name " " tolower(substr($0, 1, 1)) substr($0, 2) }
        { name = /^\.BR ZUVAROPY_(QUESTION|INPUT)_/ ? $2 : "" }' "$page"
}

# The page and the header's functions have a text for each question and input, and the same one.
texts() {
    printer >"$room/printer.c" && $c "$room/printer.c" -o "$room/printer" && "$room/printer" >"$room/unsorted" &&
        sort "$room/unsorted" >"$room/texts" && [ -s "$room/texts" ] && page_texts | sort | diff "$room/texts" -
}

# So have the comments beside the questions in the header.
comments() {
    sed -n 's|^.define \(ZUVAROPY_QUESTION_[A-Z_]*\) .*/\* \(.*\) \*/$|\1 \2|p' include/zuvaropy.h |
        sort >"$room/comments"
    grep _QUESTION_ "$room/texts" | diff - "$room/comments"
}

# refuses SAMPLE SAID
refuses() {
    ! "$room/example" <"samples/$1" 2>"$room/said" && [ "$(cat "$room/said")" = "$2" ]
}

# The normal table of this sample is the sample, and others are refused, the first of them at a row.
example() {
    sed -n '/^\.EX$/,/^\.EE$/p' "$page" | sed '1d;$d;s/\\e/\\/g' >"$room/example.c"
    $c "$room/example.c" "$archive" -o "$room/example" && "$room/example" <samples/each.pic | cmp - samples/each.pic &&
        refuses cut.pic 'refused 6, first picture, row 5, byte 120: is the whole value there?' &&
        refuses spread.pic 'refused 14, first picture: has the merged table at most 256 rows?'
}

# The tables of zuvaropy(5): of each part its section, name, offset, bytes and, where it is always the same, its number;
# of each tag number, name and length.
tables() {
    awk -F '\t' '/^\.SS / { section = substr($0, 5) }
        $1 ~ /^[0-9]+$/ { gsub(/\\f./, ""); print section, $3, $1, $2, $4 ~ /^(0x|[0-9]+$)/ ? $4 : "-" }
        $1 ~ /^0x/ { print $1, $2, $3 }' "$files_page"
}
laid_down() {
    $c tests/manual/tables.c -o "$room/tables" && "$room/tables" >"$room/laid_down" && tables | diff "$room/laid_down" -
}

# bytes SECTION: the bytes of the example in that section of zuvaropy(5), which begin each line; two spaces end them.
bytes() {
    awk -v section=".SS $1" '/^\.S[HS]/ { inside = $0 == section } inside && /^[0-9A-F][0-9A-F]( |$)/' "$files_page" |
        sed 's/  .*//' | tr ' ' '\n' | while read -r byte; do
        printf "\\$(printf %03o "0x$byte")"
    done
}

# The library takes these files, and says of them what the page says.
taken() {
    set --
    for section in 'First picture' 'Second picture' Map Refutation Book 'Definitions book' 'Defined name'; do
        bytes "$section" >"$room/$section" || return
        set -- "$@" "$room/$section"
    done
    $c tests/manual/files.c "$archive" -o "$room/files" && "$room/files" "$@" >"$room/taken" &&
        diff - "$room/taken" <<'END'
first picture: yes, 2
second picture: yes, 2
normal: 1 1
map: yes, 0
map written: 1
refutation: no, 0
cards: 1 1
book: yes, 1
unfolded: 1
subsumes: 1
subsumes: 2
END
}

# first_entry: the version at the head of the changelog, if it has a date.
first_entry() {
    sed -n '/^## /{s/^## \([0-9.]*\) ([0-9]*-[0-9]*-[0-9]*)$/\1/p;q}' CHANGELOG.md
}
changes() {
    version=$(sed -n 's/^.define ZUVAROPY_VERSION_M[A-Z]* *//p; s/^.define ZUVAROPY_VERSION_P[A-Z]* *//p' \
        include/zuvaropy.h | paste -sd .)
    [ -n "$version" ] && [ "$(first_entry)" = "$version" ]
}

if command -v groff >/dev/null; then
    check 'manual pages, groff' formatted groff -t -man -ww -z
    check 'manual pages, width' narrow
elif command -v mandoc >/dev/null; then
    check 'manual pages, mandoc' formatted mandoc -T lint -W warning
else
    echo "manual pages: not formatted, no groff and no mandoc"
fi
check 'manual pages, titles' titled
check 'manual pages, header' agrees
check 'manual page, names of the page' named
check 'manual page, calls' described
check 'manual page, names of the header' complete
check 'manual page, texts' texts
check 'manual page, comments of the header' comments
check 'manual page, example' example
check 'page of the files, tables' laid_down
check 'page of the files, examples' taken
check 'changelog' changes

summary 'manual pages'
