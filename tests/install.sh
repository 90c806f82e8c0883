#!/bin/sh
# Installs what was built into folders of its own, links a program as pkg-config says and runs it, builds the installed
# examples, runs the commands of the installed README and the example of the verdict program's page, and uninstalls.
#
#   sh tests/install.sh ARCHIVE PROGRAM SHARED
#
# SHARED is the folder of the shared library. The last line is 'install: P passed, F failed'; exits 1 if F is not 0.
set -u

if [ $# -ne 3 ]; then
    echo "usage: sh tests/install.sh ARCHIVE PROGRAM SHARED" >&2
    exit 2
fi
archive=$1
program=$2
shared=$3
cd "$(dirname "$0")/.." || exit 2
. tests/count.sh

cc=${CC:-gcc}
room=$(mktemp -d) || exit 2
trap 'rm -rf "$room"' EXIT
version=$(echo ZUVAROPY_VERSION_MAJOR.ZUVAROPY_VERSION_MINOR.ZUVAROPY_VERSION_PATCH |
    $cc -E -P -include include/zuvaropy.h - | tail -n 1 | tr -d ' ')
soname=libzuvaropy.so.${version%.*}
date=$(sed -n "s/^## $version (\(.*\))$/\1/p" CHANGELOG.md)

# Installing proves nothing: this is the rt that would be called.
mkdir "$room/tools"
printf '#!/bin/sh\n: >"%s/proved"\n' "$room" >"$room/tools/rt"
# The documents call the compiler cc.
[ "$cc" = cc ] || printf '#!/bin/sh\nexec %s "$@"\n' "$cc" >"$room/tools/cc"
chmod +x "$room/tools"/*

# packaged GOAL VARIABLE..: without the flags of the make that runs the tests.
packaged() {
    PATH=$room/tools:$PATH MAKEFLAGS='' DESTDIR='' make -s CC="$cc" LIBRARY="$archive" PROGRAM="$program" \
        SHARED="$shared" "$@"
}

pages() {
    echo zuvaropy
    sh package/functions.sh
}

# What should be installed below $root: $bin, $include, $lib, $man and $doc are the folders.
expected() {
    echo "$bin/zuvaropy-verdict"
    printf '%s\n' "$include/zuvaropy.h" "$include/zuvaropy_parts.h"
    printf '%s\n' "$lib/libzuvaropy.a" "$lib/libzuvaropy.so" "$lib/$soname" "$lib/libzuvaropy.so.$version"
    echo "$lib/pkgconfig/zuvaropy.pc"
    pages | sed "s|.*|$man/man3/&.3|"
    printf '%s\n' "$man/man1/zuvaropy-verdict.1" "$man/man5/zuvaropy.5"
    ls README.md CHANGELOG.md examples/*.[ch] samples/* | sed "s|^|$doc/|"
    echo "$doc/examples/Makefile"
}

# What is.
files() {
    find "${root:-$prefix}" ! -type d | sed "s|^$root||"
}

listed() {
    expected | sort >"$room/expected" && files | sort | diff "$room/expected" -
}

# same FOLDER FILE..: the files are there, as they are here.
same() {
    folder=$1
    shift
    for file; do
        cmp "$file" "$root$folder/$(basename "$file")" || return
    done
}

# filled SOURCE INSTALLED: with version, date and folders.
filled() {
    sed "s/@VERSION@/$version/; s/@DATE@/$date/; s|@PKGCONFIGDIR@|$lib/pkgconfig|; s|@MANDIR@|$man|; s|@DOCDIR@|$doc|" \
        "$1" | cmp - "$root$2"
}

# They are what was built, and links lead to it.
copied() {
    cmp "$program" "$root$bin/zuvaropy-verdict" && cmp "$archive" "$root$lib/libzuvaropy.a" &&
        same "$include" include/*.h && same "$doc" CHANGELOG.md && filled package/README.md "$doc/README.md" &&
        same "$doc/examples" examples/*.[ch] && same "$doc/samples" samples/* &&
        for name in libzuvaropy.so "$soname" "libzuvaropy.so.$version"; do
            cmp "$shared/libzuvaropy.so.$version" "$root$lib/$name" || return
        done
}

# So are the pages, by every name.
paged() {
    [ -n "$date" ] && filled docs/zuvaropy.5 "$man/man5/zuvaropy.5" &&
        filled docs/zuvaropy-verdict.1 "$man/man1/zuvaropy-verdict.1" &&
        for page in $(pages); do
            filled docs/zuvaropy.3 "$man/man3/$page.3" || return
        done
}

# Of what was filled in nothing is left to fill in.
whole_text() {
    ! grep '@[A-Z_]*@' "$root$lib/pkgconfig/zuvaropy.pc" "$root$doc/README.md" "$root$doc/examples/Makefile" \
        "$root$man"/man*/*
}

# asked OPTION..: what pkg-config says.
asked() {
    PKG_CONFIG_SYSROOT_DIR=$root PKG_CONFIG_LIBDIR=$root$lib/pkgconfig pkg-config "$@" zuvaropy
}

# says WANTED OPTION..
says() {
    wanted=$1
    shift
    said=$(asked "$@" | sed 's/ *$//')
    [ "$said" = "$wanted" ] || { echo "pkg-config $*: '$said', not '$wanted'"; return 1; }
}

# linked OPTION..: a program of one file, alone in its folder, with options that come before the library.
linked() {
    rm -rf "$room/alone" && mkdir "$room/alone" && cp examples/readout.c "$room/alone" &&
        (cd "$room/alone" && $cc -std=c99 -Wall -Wextra -Wpedantic -Werror $(asked --cflags) readout.c "$@" \
            $(asked --libs) -Wl,-Bdynamic -o readout)
}

# prints FOLDER: it prints what it should, with the shared libraries of that folder.
prints() {
    (cd "$room/alone" && LD_LIBRARY_PATH=$1 ./readout) >"$room/printed" && diff samples/readout.stdout "$room/printed"
}

linked_static() {
    linked -Wl,-Bstatic && prints ''
}

# A program that is linked needs no name of the library but the soname.
linked_shared() {
    linked && mkdir -p "$room/loaded" && cp "$root$lib/$soname" "$room/loaded" && prints "$room/loaded"
}

# The examples build in an empty folder as their Makefile says, and one prints there of the installed samples what it
# should.
examples() {
    rm -rf "$room/examples" && mkdir "$room/examples" &&
        (cd "$room/examples" && PKG_CONFIG_SYSROOT_DIR=$root PKG_CONFIG_LIBDIR=$root$lib/pkgconfig MAKEFLAGS='' \
            make -s CC="$cc" -f "$root$doc/examples/Makefile") &&
        (cd "$room/examples" && LD_LIBRARY_PATH=$root$lib sh "$root$doc/samples/validate.sh" validate) \
            >"$room/printed" && diff samples/validate.stdout "$room/printed"
}

# The verdict program is run on the samples by its name.
by_name() {
    (cd "$room" && PATH=$root$bin:$PATH sh "$root$doc/samples/verdict.sh" zuvaropy-verdict) >"$room/printed" &&
        diff samples/verdict.stdout "$room/printed"
}

# commands: those of the installed README, and an empty folder for them, but for a program to compile.
commands() {
    rm -rf "$room/empty" && mkdir "$room/empty" && cp examples/readout.c "$room/empty/program.c" &&
        sed -n 's/^    //p' "$root$doc/README.md" >"$room/commands" && [ -s "$room/commands" ]
}

# Each of its three ways to compile gives a program that runs; only of the first the library's folder has to be told.
readme_compiles() {
    commands && grep '^export ' "$room/commands" >"$room/exported" && grep '^cc ' "$room/commands" >"$room/compiled" &&
        [ "$(wc -l <"$room/compiled")" -eq 3 ] || return
    told=$lib
    while read -r command; do
        (cd "$room/empty" && . "$room/exported" && PATH=$room/tools:$PATH && eval "$command" &&
            LD_LIBRARY_PATH=$told ./program) >"$room/printed" && diff samples/readout.stdout "$room/printed" || return
        told=
    done <"$room/compiled"
}

# All of them can be typed as they stand, one after the other.
readme_runs() {
    commands && (cd "$room/empty" && PATH=$room/tools:$PATH MAKEFLAGS=s sh -e "$room/commands") >"$room/printed" &&
        cat samples/readout.stdout samples/lcs.stdout | diff - "$room/printed"
}

# So can what zuvaropy(3) says of a prefix, with the prefix in its place.
page_compiles() {
    commands && sed -n '/^\.SH EXAMPLES$/,/^\.EX$/p' "$root$man/man3/zuvaropy.3" | sed -n '/^export /,/^\.fi$/p' |
        sed -e '/^\.fi$/d' -e 's/\\-/-/g' -e 's/\\e$/\\/' -e "s|PREFIX|$prefix|" >"$room/commands" &&
        (cd "$room/empty" && PATH=$room/tools:$PATH sh -e "$room/commands" && ./a.out) >"$room/printed" &&
        diff samples/readout.stdout "$room/printed"
}

# Where there is nothing in front of the folders, the commands of the README and of the page find them.
documented() {
    check "install $*: README compiles" readme_compiles
    check "install $*: README runs" readme_runs
    check "install $*: page compiles" page_compiles
}

# The example of the verdict program's page: its lines after a dollar sign, run on the samples, print its other lines.
page_runs() {
    rm -rf "$room/folder" && cp -R "$root$doc/samples" "$room/folder" &&
        sed -n '/^\.EX$/,/^\.EE$/p' "$root$man/man1/zuvaropy-verdict.1" | sed '1d; $d; s/\\-/-/g' >"$room/shown" &&
        sed -n 's/^\$ //p' "$room/shown" >"$room/typed" && [ -s "$room/typed" ] &&
        (cd "$room/folder" && PATH=$root$bin:$PATH sh "$room/typed") >"$room/printed" &&
        grep -v '^\$ ' "$room/shown" | diff - "$room/printed"
}

# After it: the program ends by 0 also with an argument, which is ignored, and where nothing can be written.
ends_well() {
    (cd "$room/folder" && "$root$bin/zuvaropy-verdict" >/dev/full && "$root$bin/zuvaropy-verdict" --help) \
        >"$room/printed" && tail -n 1 "$room/shown" | diff - "$room/printed"
}

# And where nobody reads the pipe that it writes to: the other end is closed before. No signal ends it.
ends_unread() {
    rm -f "$room/closed"
    {
        until [ -e "$room/closed" ]; do :; done
        cd "$room/folder" && env --default-signal=PIPE "$root$bin/zuvaropy-verdict"
        echo $? >"$room/status"
    } | {
        exec <&-
        : >"$room/closed"
    }
    [ "$(cat "$room/status")" -eq 0 ]
}

# whole VARIABLE..: an installation with these variables, from beginning to end.
whole() {
    check "install $*" packaged install "$@"
    check "install $*: files" listed
    check "install $*: contents" copied
    check "install $*: pages" paged
    check "install $*: filled in" whole_text
    check "install $*: verdict" page_runs
    check "install $*: verdict ends" ends_well
    check "install $*: verdict ends, unread" ends_unread
    check "install $*: verdict by its name" by_name
    if command -v pkg-config >/dev/null; then
        check "install $*: version" says "$version" --modversion
        check "install $*: cflags" says "-I$root$include" --cflags
        check "install $*: libs" says "-L$root$lib -lzuvaropy" --libs
        check "install $*: static" linked_static
        check "install $*: shared" linked_shared
        check "install $*: examples" examples
        [ -n "$root" ] || documented "$@"
    else
        echo "install $*: not linked, no pkg-config"
    fi
    check "uninstall $*" packaged uninstall "$@"
    check "uninstall $*: files" [ -z "$(files)" ]
    check "uninstall $*: folder" [ ! -e "$root$doc" ]
}

# What is not built is not installed.
unbuilt() {
    ! packaged install DESTDIR="$room/unbuilt" "$1=$room/none" 2>"$room/said" &&
        grep -qx "$room/none is not there: run make first" "$room/said" && [ ! -e "$room/unbuilt" ]
}

# A file that somebody else put beside the examples stays, with its folder.
stranger() {
    folder=$room/stranger/usr/local/share/doc/zuvaropy/examples
    packaged install DESTDIR="$room/stranger" && echo mine >"$folder/mine" &&
        packaged uninstall DESTDIR="$room/stranger" && [ "$(ls "$folder")" = mine ]
}

# What make help says that make can do, it can.
helped() {
    packaged help | sed -n 's/^make \([a-z][a-z]*\) .*/\1/p' >"$room/goals" && grep -qx install "$room/goals" &&
        while read -r goal; do
            grep -q "^$goal:" Makefile || return
        done <"$room/goals"
}

# A first program stays as short as one that somebody would write.
short() {
    [ "$(wc -l <examples/readout.c)" -le 110 ]
}

# The README's program in another language loads the shared library by its soname.
readme_soname() {
    [ "$(sed -n 's/.*CDLL("\([^"]*\)").*/\1/p' README.md)" = "$soname" ]
}

root=$room/root bin=/usr/local/bin include=/usr/local/include lib=/usr/local/lib man=/usr/local/share/man
doc=/usr/local/share/doc/zuvaropy
whole DESTDIR="$root"
bin=/opt/tools include=/opt/headers lib=/opt/z/lib64 man=/opt/manual doc=/opt/papers
whole DESTDIR="$root" PREFIX=/opt/z BINDIR="$bin" INCLUDEDIR="$include" LIBDIR="$lib" MANDIR="$man" DOCDIR="$doc"
root='' prefix=$room/prefix
bin=$prefix/bin include=$prefix/include lib=$prefix/lib man=$prefix/share/man doc=$prefix/share/doc/zuvaropy
whole PREFIX="$prefix"

check 'install without the library' unbuilt LIBRARY
check 'install without the program' unbuilt PROGRAM
check 'uninstall beside others' stranger
check 'install proves nothing' [ ! -e "$room/proved" ]
check 'make help' helped
check 'soname in the README' readme_soname
check 'readout has at most 110 lines' short

summary install
