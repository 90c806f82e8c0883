# Compares the library's instructions with those that are kept:
#
#   awk -f bench/compare.awk KEPT COUNTED
#
# Both files have a line for each input: its name (call, sort, input) and the instructions of the library, of the plain
# C and of the Rust, '-' where there is none. Lines with # are comments; those of KEPT are printed. Exits 1 if the
# library takes more than LIMIT % more than is kept somewhere, and 2 if nothing was counted or a line has another form.

function show(name, library, plain, rust, before, change, remark) {
    printf "%-50s %12s %12s %12s %12s %9s%s\n", name, library, plain, rust, before, change, remark ? "  " remark : ""
}

# The line of a name, with what is kept of it.
function compare(name, library, plain, rust) {
    if (!(name in kept)) {
        show(name, library, plain, rust, "-", "-", "new")
        return
    }
    more = 100 * (library - kept[name])
    change = more == 0 ? "same" : sprintf("%+.2f %%", more / kept[name])
    much = more > LIMIT * kept[name]
    show(name, library, plain, rust, kept[name], change, much ? TOO_MUCH : "")
    if (much) {
        gsub(/ +/, " ", name)
        list = list (grown++ ? "; " : ": ") name
    }
}

BEGIN {
    LIMIT = 2
    TOO_MUCH = "more than " LIMIT " % more"
}

/^#/ {
    if (FILENAME == ARGV[1])
        print "kept: " substr($0, 3)
    next
}

NF < 6 || $(NF - 2) !~ /^[1-9][0-9]*$/ {
    print FILENAME ":" FNR ": not a line of counts" >"/dev/stderr"
    failed = 1
    exit
}

{
    name = $0
    sub(/ +[^ ]+ +[^ ]+ +[^ ]+$/, "", name)
}

FILENAME == ARGV[1] {
    kept[name] = $(NF - 2)
    names[++many] = name
    next
}

{
    if (!counted++)
        show("call          sort    input", "library", "C", "Rust", "kept", "change")
    still[name] = 1
    compare(name, $(NF - 2), $(NF - 1), $NF)
}

END {
    if (failed || !counted)
        exit 2
    for (i = 1; i <= many; i++)
        if (!(names[i] in still))
            show(names[i], "-", "-", "-", kept[names[i]], "-", "gone")
    printf "%d of %d %s %s%s\n", grown, counted, grown == 1 ? "takes" : "take", TOO_MUCH, list
    exit (grown > 0)
}
