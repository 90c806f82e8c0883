#!/bin/sh
# Runs the verdict program on sample pictures: sh samples/verdict.sh PROGRAM.
. "$(dirname "$0")/here.sh"
program=$(program "$1")
cd "$(dirname "$0")"
folder=$(mktemp -d)
trap 'rm -rf "$folder"' EXIT

verdict() {
    cp "$1" "$folder/first.pic"
    cp "$2" "$folder/second.pic"
    printf '%s %s: ' "$@"
    (cd "$folder" && "$program")
}

verdict both.pic each.pic
verdict each.pic both.pic
verdict cut.pic top.pic
verdict top.pic spread.pic
