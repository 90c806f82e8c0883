#!/bin/sh
# Writes the sample pictures, evidence, books and definitions books: sh samples/make.sh [FOLDER], by default beside this
# script.
set -eu
folder=${1:-$(dirname "$0")}
mkdir -p "$folder"

# bytes NUMBER..: a byte for each number.
bytes() {
    for number; do
        printf "\\$(printf '%03o' "$number")"
    done
}

# row PARENT KIND ROLE IMPOSSIBLE WANTED EXCLUDED: names are added up by weight; 15 is the highest.
row() {
    bytes 16 0 21
    bytes 0 "$1" "$2" "$3" "$4"
    bytes 0 0 0 0 0 0 $(($5 / 256)) $(($5 % 256))
    bytes 0 0 0 0 0 0 $(($6 / 256)) $(($6 % 256))
}

end() {
    bytes 47 0 0
}

# map IMAGE..: the image of each row of the second normal table.
map() {
    bytes 65 0 $((2 * $#))
    for image; do
        bytes 0 "$image"
    done
}

# individual PARENT ROLE NAMES: the names that hold, added up by weight.
individual() {
    bytes 66 0 11
    bytes 0 "$1" "$2"
    bytes 0 0 0 0 0 0 0 "$3"
}

# length ROWS..: the bytes of a picture of the rows that the command writes.
length() {
    { "$@"; end; } | wc -c
}

# card ROWS..: a card, which is a picture of the rows that the command writes.
card() {
    length=$(length "$@")
    bytes 81 $((length / 256)) $((length % 256))
    "$@"
    end
}

# definition NAME ROWS..: a definition, which is the number of a name and a picture.
definition() {
    name=$1
    shift
    length=$(($(length "$@") + 1))
    bytes 97 $((length / 256)) $((length % 256)) "$name"
    "$@"
    end
}

root=0 some=1 all=2              # kinds
child=0 pet=1                    # roles
woman=1 doctor=2 smoker=4 dog=8  # names 0 to 3, by weight

# A woman without pets, whose children are doctors who do not smoke, and with a daughter who has a dog.
family() {
    row 0 $root 0 0 $woman 0
    row 0 $all $child 0 $doctor $smoker
    row 0 $some $child 0 $woman 0
    row 2 $some $pet 0 $dog 0
    row 0 $all $pet 1 0 0
}

# A woman who is a doctor and has only dogs as pets, whose children do not smoke, and with a child who has a dog.
friend() {
    row 0 $root 0 0 $((woman + doctor)) 0
    row 0 $all $child 0 0 $smoker
    row 0 $some $child 0 0 0
    row 2 $some $pet 0 $dog 0
    row 0 $all $pet 0 $dog 0
}

# Anything, a woman, a doctor, a woman whose children do not smoke, and somebody with a child who has a dog.
top() {
    row 0 $root 0 0 0 0
}
woman() {
    row 0 $root 0 0 $woman 0
}
doctor() {
    row 0 $root 0 0 $doctor 0
}
healthy() {
    woman
    row 0 $all $child 0 0 $smoker
}
walker() {
    top
    row 0 $some $child 0 0 0
    row 1 $some $pet 0 $dog 0
}

# A woman whose children are doctors who do not smoke, in one row for her children and in two.
doctors() {
    woman
    row 0 $all $child 0 $doctor $smoker
}
doctors_again() {
    woman
    row 0 $all $child 0 0 $smoker
    row 0 $all $child 0 $doctor 0
}

# A doctor, two children and their dogs, but row 3 comes before its parent, which is row 4.
early() {
    doctor
    row 0 $some $child 0 0 0
    row 1 $some $pet 0 $dog 0
    row 4 $some $pet 0 $dog 0
    row 0 $some $child 0 $woman 0
}

# chain EDGES: so many edges, each to a doctor.
chain() {
    chain_to "$1" $doctor
}
# chain_to EDGES NAMES: the last row has these names.
chain_to() {
    top
    parent=0
    while [ "$parent" -lt $(($1 - 1)) ]; do
        row "$parent" $some $child 0 $doctor 0
        parent=$((parent + 1))
    done
    row "$parent" $some $child 0 "$2" 0
}

# 15 children, and all children have 15 pets: merged, these stand below each child.
spread() {
    row 0 $root 0 0 0 0
    row 0 $all $child 0 0 0
    for names in 1 2 3 4 5 6 7 8 9 10 11 12 13 14 15; do
        row 1 $some $pet 0 "$names" 0
        row 0 $some $child 0 "$names" 0
    done
}

# A child who is a doctor, and no children.
none() {
    row 0 $root 0 0 $woman 0
    row 0 $all $child 1 0 0
    row 0 $some $child 0 $doctor 0
}

r=8              # a role
three=8 five=32  # names 3 and 5, by weight

# A successor by r with both names, and a successor with each.
both() {
    row 0 $root 0 0 0 0
    row 0 $some $r 0 $((three + five)) 0
}
each() {
    row 0 $root 0 0 0 0
    row 0 $some $r 0 $three 0
    row 0 $some $r 0 $five 0
}

# An individual that reaches one with each name, but none with both.
apart() {
    individual 0 0 0
    individual 0 $r $three
    individual 0 $r $five
}

# Vehicles. A belt side fault is defined: a belt fault, and some firing loop that is open. One card is of a belt side
# fault with a corroded connector, the other of one with a clip that is not seated. The vehicle has the former, spelled
# out.
loop=1 clip=2 connector=3                                            # roles
belt_fault=1 firing=2 open=4 corroded=8 seated=16 belt_side_fault=32  # names 0 to 5, by weight
side_fault() {
    row 0 $root 0 0 $belt_fault 0
    row 0 $some $loop 0 $((firing + open)) 0
}
bad_connector() {
    row 0 $root 0 0 $belt_side_fault 0
    row 0 $some $connector 0 $corroded 0
}
loose_clip() {
    row 0 $root 0 0 $belt_side_fault 0
    row 0 $some $clip 0 0 $seated
}
vehicle() {
    row 0 $root 0 0 $belt_fault 0
    row 0 $some $connector 0 $corroded 0
    row 0 $some $loop 0 $((firing + open)) 0
}

# three NAMES: three parts with these names.
three() {
    top
    row 0 $some $loop 0 "$1" 0
    row 0 $some $clip 0 "$1" 0
    row 0 $some $connector 0 "$1" 0
}

# Each part has three parts, down to the fifth: unfolded 364 rows. Names 8 to 12.
threefold() {
    definition 8 three 512
    definition 9 three 1024
    definition 10 three 2048
    definition 11 three 4096
    definition 12 three 0
}

{ family; end; } >"$folder/family.pic"
{ friend; end; } >"$folder/friend.pic"
{ top; end; } >"$folder/top.pic"                     # what everything is an instance of
{ none; end; } >"$folder/none.pic"                   # what nothing is an instance of
{ family; bytes 16 0 21 0 1 2; } >"$folder/cut.pic"  # a sixth row, cut off
{ chain 13; end; } >"$folder/deep.pic"               # one edge more than allowed
{ spread; end; } >"$folder/spread.pic"               # one merged row more than allowed
{ both; end; } >"$folder/both.pic"
{ each; end; } >"$folder/each.pic"
{ vehicle; end; } >"$folder/side.pic"

{ map 0; end; } >"$folder/top.map"            # top subsumes everything
{ map 0 1 1; end; } >"$folder/both-each.map"  # each subsumes both: both names are at one row
{ apart; end; } >"$folder/each-both.ref"      # both does not subsume each

# cards PICTURE: five cards, of which it is the last.
cards() {
    card top
    card woman
    card healthy
    card walker
    card "$1"
}

{ cards doctor; end; } >"$folder/cards.book"
{ card woman; card woman; end; } >"$folder/twins.book"              # they subsume each other, and both are found
{ card top; card chain 13; card woman; end; } >"$folder/deep.book"  # card 1 has one edge more than allowed
{ cards early; end; } >"$folder/early.book"                         # row 3 of card 4 comes before its parent
cards doctor >"$folder/open.book"                                   # without its end field

# Cards 0 and 2 subsume each other too; cards 1 and 3 say less.
{ card doctors; card healthy; card doctors_again; card top; end; } >"$folder/reworded.book"
{ card bad_connector; card loose_clip; end; } >"$folder/side.book"

# side: the definition of a belt side fault, definition 0 of these books.
side() {
    definition 5 side_fault
}

{ side; end; } >"$folder/side.defs"
side >"$folder/open.defs"                                            # without its end field
{ side; definition 6 early; end; } >"$folder/early.defs"             # row 3 of definition 1 comes before its parent
{ side; definition 5 loose_clip; end; } >"$folder/twice.defs"        # name 5 twice
{ side; definition 4 top; end; } >"$folder/seated.defs"              # card 1 of side.book excludes name 4
{ side; definition 0 loose_clip; end; } >"$folder/ring.defs"         # name 5 wants 0, which wants 5
{ threefold; end; } >"$folder/threefold.defs"                        # more rows than allowed
{ definition 8 chain_to 7 512; definition 9 chain 6; end; } >"$folder/deep.defs"  # one edge more than allowed
