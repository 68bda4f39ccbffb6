#!/usr/bin/env bash
# The launch program, through the launcher: the listings of examples/launch with each node as the starting one, a slip in each kind of place, each reason, the
# largest texts and the longest output, texts that cannot be read, arguments that are none. What is expected is written by hand.
set -uo pipefail
cd "$(dirname "${BASH_SOURCE[0]}")/.."
root=$PWD
bad=0
room=$(mktemp -d)
trap 'rm -rf "$room"' EXIT

# The first use may prove and build the program. From then on a launch takes no time.
./icespruce launch examples/launch/listing1.book examples/launch/listing1.config 8 0 0 >/dev/null || { echo "the program is not there to be run"; exit 1; }
cd "$room"
: >empty

# Says that something does not hold: wrong WHAT
wrong() {
    echo "$1"
    bad=1
}

# What a launch prints, and its status; standard error is empty exactly where it says whether the launch is refused: prints NAME STATUS EXPECTED-FILE ARGUMENT..
prints() {
    local name=$1 status=$2 expected=$3
    shift 3
    timeout 120 "$root/icespruce" launch "$@" >out 2>said
    local got=$?
    [ "$got" -eq "$status" ] || wrong "$name: status $got, not $status"
    cmp out "$expected" || wrong "$name: it prints $(head -c 400 out)"
    [ "$status" -ge 2 ] || [ ! -s said ] || wrong "$name: standard error has: $(cat said)"
    [ "$status" -lt 2 ] || [ -s said ] || wrong "$name: it gives no reason"
}

# A launch that is refused, with the line behind the reason and the place: refuses REASON PLACE LINE ARGUMENT..
refuses() {
    printf 'error %s %s\n%s\n' "$1" "$2" "$3" >refusal
    prints "$3" 1 refusal "${@:4}"
}

# What cannot be launched at all, and words of the reason: fails WORDS ARGUMENT..
fails() {
    prints "$1" 2 empty "${@:2}"
    grep -q -e "$1" said || wrong "$1: standard error has: $(cat said)"
}

# ---- the listings of 000

# The atoms of a set of nodes: atoms_of SET BOOK
atoms_of() {
    awk -v set="$1" '{ if (set % 2) printf " \047%s\047", $0; set = int(set / 2) }' "$2"
}

# What a launch of a node prints, by the table of a listing and its book: listed TABLE BOOK N NODE
listed() {
    local word number atom set rest own='own none'
    echo 'ok 0'
    while read -r word number atom set; do
        [ "$word" != group ] || echo "group $number '$atom'$(atoms_of "$set" "$2")"
    done <"$1"
    read -r _ _ rest < <(grep "^own_s_groups $4 " "$1")
    set -- $rest
    [ $# -eq 0 ] || own=
    while [ $# -gt 0 ]; do
        own+="own $1 '$(awk -v number="$1" '$1 == "group" && $2 == number { print $3 }' "$table")'"$'\n'
        shift 2
    done
    printf '%s\n' "${own%$'\n'}"
}

seen=0
while read -r n hidden _ book file; do
    book=$root/examples/launch/$book
    table=$root/examples/launch/${file%.config}.table
    for node in $(seq 0 $((n - 1))); do
        seen=$((seen + 1))
        listed "$table" "$book" "$n" "$node" >expected
        prints "$file, node $node" 0 expected "$book" "$root/examples/launch/$file" "$n" "$hidden" "$node"
    done
done <"$root/examples/launch/list"
[ "$seen" -eq 29 ] || wrong "$seen launches of listings, not 29"
for text in listing1.book listing1.config; do
    cmp "$root/examples/launch/$text" "$root/crates/sgroup_launch/data/$text" || wrong "the program's own test has another $text"
done

# ---- slips: the place, and what a launch file has there

cp "$root/examples/launch/listing1.book" book

# A text in one line, or with the line and column of its slip: slip TEXT PLACE WORDS [LINE:COLUMN]
slip() {
    printf '%s' "$1" >x.config
    refuses 18 "$2" "x.config:${4:-1:$(($2 + 1))}: expected $3" book x.config 8 0 0
}

value='an atom or a number or [ or {'
reserved='more of the atom (it is a reserved word of Erlang, or an entry of this name stands there already)'
twice='more of the atom (an entry of this name stands there already)'
quoted='more of the atom, but no backslash, or its closing quote'
slip '' 0 '['
slip ' {' 1 '['
slip '% a comment' 0 '['
slip '[' 1 '{'
slip '[7' 1 '{'
slip '[]' 1 '{ (kernel is missing)'
slip '[{' 2 'an atom'
slip '[{Kernel' 2 'an atom'
slip '[{7' 2 'an atom'
slip '[{kernel' 8 'more of the atom or ,'
slip '[{kernel}' 8 'more of the atom or ,'
slip "[{'kernel'}" 10 ','
slip '[{kernel [' 9 ','
slip '[{kernel,{' 9 '['
slip '[{kernel,[7' 10 '{'
slip '[{kernel,[]' 10 '{ (s_groups is missing)'
slip '[{kernel,[{s_group,[]}]}].' 22 ', (s_groups is missing)'
slip '[{kernels,[{s_groups,[]}]}].' 26 ', (kernel is missing)'
slip '[{a,1} {kernel' 7 ','
slip '[{a,1},]' 7 '{ (kernel is missing)'
slip '[{kernel,[{s_groups,[]}]},]' 26 '{'
slip '[{kernel,[{s_groups,{' 20 '['
slip '[{kernel,[{s_groups,[]}}' 23 ', or ]'
slip '[{kernel,[{s_groups,[]}],' 24 '}'
slip '[{kernel,[{s_groups,[]}]}' 25 ', or ]'
slip '[{kernel,[{s_groups,[]}]}]' 26 'a full stop'
slip '[{kernel,[{s_groups,[]}]}],' 26 'a full stop'
slip '[{kernel,[{s_groups,[]}]}].x' 27 'white space or the end of the file'
slip '[{kernel,[{s_groups,[]}]}]. .' 28 'white space or the end of the file'
# an own entry once more
slip '[{kernel,[{s_groups,[]}]},{kernel,' 33 "$reserved"
slip "[{kernel,[{s_groups,[]}]},{'kernel'," 34 "$twice"
slip '[{kernel,[{s_groups,[]},{s_groups,' 33 "$reserved"
slip "[{kernel,[{s_groups,[]},{'s_groups'," 34 "$twice"
# groups
slip '[{kernel,[{s_groups,[x' 21 '{ or ]'
slip '[{kernel,[{s_groups,[{' 22 'an atom'
slip '[{kernel,[{s_groups,[{g ' 24 ','
slip '[{kernel,[{s_groups,[{g,' 24 'normal'
slip '[{kernel,[{s_groups,[{g,hidden' 24 'normal'
slip '[{kernel,[{s_groups,[{g,nomal' 26 'the r of normal'
slip "[{kernel,[{s_groups,[{g,'n" 26 'the o of normal'
slip "[{kernel,[{s_groups,[{g,'normal," 31 "the ' of normal"
slip '[{kernel,[{s_groups,[{g,normals' 30 ','
slip '[{kernel,[{s_groups,[{g,normal,{' 31 '['
slip '[{kernel,[{s_groups,[{g,normal,[]' 32 'an atom'
slip '[{kernel,[{s_groups,[{g,normal,[A' 32 'an atom'
slip '[{kernel,[{s_groups,[{g,normal,[a' 33 'more of the atom or , or ]'
slip '[{kernel,[{s_groups,[{g,normal,[a b' 34 ', or ]'
slip '[{kernel,[{s_groups,[{g,normal,[a,]' 34 'an atom'
slip '[{kernel,[{s_groups,[{g,normal,[a]]' 34 '}'
slip '[{kernel,[{s_groups,[{g,normal,[a]} {' 36 ', or ]'
slip '[{kernel,[{s_groups,[{g,normal,[a]},]' 36 '{'
# values that are skipped
slip '[{a,X' 4 "$value"
slip '[{a,-1' 4 "$value"
slip '[{a,"text"' 4 "$value"
slip '[{a,1.5' 5 'another digit or }'
slip '[{a,1 ,' 6 '}'
slip '[{a,[' 5 "$value or ]"
slip '[{a,{' 5 "$value or }"
slip '[{a,[1' 6 'another digit or , or ]'
slip '[{a,[1 }' 7 ', or ]'
slip '[{a,[1,]' 7 "$value"
slip '[{a,{b]' 6 'more of the atom or , or }'
slip '[{a,end}' 7 "$reserved"
slip "[{a,'b" 6 "$quoted"
slip "[{a,'b\\'" 6 "$quoted"
slip '[{a,[[[[[[[[[[[[[[[[[' 20 'an atom or a number or ]'
slip '[{a,{{{{{{{{{{{{{{{{[' 20 'an atom or a number or }'
# further lines, and columns in bytes
slip $'[{kernel,\n [{s_groups,\n  {' 25 '[' 3:3
slip $'[\n\n' 3 '{' 3:1
slip $'[{\'\xc3\xa9\',;' 7 "$value" 1:8
printf '[{kernel,[{s_groups,[]}]}].%s' $'\n\t\r \x01\n' >x.config
printf 'ok 0\nown none\n' >expected
prints "white space behind the full stop" 0 expected book x.config 8 0 0

# ---- reasons

printf '[{kernel,[{s_groups,[]}]}].' >none.config
for n in 0 65 4294967295; do
    refuses 2 0 'N is not 1 to 64' book none.config "$n" 0 0
done
hidden='HIDDEN has a node that is not among the first'
refuses 7 0 "$hidden 8 nodes, which are numbered from 0" book none.config 8 256 0
refuses 7 0 "$hidden 1 nodes, which are numbered from 0" book none.config 1 18446744073709551615 1
refuses 7 0 'START is not among the first 8 nodes, which are numbered from 0' book none.config 8 255 8
refuses 7 0 'START is not among the first 8 nodes, which are numbered from 0' empty empty 8 0 4294967295

# A book that is none: unfit TEXT LINE-AND-WORDS [N]
unfit() {
    printf '%s' "$1" >x.book
    refuses 18 0 "x.book:$2" x.book none.config "${3:-2}" 0 0
    # and where the file is refused at the same place, or at another
    refuses 18 0 "x.book:$2" x.book empty "${3:-2}" 0 0
    refuses 18 0 "x.book:$2" x.book book "${3:-2}" 0 0
}
long=$(printf '%064d' 0)
unfit $'a\n\nb\n' '2: the line is empty'
unfit $'\n' '1: the line is empty'
unfit "$long"$'\n'"${long}0"$'\n' '2: the line has more than 64 bytes'
unfit $'a\nb' '2: the line has no newline at its end'
unfit $'a\nb\nc\nb\na\n' '4: the atom of line 2 stands here again'
unfit $'a\n' ' it has fewer lines than there are nodes'
unfit '' ' it has fewer lines than there are nodes' 1
seq 1 65537 >x.book
refuses 18 0 'x.book: more than 65535 lines stand behind those of the nodes' x.book none.config 1 0 0

# Groups of the nodes a, b and c in a file that is none of the book's fault: groups GROUP..
groups() {
    local IFS=,
    printf '[{kernel,[{s_groups,[%s]}]}].' "$*" >x.config
}
printf '%s\n' a b c g h g2 >x.book
groups '{g,normal,[a,b]}' '{h,normal,[c]}' '{g,normal,[a,c]}'
refuses 19 0 "x.config:1:23: 'g' names groups with different nodes, and the starting node is in this one" x.book x.config 3 0 0
refuses 19 0 "x.config:1:55: 'g' names groups with different nodes, and the starting node is in this one" x.book x.config 3 0 2
groups '{g,normal,[a,b]}' '{h,normal,[c]}' '{g,normal,[a,b,b]}' "{'g2',normal,[a]}" '{g2,normal,[b]}'
printf "ok 0\ngroup 1 'g' 'a' 'b'\ngroup 2 'h' 'c'\nown 2 'h'\n" >expected
prints "groups of one name" 0 expected x.book x.config 3 0 2
groups '{g,normal,[a]}' "{h,normal,[b,'no node',x]}"
refuses 20 0 "x.config:1:51: 'no node' is no node: it is not among the first 3 lines of the book" x.book x.config 3 0 0
groups '{a,normal,[a]}'
refuses 20 0 "x.config:1:23: 'a' is no s_group: it does not stand behind the first 3 lines of the book" x.book x.config 3 0 0
groups '{g,normal,[g]}'
refuses 20 0 "x.config:1:33: 'g' is no node: it is not among the first 3 lines of the book" x.book x.config 3 0 0
groups '{g,normal,[c]}'
refuses 20 0 "x.config:1:33: 'c' is no node: it is not among the first 2 lines of the book" x.book x.config 2 0 0
groups "{'${long}0',normal,[a]}"
refuses 20 0 "x.config:1:24: '$long..' is no s_group: it does not stand behind the first 3 lines of the book" x.book x.config 3 0 0
groups $'{\'a\n\t\x1b[1m\',normal,[a]}'
refuses 20 0 "x.config:1:24: 'a???[1m' is no s_group: it does not stand behind the first 3 lines of the book" x.book x.config 3 0 0
groups "{'',normal,[a]}"
refuses 20 0 "x.config:1:24: '' is no s_group: it does not stand behind the first 3 lines of the book" x.book x.config 3 0 0
# an atom that is not in the book does no harm in a group that is not made
groups '{x,normal,[a]}' '{x,normal,[b]}' '{g,normal,[c]}'
printf "ok 0\ngroup 1 'g' 'c'\nown 1 'g'\n" >expected
prints "no group of unknown atoms is made" 0 expected x.book x.config 3 7 2

{
    echo a
    seq -f 'g%g' 1 33
} >x.book
groups $(seq -f '{g%g,normal,[a]}' 1 33)
refuses 16 0 'x.config: more than 32 s_groups are to be made' x.book x.config 1 0 0

# ---- the largest

# 64 nodes and 32 s_groups of all of them, each atom of 64 bytes and each number of five digits.
node_atoms() { seq -f '%064g' 1 64; }
{
    node_atoms
    seq 10000 19999
    seq -f '%064g' 101 132
} >x.book
nodes=$(node_atoms | sed "s/.*/'&'/" | paste -sd,)
groups $(seq -f "{'%064g',normal,[$nodes]}" 101 132)
{
    echo 'ok 0'
    for k in $(seq 1 32); do printf "group %d '%064d' %s\n" $((10000 + k)) $((100 + k)) "${nodes//,/ }"; done
    for k in $(seq 1 32); do printf "own %d '%064d'\n" $((10000 + k)) $((100 + k)); done
} >expected
prints "the longest output" 0 expected x.book x.config 64 0 63
"$root/icespruce" launch x.book x.config 64 0 63 2>said | head -c 1 >out
[ "${PIPESTATUS[0]}" -eq 141 ] && [ ! -s said ] || wrong "a reader that goes away: the status is not 141, or something is said"

# Files of 1,048,576 bytes, and of one more.
{
    printf '[{kernel,[{s_groups,[]}]}]'
    printf '%1048549s.' ''
} >x.config
printf 'ok 0\nown none\n' >expected
prints "the longest file" 0 expected book x.config 8 0 0
printf '%1048576s' '' >x.config
refuses 18 1048576 'x.config:1:1048577: expected [' book x.config 8 0 0
printf ' ' >>x.config
fails 'x.config: it has more than 1048576 bytes' book x.config 8 0 0
head -c 2000000 /dev/zero >x.config
fails 'x.config: it has more than 1048576 bytes' book x.config 8 0 0
# Books of 4,263,935 bytes, and of one more.
head -c 4263935 /dev/zero >x.book
refuses 18 0 'x.book:1: the line has no newline at its end' x.book none.config 8 0 0
printf 0 >>x.book
fails 'x.book: it has more than 4263935 bytes' x.book none.config 8 0 0

# ---- what cannot be launched

fails 'no such file' missing none.config 8 0 0
fails 'missing: there is no such file' book missing 8 0 0
fails 'is a folder and no book' . none.config 8 0 0
fails 'is a folder and no launch file' book . 8 0 0
fails 'name is empty' '' none.config 8 0 0
fails 'name is empty' book '' 8 0 0
fails 'sgroup_launch: /proc/self/mem: Input/output error' /proc/self/mem none.config 8 0 0
fails 'five arguments' book none.config 8 0
fails 'five arguments' book none.config 8 0 0 0
fails 'five arguments'
for number in '' x -1 +8 08 ' 8' 8.0 0x8 4294967296 18446744073709551616 100000000000000000000000; do
    fails 'N is a decimal number of at most 32 bits' book none.config "$number" 0 0
    fails 'START is a decimal number of at most 32 bits' book none.config 8 0 "$number"
    [ "$number" = 4294967296 ] || fails 'HIDDEN is a decimal number of at most 64 bits' book none.config 8 "$number" 0
done
"$root/icespruce" launch book none.config 8 0 0 >/dev/full 2>said
[ $? -eq 2 ] && grep -q 'cannot be written' said || wrong "a full disk: the status is not 2, or the reason is not given"

(ulimit -S -s 4096 && "$root/icespruce" launch book none.config 8 0 0) >out 2>said
[ $? -eq 0 ] && [ ! -s said ] || wrong "a small stack that can grow: the status is not 0, or something is said"
(ulimit -s 4096 && "$root/icespruce" launch book none.config 8 0 0) >out 2>said
[ $? -eq 2 ] && grep -q 'stack of 6144 KiB' said || wrong "a small stack: the status is not 2, or the reason is not given"

# ---- the page

# What a launch in the repository prints stands in docs/LAUNCH.md: shown ARGUMENT..
shown() {
    local line
    while IFS= read -r line; do
        grep -qxF "    $line" docs/LAUNCH.md || wrong "docs/LAUNCH.md does not have: $line"
    done < <(./icespruce launch "$@")
    grep -qF "    ./icespruce launch $*" docs/LAUNCH.md || wrong "docs/LAUNCH.md does not launch $*"
}
cd "$root"
shown examples/launch/listing1.book examples/launch/listing1.config 8 0 0
shown examples/launch/listing1.book examples/launch/slip.config 8 0 0
exit $bad
