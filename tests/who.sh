#!/usr/bin/env bash
# The program that tells who goes by a process, through the launcher: the order of its lines, the most lines, each refusal, scripts that are none, the longest
# script, input that comes in pieces or cannot be read, arguments that are none. What is expected is written by hand.
set -uo pipefail
cd "$(dirname "${BASH_SOURCE[0]}")/.."
root=$PWD
bad=0
room=$(mktemp -d)
trap 'rm -rf "$room"' EXIT

# The first use may prove and build the program. From then on a question takes no time.
./icespruce who 67108865 examples/who.script >/dev/null || { echo "the program is not there to be run"; exit 1; }
cd "$room"
: >empty
run() { timeout 60 "$root/icespruce" "$@"; }

# Says that something does not hold: wrong WHAT
wrong() {
    echo "$1"
    bad=1
}

# What a command prints, and its status; standard error is empty exactly where something is printed: prints NAME STATUS EXPECTED-FILE COMMAND..
prints() {
    local name=$1 status=$2 expected=$3
    shift 3
    "$@" >out 2>said
    local got=$?
    [ "$got" -eq "$status" ] || wrong "$name: status $got, not $status"
    cmp out "$expected" || wrong "$name: it prints $(head -c 400 out)"
    if [ -s "$expected" ]; then
        [ ! -s said ] || wrong "$name: standard error has: $(cat said)"
    else
        [ -s said ] || wrong "$name: it gives no reason"
    fi
}

# The names of a process after the script, a line each: goes PID LINE..
goes() {
    printf '%s\n' "${@:2}" >expected
    prints "the process $1" 0 expected run who "$1" script
}

# A question that is refused, with the sentence behind the reason: refuses REASON SENTENCE PID
refuses() {
    printf 'error %s\n%s\n' "$1" "$2" >expected
    prints "$2" 1 expected run who "$3" script
}

# What gets no answer, its status and words of the reason: fails STATUS WORDS COMMAND..
fails() {
    prints "$2" "$1" empty "${@:3}"
    grep -q -e "$2" said || wrong "$2: standard error has: $(cat said)"
}

# ---- names

# Ascending by s_group, in whatever order they came; neighbours by pid and by s_group stay apart; dropped and refused names are not told.
cat >script <<'TEXT'
open 64 0
63 new_s_group 65535 9223372036854775809
63 new_s_group 9 9223372036854775809
63 new_s_group 10 9223372036854775809
0 register_name 65535 4294967295 4294967295
0 register_name 10 1 4294967295
0 register_name 9 5 4294967295
0 register_name 9 6 4294967294
0 register_name 9 7 0
0 register_name 10 2 4294967295
0 register_name 10 3 1
0 unregister_name 10 3
TEXT
goes 4294967295 's_group 9 name 5' 's_group 10 name 1' 's_group 65535 name 4294967295'
goes 4294967294 's_group 9 name 6'
goes 0 's_group 9 name 7'
goes 1 'no name'
goes 4227858432 'no name'

# All 32 s_groups, each with 32 names, and the widest numbers.
{
    echo 'open 1 0'
    for s in $(seq 65535 -1 65504); do echo "0 new_s_group $s 1"; done
    for k in $(seq 0 31); do for s in $(seq 65504 65535); do echo "0 register_name $s $((4294967295 - k)) $((67108863 - k))"; done; done
} >script
mapfile -t lines < <(seq -f 's_group %g name 4294967264' 65504 65535)
goes 67108832 "${lines[@]}"
goes 67108831 'no name'

# ---- refusals

printf 'open 4 0\n' >script
refuses 7 "the pid's host, node 4, is not on the roster" 268435456
refuses 7 "the pid's host, node 63, is not on the roster" 4294967295
goes 268435455 'no name'
: >script
refuses 3 'the script opens no table' 0
refuses 3 'the script opens no table' 4294967295
printf 'open 65 0\n0 own_nodes\nopen 4 16\n' >script
refuses 3 'the script opens no table' 67108865

# ---- scripts that are none

# A script of these lines, and the number of the first that is bad: bad_line NUMBER TEXT
bad_line() {
    printf '%b' "$2" >script
    fails 1 "^sgroup_who: line $1 of the script is no command" run who 1 script
}
bad_line 1 'hello\n'
bad_line 1 '\n'
bad_line 1 'open 2 0'
bad_line 2 'open 2 0\n\n0 own_nodes\nhello\n'
bad_line 3 'open 2 0\n0 own_nodes\n0 register_name 1 01 5\n0 own_nodes\n'
bad_line 4 'open 2 0\n0 own_nodes\n0 own_nodes\n0 own_nodes'
bad_line 2 'open 2 0\n0 own_nodes\r\n'
grep -q 'hint: the script .*carriage return' said || wrong "carriage returns: there is no hint"

# 65,536 bytes, and one line more.
{
    for _ in $(seq 10); do echo 'open 10 0'; done
    yes '0 own_nodes' | head -n 5453
} >script
[ "$(wc -c <script)" -eq 65536 ] || wrong "the longest script has not 65536 bytes"
goes 1 'no name'
echo >>script
fails 1 'the script is too long: it has more than 65536 bytes' run who 1 script
yes hello | head -c 100000 >script
fails 1 'the script is too long: it has more than 65536 bytes' run who 1 script
{
    yes '0 own_nodes' | head -n 5461
    printf 'bad\n'
} >script
[ "$(wc -c <script)" -eq 65536 ] || wrong "the longest bad script has not 65536 bytes"
fails 1 'line 5462 of the script is no command' run who 1 script

# ---- input and output

cp "$root/examples/who.script" script
cp "$root/examples/who/67108865.printed" expected
by_sign() { run who 67108865 - <script; }
prints "standard input by its sign" 0 expected by_sign
by_default() { run who 67108865 <script; }
prints "standard input" 0 expected by_default
in_pieces() {
    {
        head -c 40 script
        sleep 0.2
        tail -c +41 script
    } | run who 67108865
}
prints "a script in pieces" 0 expected in_pieces
cmp script "$root/crates/sgroup_who/stdin" || wrong "the program's own test has another script"
folder_input() { run who 1 - <.; }
fails 1 'cannot be read' folder_input
full_output() { run who 67108865 script >/dev/full; }
fails 1 'cannot be written' full_output
no_output() { run who 67108865 script >&-; }
fails 1 'standard output is closed' no_output
no_input() { run who 67108865 <&-; }
fails 2 'standard input is closed' no_input

# ---- arguments

for pid in '' x -1 +1 01 00 ' 1' '1 ' 1.0 0x1 4294967296 9999999999 18446744073709551616 100000000000000000000000; do
    fails 2 'is no pid, which is a decimal number from 0 to 4294967295' run who "$pid" script
done
fails 2 'a pid is missing' run who
fails 2 'one script at a time' run who 1 script script
fails 2 'there is no such file' run who 1 missing
fails 2 'is a folder and no script' run who 1 .
fails 2 'name is empty' run who 1 ''
run --help | grep -q 'icespruce who PID FILE' || wrong "the help does not name the question"
# the program by itself, without the launcher
for arguments in '' '1 2' x 4294967296; do
    [ "$(uname -m)" = x86_64 ] || break
    fails 0 'usage: sgroup_who PID' "$root/crates/sgroup_who/out/sgroup_who" $arguments
done

# ---- the page

# What a question prints stands in docs/WHO.md: shown ARGUMENT..
shown() {
    local line
    while IFS= read -r line; do
        grep -qxF "    $line" docs/WHO.md || wrong "docs/WHO.md does not have: $line"
    done < <(./icespruce who "$@")
    grep -qF "    ./icespruce who $*" docs/WHO.md || wrong "docs/WHO.md does not ask who $*"
}
cd "$root"
shown 67108865 examples/who.script
shown 134217729 examples/who.script
exit $bad
