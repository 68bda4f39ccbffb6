#!/usr/bin/env bash
# The program at the edges of its input and output, through the launcher: no bytes, the longest script and one byte more, input that comes in
# pieces, input that cannot be read, output that cannot be written; and the launcher's own words: its refusals, its help, its version, its hints.
set -uo pipefail
cd "$(dirname "${BASH_SOURCE[0]}")/.."
bad=0
room=$(mktemp -d)
trap 'rm -rf "$room"' EXIT

# The first use may prove and build the program. From then on a run takes no time.
./icespruce /dev/null || { echo "the program is not there to be run"; exit 1; }
run() { timeout 60 ./icespruce "$@"; }

# What a run prints and its status: prints NAME STATUS EXPECTED-FILE COMMAND.. (standard input goes on to the command)
prints() {
    local name=$1 status=$2 expected=$3
    shift 3
    "$@" >"$room/out" 2>"$room/said"
    local got=$?
    if [ "$got" -ne "$status" ]; then
        echo "$name: status $got, not $status"
        bad=1
    fi
    if ! cmp "$room/out" "$expected"; then
        echo "$name: it prints something else"
        bad=1
    fi
    # a reason is given exactly where the status is not 0
    if [ "$status" -eq 0 ] && [ -s "$room/said" ] || [ "$status" -ne 0 ] && [ ! -s "$room/said" ]; then
        echo "$name: standard error has: $(cat "$room/said")"
        bad=1
    fi
}

# COUNT times a line: repeat COUNT TEXT
repeat() {
    yes "$2" | head -n "$1"
}

: >"$room/empty"
prints "an empty script" 0 "$room/empty" run "$room/empty"

repeat 65536 '' >"$room/longest"
repeat 65536 bad-line >"$room/expected"
prints "65,536 empty lines" 0 "$room/expected" run "$room/longest"

repeat 65537 '' >"$room/longer"
echo too-long >"$room/expected"
prints "65,537 bytes" 0 "$room/expected" run "$room/longer"
repeat 100000 '0 own_nodes' >"$room/longer"
prints "far too many bytes" 0 "$room/expected" run "$room/longer"

repeat 65536 a | tr -d '\n' >"$room/line"
echo bad-line >"$room/expected"
prints "65,536 bytes without a newline" 0 "$room/expected" run "$room/line"

# Lists that fill the output many times over: 32 s_groups of one node, then their list of 64 words, 600 times.
{
    echo 'open 1 0'
    for k in $(seq 65504 65535); do echo "0 new_s_group $k 1"; done
    repeat 600 '0 own_s_groups'
} >"$room/lists"
{
    echo 'ok 0'
    for k in $(seq 65504 65535); do echo "group $k 1 0"; done
    repeat 600 "list 64 $(for k in $(seq 65504 65535); do printf '%s 1 ' "$k"; done)0"
} >"$room/expected"
prints "long output" 0 "$room/expected" run "$room/lists"
run "$room/lists" 2>"$room/said" | head -c 1 >"$room/out"
[ "${PIPESTATUS[0]}" -eq 141 ] && [ ! -s "$room/said" ] || { echo "a reader that goes away: the status is not 141, or something is said"; bad=1; }

# One line at a time, the first cut in its middle.
in_pieces() {
    {
        printf 'open '
        sleep 0.2
        printf '2 0\n'
        sleep 0.2
        printf '0 own_nodes\n'
    } | run
}
printf 'ok 0\nnodes 1 1 0\n' >"$room/expected"
prints "a script in pieces" 0 "$room/expected" in_pieces

folder_input() { run <.; }
prints "a folder as standard input" 1 "$room/empty" folder_input
full_output() { run examples/stores.script >/dev/full; }
prints "a full disk" 1 "$room/empty" full_output

no_output() { run examples/stores.script >&-; }
prints "closed standard output" 1 "$room/empty" no_output
no_input() { run <&-; }
prints "closed standard input" 2 "$room/empty" no_input
prints "an empty name" 2 "$room/empty" run ''
prints "no such file" 2 "$room/empty" run "$room/none"
prints "a folder" 2 "$room/empty" run "$room"
prints "two scripts" 2 "$room/empty" run "$room/empty" "$room/empty"

# A shell that is no bash gets one line that says what to do.
if ! sh -c '[ -n "${BASH_VERSION:-}" ]'; then
    prints "another shell" 2 "$room/empty" sh icespruce "$room/empty"
    grep -q 'bash icespruce FILE' "$room/said" || { echo "another shell: it does not say what to do"; bad=1; }
fi

printf 'open 2 0\n' >"$room/short"
echo 'ok 0' >"$room/expected"
from_input() { run - <"$room/short"; }
prints "standard input by its sign" 0 "$room/expected" from_input
echo "icespruce $(cat VERSION), proved with $(rt version)" >"$room/expected"
prints "the version" 0 "$room/expected" run --version
run --help >"$room/help" || { echo "the help: status $?"; bad=1; }
grep -q -e 'icespruce - .*standard input' "$room/help" || { echo "the help does not name standard input"; bad=1; }
grep -q -e 'icespruce launch BOOK FILE N HIDDEN START' "$room/help" || { echo "the help does not name launches"; bad=1; }

# A script that runs as ever, with one hint on standard error: hinted NAME WORDS EXPECTED-FILE COMMAND..
hinted() {
    local name=$1 words=$2 expected=$3
    shift 3
    "$@" >"$room/out" 2>"$room/said" || { echo "$name: status $?"; bad=1; }
    cmp "$room/out" "$expected" || { echo "$name: it prints something else"; bad=1; }
    [ "$(wc -l <"$room/said")" -eq 1 ] && grep -q "hint: .*$words" "$room/said" || { echo "$name: standard error has: $(cat "$room/said")"; bad=1; }
}

printf 'bad-line\nerror 3\n' >"$room/expected"
printf 'open 2 0\r\n0 own_nodes\n' >"$room/returns"
hinted "carriage returns" 'carriage return' "$room/expected" run "$room/returns"
printf '\xef\xbb\xbfopen 2 0\n0 own_nodes\n' >"$room/marked"
hinted "a byte-order mark" 'byte-order mark' "$room/expected" run "$room/marked"
printf '\xef\xbb\xbfopen 2 0\n0 own_nodes\r\n' >"$room/both"
printf 'bad-line\nbad-line\n' >"$room/expected"
piped() { cat "$room/both" | run; }
hinted "both, from a pipe" 'byte-order mark and .*carriage return' "$room/expected" piped
exit $bad
