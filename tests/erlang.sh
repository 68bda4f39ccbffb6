#!/usr/bin/env bash
# Erlang's own file:consult and the reader of launch files agree: on random launch files and single-byte changes of them, on the listings in
# examples/launch, and on fixed texts, among them every difference that 02 wants. Prints its seed; launches that differ are kept in tests/erlang/kept/,
# and what is kept there is run again first.
#
#   tests/erlang.sh [SEED [FILES [CHANGES [PROGRAM..]]]]     more files and changes of each for a longer run; another program than the library that
#                                                            makes the launches of a list and prints one line for each
set -uo pipefail
cd "$(dirname "${BASH_SOURCE[0]}")/.."
seed=${1:-20261115}
files=${2:-1500}
changes=${3:-3}
program=("${@:4}")
[ ${#program[@]} -gt 0 ] || program=(tests/compare/target/release/launch-files)
command -v escript >/dev/null || { echo "escript is not there; Debian has it in erlang-base"; exit 1; }
room=$(mktemp -d)
trap 'rm -rf "$room"' EXIT
quietly() { "$@" >"$room/said" 2>&1 || { cat "$room/said"; exit 1; }; }
quietly tools/native-lib sgroup_c
quietly cargo build --release --offline --manifest-path tests/model/Cargo.toml
quietly cargo build --release --offline --manifest-path tests/compare/Cargo.toml
bad=0

# The launches of a list, made by the program and by Erlang; those that differ are copied to a folder: compared LIST FOLDER
compared() {
    "${program[@]}" "$1" >"$room/printed" || { echo "$1: ${program[0]} fails"; bad=1; return; }
    escript tests/erlang/consult.escript compare "$1" "$room/printed" "$2" || bad=1
}

[ ! -e tests/erlang/kept/list ] || compared tests/erlang/kept/list "$room/again"
compared examples/launch/list "$room/again"
escript tests/erlang/consult.escript differences "$room/differences" || exit 1
"${program[@]}" "$room/differences/list" >"$room/printed" || { echo "the differences: ${program[0]} fails"; exit 1; }
escript tests/erlang/consult.escript held "$room/differences" "$room/printed" || bad=1
echo "erlang: seed $seed, $files files, $changes changes of each"
tests/model/target/release/model-launches "$seed" "$files" "$changes" "$room/$seed" || exit 1
compared "$room/$seed/list" tests/erlang/kept
exit $bad
