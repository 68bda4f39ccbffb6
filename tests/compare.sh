#!/usr/bin/env bash
# The compiled library and the compiled program give what the independent model gives: random calls on sound, mutated and random tables, the same with right and
# wrong indexes, random launches, and random scripts. Prints its seeds; what differs is made smaller and kept in tests/compare/kept/, and what is kept there is
# run again first.
#
#   tests/compare.sh [SEED [WALKS [SCRIPTS [LAUNCHES [INDEXED]]]]]     more walks, scripts, launches and walks with an index for a longer run
set -uo pipefail
cd "$(dirname "${BASH_SOURCE[0]}")/.."
seed=${1:-20261115}
walks=${2:-150}
scripts=${3:-150}
launches=${4:-5000}
indexed=${5:-200}
said=$(mktemp)
trap 'rm -f "$said"' EXIT
quietly() { "$@" >"$said" 2>&1 || { cat "$said"; exit 1; }; }
quietly tools/native-lib sgroup_c
quietly cargo build --release --offline --manifest-path tests/compare/Cargo.toml
# Proves and builds a program, as crates/NAME/out/NAME, and runs it on no bytes: build NAME
build() { (cd "crates/$1" && rt run </dev/null); }
quietly build sgroup_run
program=(crates/sgroup_run/out/sgroup_run)
bad=0
for kept in tests/compare/kept/*.case; do
    [ ! -e "$kept" ] || tests/compare/target/release/library again "$kept" || bad=1
done
for kept in tests/compare/kept/*.index; do
    [ ! -e "$kept" ] || tests/compare/target/release/index again "$kept" || bad=1
done
for kept in tests/compare/kept/*.launch; do
    [ ! -e "$kept" ] || tests/compare/target/release/launch again "$kept" || bad=1
done
for kept in tests/compare/kept/*.script; do
    [ ! -e "$kept" ] || tests/compare/target/release/scripts again "$kept" "${program[@]}" || bad=1
done
tests/compare/target/release/library "$seed" "$walks" || bad=1
tests/compare/target/release/index "$seed" "$indexed" || bad=1
tests/compare/target/release/launch "$seed" "$launches" || bad=1
tests/compare/target/release/scripts "$seed" "$scripts" "${program[@]}" || bad=1
exit $bad
