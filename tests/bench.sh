#!/usr/bin/env bash
# The plain Rust that bench/ times the proved code against compiles and gives what the proved code gives: the same answers and words on random calls, with an
# index and without, on removals, lookups and namespaces, and on x86-64 the same lines as the program on the scripts that are timed. There no call of the library takes more than 1,536 bytes of stack.
# Nothing is timed here.
#
#   tests/bench.sh [SEED]     prints the seed where it fails
set -uo pipefail
cd "$(dirname "${BASH_SOURCE[0]}")/.."
said=$(mktemp)
trap 'rm -f "$said"' EXIT
bench/run agree "$@" >"$said" 2>&1 || { cat "$said"; exit 1; }
