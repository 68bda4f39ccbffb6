#!/usr/bin/env bash
# No function of the library for C takes more than 1,536 bytes of stack below the frame of its caller, on any path through its code and all that it
# calls. That is read from the object code for x86-64; on another processor nothing is checked but the program that reads it.
set -uo pipefail
cd "$(dirname "${BASH_SOURCE[0]}")/.."
bound=1536
said=$(mktemp)
trap 'rm -f "$said"' EXIT
quietly() { "$@" >"$said" 2>&1 || { cat "$said"; exit 1; }; }
quietly cargo test --release --offline --quiet --manifest-path tests/stack/Cargo.toml
if [ "$(uname -m)" != x86_64 ]; then
    echo "stack: nothing is checked on $(uname -m): only code for x86-64 is read"
    exit 0
fi
quietly tools/native-lib sgroup_c
quietly cargo build --release --offline --manifest-path tests/stack/Cargo.toml
tests/stack/target/release/stack "$bound"
