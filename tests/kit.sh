#!/usr/bin/env bash
# The kit that proves the crates is the one that kit.txt records.
set -uo pipefail
cd "$(dirname "${BASH_SOURCE[0]}")/.."
recorded=$(cat kit.txt) || exit 1
there=$(rt version) || { echo "rt says no version"; exit 1; }
[ "$there" = "$recorded" ] || { echo "kit.txt records '$recorded', and the kit here is '$there'"; exit 1; }
