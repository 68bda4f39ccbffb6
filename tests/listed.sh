#!/usr/bin/env bash
# Every folder of crates/ is listed in crates.txt, every listed crate is there, and no .rt or .antt file stands outside a listed crate.
set -uo pipefail
cd "$(dirname "${BASH_SOURCE[0]}")/.."
bad=0
listed=$(sed -e 's/#.*//' -e '/^[[:space:]]*$/d' -e 's/[: ].*//' crates.txt | sort)
there=$(find crates -mindepth 1 -maxdepth 1 -printf '%f\n' | sort)
if [ "$listed" != "$there" ]; then
    echo "crates.txt and crates/ differ:"
    diff <(echo "$listed") <(echo "$there")
    bad=1
fi
strays=$(
    find . -path ./target -prune -o -path ./.git -prune -o -path ./crates -prune -o \( -name '*.rt' -o -name '*.antt' \) -print
    find crates -maxdepth 1 -type f \( -name '*.rt' -o -name '*.antt' \)
)
if [ -n "$strays" ]; then
    echo "files of no crate:"
    echo "$strays"
    bad=1
fi
exit $bad
