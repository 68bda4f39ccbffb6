#!/usr/bin/env bash
# What the pages cite is there: each `crate/File` is a file of that crate's specs/ or proofs/, the names that follow it after a colon stand in that file, and each
# link to a page of this repository leads to one.
set -uo pipefail
cd "$(dirname "${BASH_SOURCE[0]}")/.."
bad=0

# One more thing that is not there: miss PAGE WHAT
miss() {
    echo "$1 cites $2, which is not there"
    bad=1
}

for page in README.md docs/*.md docs/landings/*.md examples/README.md; do
    [ -e "$page" ] || continue
    # `crate/File`, then the names after it: `crate/File`: `a`, `b`
    while IFS= read -r cited; do
        file=${cited#\`}
        file=${file%%\`*}
        spec=crates/${file%%/*}/specs/${file#*/}.antt
        [ -e "$spec" ] || spec=crates/${file%%/*}/proofs/${file#*/}.antt
        [ -e "$spec" ] || { miss "$page" "$file"; continue; }
        case $cited in *'`: `'*) ;; *) continue ;; esac
        for name in $(grep -oE '`[^` ]+`' <<<"${cited#*\`: }" | tr -d '`'); do
            grep -qF -- "$name" "$spec" || miss "$page" "$file: $name"
        done
    done < <(grep -oE '`[a-z_]+/[A-Z][A-Za-z]*`(: `[^` ]+`(, `[^` ]+`)*)?' "$page")
    while IFS= read -r link; do
        [ -e "$(dirname "$page")/$link" ] || miss "$page" "$link"
    done < <(grep -oE '\]\([^)#:]+' "$page" | sed 's/^](//')
done
exit $bad
