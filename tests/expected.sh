#!/usr/bin/env bash
# The stored script of the program and the scripts of examples/, and what is expected of each, are the lines that docs/EXPECTED.md and
# examples/README.md explain, in their order.
set -uo pipefail
cd "$(dirname "${BASH_SOURCE[0]}")/.."
bad=0
room=$(mktemp -d)
trap 'rm -rf "$room"' EXIT

# The first two columns of a text's tables: `LINE` with a note behind it or none, a tab, `PRINTED`.
rows() {
    sed -n 's/^| \(`.*`[^`|]*\) | \(`[^`]*`\) | [^|]* |$/\1\t\2/p' "$1"
}

# The lines of one row, and what they print. A note says that the line comes for each K, that its text is repeated, or that its newline is
# missing: row LINE NOTE PRINTED
row() {
    local line=$1 note=$2 answer=$3
    case $note in
        '') printf '%b\n' "$line" >>"$room/lines"; echo "$answer" >>"$room/printed" ;;
        ' without a newline') printf '%b' "$line" >>"$room/lines"; echo "$answer" >>"$room/printed" ;;
        *' times')
            local count=${note% times}
            printf "%${count# }s\n" '' | tr ' ' "$line" >>"$room/lines"
            echo "$answer" >>"$room/printed" ;;
        ' for K = '*' to '*)
            local range=${note# for K = } step=1 k
            [ "${range% to *}" -le "${range#* to }" ] || step=-1
            for k in $(seq "${range% to *}" "$step" "${range#* to }"); do
                echo "${line//K/$k}" >>"$room/lines"
                echo "${answer//K/$k}" >>"$room/printed"
            done ;;
        *) echo "a note that means nothing:$note"; bad=1 ;;
    esac
}

# The rows of a text are these two files: held TEXT SCRIPT PRINTED
held() {
    : >"$room/lines"
    : >"$room/printed"
    local first second line
    while IFS=$'\t' read -r first second; do
        line=${first#\`}
        row "${line%\`*}" "${line##*\`}" "${second//\`/}"
    done < <(rows "$1")
    if [ "$(grep -c '^| `' "$1")" -ne "$(rows "$1" | wc -l)" ]; then
        echo "$2: a row of a table that explains it is not of the form that is compared"
        bad=1
    fi
    cmp "$room/lines" "$2" && cmp "$room/printed" "$3" || bad=1
}

held docs/EXPECTED.md crates/sgroup_run/stdin crates/sgroup_run/stdout
for script in examples/*.script; do
    name=$(basename "$script" .script)
    sed -n "/^## $name:/,/^## /p" examples/README.md | sed '1!{/^## /d}' >"$room/section"
    held "$room/section" "$script" "examples/$name.printed"
done
exit $bad
