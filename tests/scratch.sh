#!/usr/bin/env bash
# Where the library for C has arrays of its own: in the tests of a table and of an index, and in launching, whose plan is `pairs::Plan`. Every other crate on the way of a call has
# none, and the kit has no heap: so no step has room for a copy of a namespace, of a table or of an index.
set -uo pipefail
cd "$(dirname "${BASH_SOURCE[0]}")/.."
library=sgroup_c
scratch='links_test groups_test index_test pairs launch'

# The library and what it rests on, by crates.txt, where a crate stands behind those that it names.
crates=$(awk -F: -v top="$library" '
    !/^#/ { sub(/ .*/, "", $1); name[++many] = $1; deps[$1] = $2 }
    END {
        wanted[top] = 1
        for (i = many; i > 0; i--) if (wanted[name[i]]) {
            print name[i]
            count = split(deps[name[i]], own, " ")
            for (k = 1; k <= count; k++) wanted[own[k]] = 1
        }
    }' crates.txt)

# Lines of a crate's code with an array of one element or more that takes room in a call: its type, or how it is made, of one value or of several, or a copy of one that
# is borrowed, or a new plan. The type of a borrowed array of words, a static and the name of a type
# take none; an array that is made where it is borrowed takes room.
arrays() {
    local code borrowed word='(u8|u16|u32|u64|usize|bool)'
    code=$(find "crates/$1/src" -name '*.rt' -exec sed 's,//.*,,' {} +)
    borrowed=$(grep -oE "[a-z_]+: &('[a-z]+ )?(mut )?(\[[^];[]+; *[^]]+\]|Index\b)" <<<"$code" | sed 's/:.*//' | sort -u | paste -sd'|')
    sed -E "/^(pub )?(static|type) /d; s/&('[a-z]+ )?(mut )?(\[\[$word; *[^]]+\]\]|\[$word; *[^]]+\])/\&/g" <<<"$code" |
        grep -E '\[[^];[]+; *[^]]*[^] 0]+[^]]*\]|= *\[[^]]*,|Plan::new\('"${borrowed:+|[=(,] *\*($borrowed)[;,)]}"
}

bad=0
for crate in $crates; do
    [ -d "crates/$crate" ] || continue
    lines=$(arrays "$crate")
    case " $scratch " in
        *" $crate "*) [ -n "$lines" ] || { echo "scratch: $crate has no array any more"; bad=1; } ;;
        *) [ -z "$lines" ] || { echo "scratch: $crate has an array:"; echo "$lines"; bad=1; } ;;
    esac
done
for crate in $scratch namespace names; do
    grep -qx "$crate" <<<"$crates" || { echo "scratch: $library does not rest on $crate"; bad=1; }
done
exit $bad
