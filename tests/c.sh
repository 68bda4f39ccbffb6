#!/usr/bin/env bash
# include/sgroup.h declares the functions that the library exports, with their arguments, and no others. The C examples compile without a warning against it and
# the proved library, and print what is written by hand beside them; and so does the one that README compiles, by the line that README gives.
set -uo pipefail
cd "$(dirname "${BASH_SOURCE[0]}")/.."

# The exported functions as C declares them, a line each: a lent run is a pointer and a length.
exported() {
    cat crates/*/src/*.rt | tr -s '\n ' ' ' | grep -oE 'extern "C" fn sgroup_[a-z_]+\([^)]*\) -> [a-z0-9]+' | sed -E \
        -e 's/^extern "C" fn (.*) -> (.*)$/\2 \1;/' -e 's/^u32/uint32_t/' -e 's/\( /(/' -e 's/, \)/)/' \
        -e 's/([a-z_]+): u(32|64)/uint\2_t \1/g' -e 's/([a-z_]+): &mut \[u(8|64)\]/uint\2_t *\1, size_t \1_len/g' \
        -e 's/([a-z_]+): &\[u(8|64)\]/const uint\2_t *\1, size_t \1_len/g' | sort
}

# Those of the header.
declared() {
    tr -s '\n ' ' ' <include/sgroup.h | grep -oE '[a-z0-9_]+ sgroup_[a-z_]+\([^)]*\);' | sort
}

[ -n "$(exported)" ] || { echo "no exported function is found"; exit 1; }
diff <(exported) <(declared) || { echo "the library exports what stands behind <, and the header declares what stands behind >"; exit 1; }

said=$(mktemp)
trap 'rm -f "$said"' EXIT
tools/native-lib sgroup_c >"$said" 2>&1 || { cat "$said"; exit 1; }
mkdir -p target/c
for source in examples/c/*.c; do
    name=$(basename "$source" .c)
    cc -std=c11 -O2 -Wall -Wextra -Wpedantic -Werror -Iinclude "$source" -o "target/c/$name" target/native/libsgroup_c.a || exit 1
    "target/c/$name" >"$said" || { echo "$name: exit $?"; exit 1; }
    diff "$said" "examples/c/$name.printed" || exit 1
done
read -ra line < <(sed -n 's/^ *\(cc .* -o target\/stores\)$/\1/p' README.md)
"${line[@]:-false}" || { echo "README: it has no line that compiles the C example"; exit 1; }
target/stores >"$said" || { echo "README: target/stores: exit $?"; exit 1; }
diff "$said" examples/c/stores.printed
