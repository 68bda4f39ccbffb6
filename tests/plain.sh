#!/usr/bin/env bash
# No file names a path of the machine that it was written on, and sizes and places of the table and its index are spelled in their one home only.
set -uo pipefail
cd "$(dirname "${BASH_SOURCE[0]}")/.."
bad=0

# Files that have the words, which none should: none WHAT GREP-ARGUMENT..
none() {
    local what=$1
    shift
    git grep --untracked -nI "$@"
    case $? in
        0) echo "$what"; bad=1 ;;
        1) ;;
        *) echo "the files cannot be searched"; bad=1 ;;
    esac
}

none "a path of a machine stands in a file" -E '/(work|root|home)/' -- ':!tests/plain.sh' ':!LICENSE'
# 1,220 words in all, and the places 36, 68, 132, 196 of its parts
none "a size or a place of the table is spelled outside Sizes.antt" -wE '1220|196|132|68|36' -- 'crates/*.rt' 'crates/*.antt' ':!crates/semantics/specs/Sizes.antt'
# 2,048 words; the index of a book has as many marks
none "the size of an index is spelled outside Sizes.antt" -wE '2048' -- 'crates/*.rt' 'crates/*.antt' ':!crates/semantics/specs/Sizes.antt' ':!crates/book_index/*'
exit $bad
