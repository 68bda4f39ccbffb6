#!/usr/bin/env bash
# Each must-fail edit was refused because a fact fails, by what the gate's `rt ci` said of it (target/ci.log, which .ci/run writes). Where it says that a name is
# not there, or speaks of a loop's invariant or measure as they are written, of a contract or of no fact at all, the edit only made the proof unfit for the code
# and shows nothing. Each edit says in its first line what it rules out.
set -uo pipefail
cd "$(dirname "${BASH_SOURCE[0]}")/.."
log=target/ci.log
[ -s "$log" ] || { echo "$log is not there: .ci/run writes it"; exit 1; }
bad=0
for edit in crates/*/must-fail/*.edit; do
    [ -e "$edit" ] || continue
    crate=$(basename "$(dirname "$(dirname "$edit")")")
    name=$(basename "$edit")
    case $(head -n 1 "$edit") in
        '# '?*) ;;
        *) echo "$edit: its first line does not say what it rules out"; bad=1 ;;
    esac
    said=$(grep -F -m 1 "rt: must-fail $crate/$name: " "$log")
    case ${said#*"$name: "} in
        '') echo "$edit: nothing is said of its refusal"; bad=1 ;;
        *'names what the edit took away'* | *'that can be named from here'* | *'is not in scope'* | *'has no field'* | *Invariants.antt:*)
            echo "$edit: refused for its shape: ${said#*"$name: "}"
            bad=1 ;;
        'refused, as it must be: '*'(`'*'`)'* | 'refused, as it must be: '*'error: `'*) ;;
        *) echo "$edit: no fact is named: ${said#*"$name: "}"; bad=1 ;;
    esac
done
exit $bad
