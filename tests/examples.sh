#!/usr/bin/env bash
# Each script of examples/, run by the launcher as a file and as standard input, prints its NAME.printed, and each question of examples/who its PID.printed.
set -uo pipefail
cd "$(dirname "${BASH_SOURCE[0]}")/.."
bad=0
seen=0
asked=0
for script in examples/*.script; do
    [ -e "$script" ] || continue
    seen=$((seen + 1))
    printed=${script%.script}.printed
    if ! ./icespruce "$script" | cmp - "$printed"; then
        echo "$script: ./icespruce $script does not print $printed"
        bad=1
    fi
    if ! ./icespruce <"$script" | cmp - "$printed"; then
        echo "$script: ./icespruce < $script does not print $printed"
        bad=1
    fi
done
# A question that is refused has a status of its own, which tests/who.sh looks at.
for printed in examples/who/*.printed; do
    [ -e "$printed" ] || continue
    asked=$((asked + 1))
    pid=$(basename "$printed" .printed)
    if ! cmp "$printed" <(./icespruce who "$pid" examples/who.script); then
        echo "$printed: ./icespruce who $pid examples/who.script does not print it"
        bad=1
    fi
    if ! cmp "$printed" <(./icespruce who "$pid" <examples/who.script); then
        echo "$printed: ./icespruce who $pid < examples/who.script does not print it"
        bad=1
    fi
done
[ "$seen" -gt 0 ] && [ "$asked" -gt 0 ] || { echo "there is no example"; bad=1; }
exit $bad
