#!/usr/bin/env bash
# The launcher proves and builds the program before it runs it, tried with a kit and a program that only pretend: its progress, one launch at a time, what
# it makes of a kit that refuses, fails or is another one, that each of the three programs is proved for itself, and that nothing is left of it when it is ended.
set -uo pipefail
cd "$(dirname "${BASH_SOURCE[0]}")/.."
bad=0
room=$(mktemp -d)
trap 'rm -rf "$room"' EXIT
root=$room/root
mkdir -p "$root"/crates/{low,side,sgroup_run,sgroup_who,sgroup_launch}/src "$room/bin" "$room/temporary"
cp icespruce VERSION kit.txt "$root"
printf '# a comment: with a colon\nlow:\nside: low\nsgroup_run: low io\nsgroup_who: low io\nsgroup_launch: low side\n' >"$root/crates.txt"

# A kit that takes `pause` seconds, then ends with `status`; where that is 0 it makes a program that prints its input, or `answer` where it has arguments, or
# waits where `pause` is not 0.
cat >"$room/bin/rt" <<'KIT'
#!/bin/sh
room=${0%/bin/rt}
[ "$1" = run ] || { cat "$room/version"; exit; }
name=${PWD##*/}
echo used >>"$room/uses"
echo "rt: chose --jobs 2 for low"
echo "crate low: modules loaded=0 checked=1"
echo "logic=proved functions=1"
sleep "$(cat "$room/pause")" &
echo $! >"$room/sleeper"
wait $!
status=$(cat "$room/status")
[ "$status" -eq 0 ] || exit "$status"
mkdir -p out
printf '#!/bin/sh\nread seconds <%s/pause\n[ "$seconds" -eq 0 ] || { echo $$ >%s/sleeper; exec sleep "$seconds"; }\n[ $# -eq 0 ] || exec cat %s/answer\ncat\n' "$room" "$room" "$room" >"out/$name"
chmod +x "out/$name"
echo "crate $name: modules loaded=0 checked=1"
echo "logic=proved functions=2"
KIT
# The program that pretends runs on every processor.
printf '#!/bin/sh\necho x86_64\n' >"$room/bin/uname"
chmod +x "$room/bin/rt" "$room/bin/uname"
echo 'a script' >"$room/script"

# Begins anew with a kit like this: kit STATUS PAUSE
kit() {
    rm -rf "$root/target" "$root"/crates/*/out "$room/uses" "$room/sleeper"
    echo "$1" >"$room/status"
    echo "$2" >"$room/pause"
    cp kit.txt "$room/version"
}

# A launch of a script, or with other arguments, with what it says in $room/said: launch [ARGUMENT..]
launch() {
    [ $# -gt 0 ] || set -- "$room/script"
    PATH=$room/bin:$PATH TMPDIR=$room/temporary timeout 60 "$root/icespruce" "$@" >"$room/printed" 2>"$room/said"
}

# Something that has to hold: holds WHAT COMMAND..
holds() {
    local what=$1
    shift
    "$@" || { echo "$what; standard error has: $(cat "$room/said")"; bad=1; }
}

# A launch has this status and says this, a pattern: launches STATUS WORDS [ARGUMENT..]
launches() {
    launch "${@:3}"
    holds "the status is not $1" test $? -eq "$1"
    holds "it does not say '$2'" grep -q -e "$2" "$room/said"
}

kit 0 0
launches 0 'crate 2 of 2: sgroup_run proved'
holds "the script is not run" cmp "$room/script" "$room/printed"
holds "it does not say how long it takes" grep -q 'usually' "$room/said"
launch
holds "a second launch says something" test ! -s "$room/said"
touch "$root/crates/low/src"
launches 0 'the last time took [0-9]* seconds'

# The programs whose first line says whether what they are asked is refused: who goes by a process, of which the argument is looked at before it is proved,
who=(who 67108865 "$room/script")
printf 's_group 5 name 70\n' >"$room/answer"
launches 2 'is no pid' who 67108865x "$room/script"
holds "something is proved for no pid" test ! -e "$root/target/icespruce.sgroup_who.proved"
launches 0 'crate 2 of 2: sgroup_who proved' "${who[@]}"
holds "the names are not printed" cmp "$room/answer" "$room/printed"
launch who 67108865 - <"$room/script"
holds "a second question fails" test $? -eq 0
holds "a second question says something" test ! -s "$room/said"
printf 'error 7\nsomething\n' >"$room/answer"
launch "${who[@]}"
holds "the status of a question that is refused is not 1" test $? -eq 1
holds "a question that is refused says something" test ! -s "$room/said"
holds "the refusal of a question is not printed" cmp "$room/answer" "$room/printed"

# and launches.
table=(launch "$room/script" "$room/script" 1 0 0)
echo 'ok 0' >"$room/answer"
launches 0 'crate 2 of 3: sgroup_launch proved' "${table[@]}"
holds "the launch is not printed" cmp "$room/answer" "$room/printed"
launch
holds "a script is proved again behind a launch" test ! -s "$room/said"
printf 'error 18 3\nok 0\n' >"$room/answer"
launch "${table[@]}"
holds "the status of a launch that is refused is not 1" test $? -eq 1
holds "a launch that is refused says something" test ! -s "$room/said"
holds "the refusal is not printed" cmp "$room/answer" "$room/printed"
kit 1 0
launches 2 'not proved' "${table[@]}"
launches 1 'not proved' "${who[@]}"
kit 2 0
launches 3 'the Rattle kit failed (status 2)' "${table[@]}"

kit 1 0
launches 1 'not proved'
kit 2 0
launches 3 'the Rattle kit failed (status 2)'
kit 3 0
launches 3 'the Rattle kit failed (status 3)'

kit 0 0
echo 'another kit' >"$room/version"
launches 0 "warning: the kit here is 'another kit', and kit.txt records '$(cat kit.txt)'"

# Two at once: one proves, and both run.
kit 0 1
launch &
first=$!
launches 0 .
wait "$first"
holds "the first of two launches fails" test $? -eq 0
holds "two launches at once don't prove once" test "$(wc -l <"$room/uses")" -eq 1

# Whether a process is gone, or only not yet buried: gone PROCESS
gone() {
    [ ! -e "/proc/$1" ] || grep -q '^State:[[:space:]]*Z' "/proc/$1/status"
}

# Ends a launch once it waits for what it started, which is gone then: is_ended WHAT
is_ended() {
    PATH=$room/bin:$PATH TMPDIR=$room/temporary "$root/icespruce" "$room/script" >"$room/printed" 2>"$room/said" &
    local launched=$!
    for _ in $(seq 100); do
        [ ! -s "$room/sleeper" ] || break
        sleep 0.1
    done
    kill -TERM "$launched"
    wait "$launched"
    holds "$1: the status of a launch that is ended is not 143" test $? -eq 143
    sleep 0.2
    holds "$1: what the launch started is still there" gone "$(cat "$room/sleeper")"
}
kit 0 300
is_ended "the kit"
holds "a temporary file stays in target/" test -z "$(find "$root/target" -name '*.began')"
kit 0 0
launches 0 'crate 2 of 2'
echo 300 >"$room/pause"
rm -f "$room/sleeper"
is_ended "the program"
holds "temporary files stay" test -z "$(ls -A "$room/temporary")"
exit $bad
