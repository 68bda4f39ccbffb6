#!/usr/bin/env bash
# tools/native-lib, tried with a kit that only pretends: it builds a library that is not there, builds it again where a source changed after the last build
# began, also if that was before it ended, and else not.
set -uo pipefail
cd "$(dirname "${BASH_SOURCE[0]}")/.."
bad=0
room=$(mktemp -d)
trap 'rm -rf "$room"' EXIT
mkdir -p "$room/bin" "$room/tree/crates/low"
: >"$room/tree/crates.txt"
cat >"$room/bin/rt" <<'KIT'
#!/bin/sh
echo used >>"${0%/bin/rt}/uses"
[ "$1" = lib ] || exit 1
mkdir -p out
: >out/liblow.a
[ ! -e "${0%/bin/rt}/changing" ] || { sleep 0.1; : >source; }
KIT
printf '#!/bin/sh\necho x86_64\n' >"$room/bin/uname"
chmod +x "$room/bin/rt" "$room/bin/uname"
native=$PWD/tools/native-lib

# A call, after which the kit was used so many times in all: builds WHAT TIMES
builds() {
    (cd "$room/tree" && PATH=$room/bin:$PATH "$native" low >/dev/null) || { echo "$1: it fails"; bad=1; }
    local times
    times=$(wc -l <"$room/uses")
    [ "$times" -eq "$2" ] || { echo "$1: the kit was used $times times, not $2"; bad=1; }
    sleep 0.1
}

touch "$room/changing"
builds "the first build, in which a source changes" 1
rm "$room/changing"
builds "a build after that" 2
builds "a build where nothing changed" 2
: >"$room/tree/crates/low/source"
builds "a build after a change" 3
rm "$room/tree/target/native/liblow.a"
builds "a library that is gone" 4
exit $bad
