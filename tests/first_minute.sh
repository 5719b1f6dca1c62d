#!/usr/bin/env bash
# The first minute: from a clone with nothing kept to the first line of a match, by the kit of this machine, with the clock.
#
# Usage: bash tests/first_minute.sh [SECONDS]
#
# Clones the commit, plays a match by the build without proofs, once more by the build that is kept, and tries that build on the tables
# of worked cases. It ends with 1 where a line is wrong, where the build is not called what it is, or where the first line took
# more than SECONDS (120). Other work on the machine counts: beside the clock stands what the processors took.
set -u
most=${1-120}
if [[ ! $most =~ ^[0-9]{1,6}$ ]]; then
    echo "first_minute.sh: $most is no number of seconds" >&2
    exit 2
fi
cd "$(dirname "$0")/.." || exit 2
room=$(mktemp -d) && trap 'rm -rf "$room"' EXIT || exit 2
wanted=$(awk '/^```/ { told = 0 } told && /^\$/ { exit } told; $0 == "$ ./simcore play examples/two-posts.json" { told = 1 }' examples/README.md)
called='simcore: NOTHING IS PROVED of this build'
TIMEFORMAT='%R s by the clock, %U s of the processors'

wrong() {
    echo "FAILED $1"
    exit 1
}

play() {
    ./simcore --unproved play examples/two-posts.json >"$room/text" 2>"$room/said"
}

from=$EPOCHREALTIME
git clone -q . "$room/clone" || wrong "no clone was made"
cd "$room/clone" || exit 2
echo "from a clone to the first line:"
time play
took=$(((${EPOCHREALTIME/./} - ${from/./}) / 1000000))
cat "$room/said"
[ "$(cat "$room/text")" = "$wanted" ] || wrong "the match has other lines: $(cat "$room/text")"
[ "$(tail -n 1 "$room/said")" = "$called" ] || wrong "the build is not called what it is"
echo "once more:"
time play
[ "$(cat "$room/text" "$room/said")" = "$wanted"$'\n'"$called" ] || wrong "the kept build says something else: $(cat "$room/text" "$room/said")"
python3 tests/rows.py out/unproved/simcore | tail -n 1 | tee "$room/rows"
grep -q ' passed, 0 failed$' "$room/rows" || wrong "the tables of worked cases"
[ "$took" -le "$most" ] || wrong "the first line took $took s, and may take $most"
echo "ok     the first line after $took s"
