#!/bin/sh
# What becomes of stored states in which one byte is changed: each of the first 400 bytes to each other value, and 2,000 of those
# behind. It is asked whether the bytes stand for a state, and they are loaded: both have to agree, each refusal to have its
# code, and what is loaded to spell the changed bytes. A line for each state says how many changes had which answer.
#
# Usage: tests/stored_damage.sh [MATCH STATE]..
#
# Without words the states are those of some turns of the examples, which the built program stores, and those of tests/stored: one of
# both versions, and that of a walker on its way. Their answers were counted apart from the program. The exit status is 0 where no
# change was answered wrongly and memory was there for each.
set -eu
top=$(dirname "$(dirname "$(realpath "$0")")")
program=$top/crates/timed_calls/out/timed_calls
failed=0

damage() {
    line=$("$program" damage "$(realpath "$1")" "$(realpath "$2")")
    echo "$(basename "$2"): ${line#*: }"
    case $line in *'out-of-memory 0 wrong 0') ;; *) failed=1 ;; esac
}

(cd "$top/crates/timed_calls" && rt run >/dev/null 2>&1) || exit 125
if [ $# -eq 0 ]; then
    (cd "$top/tests/stored" && { "$program" damage fight.json version-1 version-2; "$program" damage walk.json walking; } | diff - answers) || failed=1
    folder=$(mktemp -d)
    trap 'rm -rf "$folder"' EXIT
    for name in two-posts inherited camp squads outposts handover; do
        for turn in 0 1 2; do
            "$top/simcore" state "$top/examples/$name.json" $turn "$folder/$name-$turn" >/dev/null
            damage "$top/examples/$name.json" "$folder/$name-$turn"
        done
    done
fi
while [ $# -ge 2 ]; do
    damage "$1" "$2"
    shift 2
done
exit $failed
