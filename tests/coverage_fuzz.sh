#!/bin/sh
# Damaged files for the built program, guided by what they reach in it.
#
# Usage: tests/coverage_fuzz.sh PROGRAM MINUTES [KIND] [SEEDS] [FOLDER]
#
# A KIND is match, states, schedules or steps; without one each of them is tried for a quarter of the minutes. Files are changed,
# handed to each command that reads them, and kept where they reach a basic block of the program that none before did. Each run
# has one gigabyte and ten seconds of processor time. A fault is: a signal, a run past its time, a status that the words cannot
# have, a text that its status does not print, a written file beside a refusal, or a file that one word refuses and another does
# not. The files that led to one are in FOLDER/KIND/faults, and the exit status is 0 where there is none. SEEDS is a folder with
# one of files for each kind; without it they are those of examples/, and states that the program stores from them. It needs
# gcc, objdump and Linux on x86-64, and reads the program as it is: nothing is built into it. coverage/ has the parts.
set -eu
[ $# -ge 2 ] || { sed -n '2,6p' "$0"; exit 2; }
program=$(realpath "$1") minutes=$2 kind=${3:-} seeds=${4:-}
here=$(dirname "$(realpath "$0")")
folder=${5:-$(mktemp -d /tmp/coverage-fuzz-XXXXXX)}
mkdir -p "$folder"
folder=$(realpath "$folder")

# The files of examples/ by kind: matches, with those that have no commands for sessions; a schedule; steps; and stored states.
make_seeds() {
    examples=$here/../examples
    mkdir -p "$1/match" "$1/states" "$1/schedules" "$1/steps"
    cp "$examples/late-and-liar.json" "$1/schedules/"
    cp "$examples/handover-steps.json" "$1/steps/"
    cp "$examples/handover.json" "$1/steps/handover-steps.json.match"
    for match in "$examples"/*.json; do
        name=$(basename "$match" .json)
        case $name in late-and-liar | *-steps) continue ;; esac
        cp "$match" "$1/match/"
        for turn in 0 1 3 8 20; do
            (cd "$1/states" && "$program" state "$match" $turn "$name-$turn" >/dev/null) || continue
            cp "$match" "$1/states/$name-$turn.match"
        done
    done
}

if [ -z "$seeds" ]; then
    seeds=$folder/seeds
    make_seeds "$seeds"
fi
seeds=$(realpath "$seeds")
gcc -O2 -Wall -Wextra -shared -fPIC -o "$folder/server.so" "$here/coverage/server.c"
gcc -O2 -Wall -Wextra -o "$folder/fuzz" "$here/coverage/fuzz.c" "$here/coverage/mutate.c"
objdump -d -j .text --no-show-raw-insn "$program" | awk -f "$here/coverage/blocks.awk" >"$folder/blocks"

# Where the files stand that a run reads and writes: in memory, if the system has such a folder.
run=$(mktemp -d "$([ -d /dev/shm ] && echo /dev/shm || echo /tmp)/coverage-run-XXXXXX")
trap 'rm -rf "$run"' EXIT
status=0
for one in ${kind:-match states schedules steps}; do
    mkdir -p "$folder/$one" "$run/$one"
    cp "$here/../examples/handover-steps.json" "$run/$one/l"
    cp "$here/../examples/handover.json" "$run/$one/m"
    seconds=$((minutes * 60 / $([ -n "$kind" ] && echo 1 || echo 4)))
    (cd "$run/$one" && "$folder/fuzz" "$program" "$folder/server.so" "$one" "$seeds/$one" "$folder/$one" $seconds 1 <"$folder/blocks") || status=1
done
echo "the files are in $folder"
exit $status
