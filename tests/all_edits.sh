#!/usr/bin/env bash
# Tries every edit that the prover must refuse: those of the gate, in must-fail/, and those of more-edits/ beside them, which the gate
# leaves out for its length. For use before a release: it takes some hours from nothing.
#
#   tests/all_edits.sh            all crates
#   tests/all_edits.sh NAME..     these crates
#
# It works on a copy, so the checkout stays as it is. It ends with 0 where every edit was refused.
set -u
cd "$(dirname "$0")/.." || exit 1
copy=$(mktemp -d) || exit 1
trap 'rm -rf "$copy"' EXIT
cp -r crates.txt HANDLES "$copy" || exit 1
mkdir "$copy/crates" || exit 1
for crate in crates/*/; do
    name=$(basename "$crate")
    mkdir "$copy/crates/$name" || exit 1
    find "$crate" -mindepth 1 -maxdepth 1 ! -name out ! -name more-edits -exec cp -r {} "$copy/crates/$name" \; || exit 1
    if [ -d "$crate/more-edits" ]; then
        mkdir -p "$copy/crates/$name/must-fail" || exit 1
        for edit in "$crate"more-edits/*.edit; do
            if [ -e "$copy/crates/$name/must-fail/$(basename "$edit")" ]; then
                echo "$edit has the name of an edit in must-fail/, so one of them would not be tried" >&2
                exit 1
            fi
            cp "$edit" "$copy/crates/$name/must-fail" || exit 1
        done
    fi
done
cd "$copy" || exit 1
rt must-fail "$@"
