#!/usr/bin/env bash
# What a way costs, as the fastest of 30 rounds of calls: on 128 by 128 and 256 by 256 cells, on open ground, with cells
# closed here and there, in corridors, rooms and among buildings; between far, middle and near cells, and to the cell
# (71, 55), which lies in a building where there are buildings; by the whole search (`way`), by labels in rooms of its own
# (`way_with`), and in kept rooms (`Searcher`). These remember a way that took a search, so the fastest round there is that of a
# remembered way; straight ways are found anew. It prints figures and asserts nothing. For reference, a fast program without proofs took in kept rooms, on 256 by 256 cells, for far, middle and near cells: open 1.6, 0.3, 0.1 us; scattered 611, 12.9,
# 0.1; corridors 1063, 147, 30; buildings 18, 1.5, 0.1, into a building 2.3 and 0.2. That was on another machine; on this one
# straight_ways.cpp is measured behind it, where there is a g++.
cd "$(dirname "$0")/../crates/timed_calls" || exit 1
uptime
rt run -- ways
uptime
if command -v g++ >/dev/null; then
    folder=$(mktemp -d) || exit 1
    g++ -O3 -march=x86-64-v2 -o "$folder/straight_ways" ../../bench/straight_ways.cpp && "$folder/straight_ways"
    rm -r "$folder"
fi
