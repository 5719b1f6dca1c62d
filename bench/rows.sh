#!/usr/bin/env bash
# What a stored state costs: 4,096 entities with every part and a way of 45 waypoints each, 1.7 MB. It is made by hand, so that
# no match has to be played to it; each figure is the fastest of 20 calls, without files and without the reading of the match. It
# prints figures and asserts nothing. For reference: a plain Rust program without contracts takes 10 ms to read a match of
# 0.6 MB, to load such a state and to show it, and 17 ms to read the match, to load two such states and to compare them;
# bench/stored.py has whole runs of the program.
cd "$(dirname "$0")/../crates/timed_calls" || exit 1
rt run -- rows
