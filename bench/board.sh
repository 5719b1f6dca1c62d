#!/usr/bin/env bash
# What changes of a board cost: 4,096 rows with obstructions are created and removed in one turn, over the four systems. It
# prints figures and asserts nothing.
cd "$(dirname "$0")/../crates/timed_calls" || exit 1
rt run -- board
