#!/usr/bin/env bash
# What an arrival costs the server: 100,000 arrivals of eight clients, who give three commands of eight ids each, are done
# and report in each of 2,500 turns; and 20 joinings with states of 1.7 MB. It prints figures and asserts nothing. Each
# accepted command is copied once for each of the eight clients and once to be kept; the bytes of a state are moved.
cd "$(dirname "$0")/../crates/timed_calls" || exit 1
rt run -- server
