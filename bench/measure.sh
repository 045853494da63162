#!/bin/sh
# Usage: bench/measure.sh marks|codec|leaves. Proves and builds crates/bench_parts and measures that part.
# marks: how many reads one and three reader threads make in a second beside a thread that raises.
# codec: how many megabytes a second of a log of 100,000 records are written into memory and read again, and how many
# records a second of logs of 10,000 and 1,000,000 records are opened.
# leaves: how many nanoseconds the leaves of a tree with 1,000 and 1,000,000 records, and those of a list with 1,000 and
# 100,000, take for a get, for an upsert of a record that is there, and to tell that nothing is to be tended.
# The first line is the machine's.
set -eu
cd "$(dirname "$0")/../crates/bench_parts"
model=$(sed -n 's/^model name[^:]*: //p' /proc/cpuinfo | head -n 1)
printf 'machine: %s processors, %s\n' "$(nproc)" "$model"
log=$(mktemp)
trap 'rm -f "$log"' EXIT
if ! rt run -- "$1" >"$log" 2>&1; then
    cat "$log" >&2
    exit 1
fi
grep -E '^(readers|records|leaves) ' "$log"
