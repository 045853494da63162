#!/bin/sh
# Usage: bench/engine_store.sh FOLDER [PROGRAM ..]. Proves and builds crates/bench_node and measures both engines over
# a store that is made in FOLDER, in transactions of ten upserts over 20,000 keys, each synced at its commit: g four
# clients, each on a thread and on keys of its own, one the work of g by one session, on three locks with four
# workers, and both under one lock (monitor-). Each PROGRAM is another one that is called with NAME WORKLOAD N FOLDER,
# and is measured in turn with it. Five rounds of 4,000 upserts; prints the line that crates/bench_node/src/main.rt
# describes for each run. The digests of a workload agree. The first line is the machine's.
set -eu
folder=$(cd "$1" && pwd)
shift
cd "$(dirname "$0")/../crates/bench_node"
model=$(sed -n 's/^model name[^:]*: //p' /proc/cpuinfo | head -n 1)
printf 'machine: %s processors, %s\n' "$(nproc)" "$model"
store=$folder/measured_store
trap 'rm -rf "$store"' EXIT
if ! rt run >"$folder/log" 2>&1; then
    cat "$folder/log" >&2
    exit 1
fi
for round in 1 2 3 4 5; do
    for workload in g monitor-g one monitor-one; do
        for program in ./out/bench_node "$@"; do
            rm -rf "$store"
            "$program" "${program##*/}" "$workload" 4000 "$store"
        done
    done
done
