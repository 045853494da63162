#!/bin/sh
# Usage: bench/node.sh. Proves and builds crates/bench_node and measures a node over the world's public calls, with no
# script and no text, in transactions of ten over 20,000 keys, the 10,000 even ones loaded before, the leaves tended after
# each write: a upserts, b the same rolled back, c updates of which a savepoint undoes the first five, d reads, e rows read
# a hundred at a time; savepoints: updates in transactions of a hundred, a savepoint before each ten, of which every second
# ten is undone; into no rows, inserts of rising and of scattered keys; and eight clients that change one record in turn,
# in transactions of ten: adds, which go beside one another, and updates, which wait. The same of an engine with four
# workers: g upserts of four clients, each on a thread and on keys of its own, h every second transaction rolled back, one
# the work of g by one session.
# Prints operations a second at 1,000, 10,000 and 100,000 operations, each the best of five runs, and the ratio of the
# last to the first; of the inserts also at 100,000, 1,000,000 and 3,000,000 rows, in one run each. Then what follows a crash, in milliseconds for each 1,000 upserts: f of both components, of upserts
# committed in tens and an open transaction of 1,000, until that is undone and a row is read; checked the same with a
# checkpoint just before the crash; of one open transaction whose upserts all lie before a checkpoint, and the transaction
# component alone, first until a new insert is answered and undo until the node is settled. Last, how many bytes of
# resident memory each of 400,000 committed upserts takes. The first line is the machine's.
set -eu
cd "$(dirname "$0")/../crates/bench_node"
model=$(sed -n 's/^model name[^:]*: //p' /proc/cpuinfo | head -n 1)
printf 'machine: %s processors, %s\n' "$(nproc)" "$model"
folder=$(mktemp -d)
trap 'rm -rf "$folder"' EXIT
if ! rt run >"$folder/log" 2>&1; then
    cat "$folder/log" >&2
    exit 1
fi

best() {
    for run in 1 2 3 4 5; do
        ./out/bench_node node "$1" "$2"
    done | cut -d, -f6 | sort -n | tail -n 1
}

resident() {
    command time -f %M -o "$folder/memory" ./out/bench_node node "$1" "$2" >"$folder/line"
    cat "$folder/memory"
}

for workload in a early b c d e savepoints rising scattered adds updates g h one; do
    first=
    for operations in 1000 10000 100000; do
        rate=$(best "$workload" "$operations")
        printf '%s, %s operations: %s a second\n' "$workload" "$operations" "$rate"
        first=${first:-$rate}
    done
    awk -v workload="$workload" -v first="$first" -v last="$rate" \
        'BEGIN { printf "%s, ratio of the last to the first: %.2f\n", workload, last / first }'
done
# Tables that grow: one run each, since the largest takes a quarter of a minute.
for workload in rising scattered; do
    for operations in 100000 1000000 3000000; do
        rate=$(./out/bench_node node "$workload" "$operations" | cut -d, -f6)
        printf '%s, %s rows: %s a second\n' "$workload" "$operations" "$rate"
    done
done
restart() {
    for run in 1 2 3 4 5; do
        ./out/bench_node node "$1" "$2"
    done | cut -d, -f5 | sort -n | head -n 1 |
        awk -v workload="$1" -v committed="$2" -v others="$3" '{
            upserts = committed + others
            printf "%s, %s upserts: %.2f ms for each 1,000\n", workload, upserts, $1 * 1000000 / upserts
        }'
}

for operations in 10000 100000; do
    restart f $operations 11000
    restart checked $operations 11000
done
for operations in 10 1000 10000; do
    restart first $operations 0
    restart undo $operations 0
done
operations=400000
bytes=$(((1024 * ($(resident a $operations) - $(resident base 0))) / operations))
printf 'resident memory: %s bytes for each of %s upserts\n' "$bytes" "$operations"
