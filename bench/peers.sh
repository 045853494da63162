#!/bin/sh
# Usage: bench/peers.sh FOLDER [RESULTS]. Proves and builds crates/bench_node and measures it beside other databases.
# FOLDER/run.sh measures them: it takes further programs by EXTRA (name=command; a program is called with NAME WORKLOAD
# N and prints the line that crates/bench_node/src/main.rt describes) and writes results.md into the folder RESULTS.
# REPS, SIZES, WORKLOADS and PEERS choose what is measured. Prints the table, in which g and h of `node` are those of the
# engine on three locks, of `monitor` those of the engine under one lock, and the rest a node's, all in memory; then the
# lines of one, the work of g by one session, of both engines. The first line is the machine's. With PROGRAM, a built
# bench_node, that is measured and nothing is built.
set -eu
folder=$(cd "$1" && pwd)
results=${2:-$(mktemp -d)}
mkdir -p "$results"
results=$(cd "$results" && pwd)
cd "$(dirname "$0")/../crates/bench_node"
model=$(sed -n 's/^model name[^:]*: //p' /proc/cpuinfo | head -n 1)
printf 'machine: %s processors, %s\n' "$(nproc)" "$model"
if [ -z "${PROGRAM:-}" ] && ! rt run >"$results/build" 2>&1; then
    cat "$results/build" >&2
    exit 1
fi
program=${PROGRAM:-$PWD/out/bench_node}
# It is handed no folder, so that an engine works in memory too.
printf '#!/bin/sh\nexec "%s" "$1" "$2" "$3"\n' "$program" >"$results/node"
printf '#!/bin/sh\nexec "%s" "$1" "monitor-$2" "$3"\n' "$program" >"$results/monitor"
chmod +x "$results/node" "$results/monitor"
EXTRA="node=$results/node;monitor=$results/monitor${EXTRA:+;$EXTRA}" RESULTS="$results" "$folder/run.sh"
cat "$results/results.md"
"$program" node one 100000
"$program" monitor monitor-one 100000
