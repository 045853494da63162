#!/bin/sh
# Usage: tests/built.sh [SHELL]. What no proved crate can try, since it starts other programs: the built shell (without
# SHELL the one that the gate has built) is killed amid scripts on a store (bench/kill.py, forty runs), opens damaged
# stores (bench/damage.py), lists in its help what docs/FORMATS.md lists (tests/help.sh), tells on standard error what it
# is to (tests/told.py), commits on a store that is copied meanwhile (tests/copied.py), and is two processes: joined by pipes
# (tests/halves.py), with a network between them (tests/network.py, ten runs), and so that one process does the same
# (tests/halves_drawn.py, twenty runs); and clients of an engine get their turns, and are killed on a store
# (tests/engine.py). First that docs/CONTRACTS.md is what the sources say. Takes a minute or two.
set -eu
cd "$(dirname "$0")/.."
python3 docs/contracts.py --check
shell=${1:-crates/undo_shell/out/undo_shell}
if [ ! -x "$shell" ]; then
    (cd crates/undo_shell && rt run -- run --help) >/dev/null
fi
python3 bench/kill.py "$shell" 40
python3 bench/damage.py "$shell"
tests/help.sh "$shell"
python3 tests/told.py "$shell"
python3 tests/copied.py "$shell"
python3 tests/halves.py "$shell"
python3 tests/network.py "$shell" 10 500
bench=crates/bench_node/out/bench_node
if [ ! -x "$bench" ]; then
    (cd crates/bench_node && rt run -- x one 0) >/dev/null
fi
python3 tests/engine.py "$bench" "$shell"
drawn=$(mktemp -d)
for seed in $(seq 20); do
    python3 tests/halves_drawn.py "$shell" "$drawn/run" "$seed"
done
rm -r "$drawn"
