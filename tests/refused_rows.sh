#!/bin/sh
# Usage: tests/refused_rows.sh COUNT PROGRAM. Runs each script that crates/test_scripts/data/crashed_scripts names COUNT
# times by PROGRAM, which is undo_shell; in the n-th run the n-th growth is refused (tests/refused.sh).
set -u
here=$(dirname "$0")
data=$here/../crates/test_scripts/data
wrong=0
while read -r name; do
    printf '%s: ' "$name"
    sh "$here/refused.sh" "$1" "$2" run <"$data/$name.script" || wrong=1
done <"$data/crashed_scripts"
exit "$wrong"
