#!/bin/sh
# Compares each script of this folder and its output with the copy of it that the gate runs. Where a built shell is
# named, as crates/undo_shell/out/undo_shell, runs that on each script too and compares what it prints.
# Usage: examples/compare.sh [PROGRAM]
folder=$(dirname "$0")
copies=$folder/../crates/test_scripts/data
status=0
for script in "$folder"/*.script; do
    name=$(basename "$script" .script)
    for file in "$name.script" "$name.out"; do
        cmp "$folder/$file" "$copies/$file" || status=1
    done
    if [ $# -gt 0 ]; then
        "$1" run < "$script" | diff - "$folder/$name.out" || { echo "$script differs"; status=1; }
    fi
done
exit $status
