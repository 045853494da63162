#!/bin/sh
# Compares each script of this folder, its text and its picture with the copy of them that the gate compares. Where a
# built shell is named, as crates/undo_shell/out/undo_shell, has it explain and draw each script too.
# Usage: examples/pictures/compare.sh [PROGRAM]
folder=$(dirname "$0")
copies=$folder/../../crates/test_scripts/data
status=0
for script in "$folder"/*.script; do
    name=$(basename "$script" .script)
    cmp "$script" "$copies/$name.drawn" || status=1
    for file in "$name.txt" "$name.svg"; do
        cmp "$folder/$file" "$copies/$file" || status=1
    done
    if [ $# -gt 0 ]; then
        "$1" explain < "$script" | cmp - "$folder/$name.txt" || status=1
        "$1" draw < "$script" | cmp - "$folder/$name.svg" || status=1
    fi
done
exit $status
