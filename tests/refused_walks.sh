#!/bin/sh
# Usage: tests/refused_walks.sh COUNT PROGRAM. Runs PROGRAM, which is test_node, on COUNT random scripts four times, with
# growths refused at regular distances: to the node, which is given the event again then, or to the model, whose script is
# given up. Fails where a script differs. Needs a C compiler.
set -u
folder=$(mktemp -d)
trap 'rm -rf "$folder"' EXIT
"${CC:-cc}" -O1 -shared -fPIC -o "$folder/refuse.so" "$(dirname "$0")/refuse.c" || exit 2
wrong=0
for each in 9973 997 101 37; do
    REFUSED_EACH=$each LD_PRELOAD="$folder/refuse.so" "$2" 1 "$1" >"$folder/text"
    printf 'each %sth growth refused: %s\n' "$each" "$(tail -n 1 "$folder/text")"
    tail -n 1 "$folder/text" | grep -q ', 0 differ' || wrong=1
done
exit $wrong
