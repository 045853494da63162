#!/bin/sh
# Usage: tests/refused.sh COUNT PROGRAM [WORD..] [<INPUT]. Runs the program with these words COUNT times; in the n-th run
# its n-th growth is refused. Each run must end by itself, within ten seconds and by no signal; and where its last line is
# `no 1 NoMemory`, what stands before must be what the undisturbed run begins with. Prints how many runs wrote the same
# as the undisturbed one, how many gave up, and how many were wrong. Needs a C compiler.
set -u
count=$1
shift
folder=$(mktemp -d)
trap 'rm -rf "$folder"' EXIT
"${CC:-cc}" -O1 -shared -fPIC -o "$folder/refuse.so" "$(dirname "$0")/refuse.c" || exit 2
cat >"$folder/input" </dev/stdin
"$@" <"$folder/input" >"$folder/wanted" || exit 2
same=0
given_up=0
wrong=0
for n in $(seq 1 "$count"); do
    REFUSED=$n LD_PRELOAD="$folder/refuse.so" timeout 10 "$@" <"$folder/input" >"$folder/text" 2>"$folder/errors"
    status=$?
    sed '$!b
/^no 1 NoMemory$/d' "$folder/text" >"$folder/beginning"
    size=$(wc -c <"$folder/beginning")
    if cmp -s "$folder/text" "$folder/wanted"; then
        same=$((same + 1))
    elif [ "$status" -ge 124 ]; then
        wrong=$((wrong + 1))
        echo "growth $n: status $status"
    elif ! cmp -s "$folder/text" "$folder/beginning" && ! head -c "$size" "$folder/wanted" | cmp -s - "$folder/beginning"; then
        wrong=$((wrong + 1))
        echo "growth $n: the text begins with something else"
    else
        given_up=$((given_up + 1))
    fi
done
echo "$count runs: $same the same, $given_up given up, $wrong wrong"
[ "$wrong" = 0 ]
