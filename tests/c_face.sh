#!/bin/sh
# Usage: tests/c_face.sh [COUNT]. Compiles the programs in C with what `rt lib` has made of crates/jakumshe and compares
# what they print: the example; what the face refuses; and the example COUNT times, with its n-th growth refused in the
# n-th run, where it is to end by itself after a beginning of its text. The first two also run under gcc's checks of
# addresses, leaks and undefined behaviour.
set -eu
cd "$(dirname "$0")/.."
. tests/compile.sh
status=0
for checks in "" -fsanitize=address,undefined; do
    # No option has a space.
    # shellcheck disable=SC2086
    compile $checks -o "$folder/bank" examples/c/bank.c
    # shellcheck disable=SC2086
    compile $checks -o "$folder/face" tests/c_face.c
    "$folder/bank" | diff - examples/c/bank.out || status=1
    "$folder/face" || status=1
done

"${CC:-cc}" -O1 -shared -fPIC -o "$folder/refuse.so" tests/refuse.c
compile -o "$folder/bank" examples/c/bank.c
wrong=0
for n in $(seq 1 "${1:-300}"); do
    ended=0
    REFUSED=$n LD_PRELOAD="$folder/refuse.so" timeout 10 "$folder/bank" >"$folder/text" || ended=$?
    grep -v ': NoMemory$' "$folder/text" >"$folder/beginning" || true
    size=$(wc -c <"$folder/beginning")
    if [ "$ended" -gt 1 ] || ! head -c "$size" examples/c/bank.out | cmp -s - "$folder/beginning"; then
        echo "growth $n: status $ended"
        wrong=$((wrong + 1))
    fi
done
echo "${1:-300} growths refused: $wrong wrong"
[ "$wrong" = 0 ] || status=1
exit $status
