#!/bin/sh
# Usage: tests/c_store.sh [KILLS]. Compiles the programs in C that stand on a store, with what `rt lib` has made of
# crates/jakumshe, and compares: the example's first run on a new store and its second on the same; what the face of a
# store refuses, and compactions beside a table, also under gcc's checks of addresses, leaks and undefined behaviour; and
# the sum that a store has with the last one that was printed by a program that counts, one commit a number, and compacts
# the store after each third: after each of KILLS kills, after a kill at each call in turn that changes a file, and where
# each such call, and each growth, is refused in turn.
set -eu
cd "$(dirname "$0")/.."
. tests/compile.sh
status=0
compile -o "$folder/bank" examples/c/bank.c
"$folder/bank" "$folder/bank_store" | diff - examples/c/bank.out || status=1
"$folder/bank" "$folder/bank_store" | diff - examples/c/bank_again.out || status=1
for checks in "" -fsanitize=address,undefined; do
    # No option has a space.
    # shellcheck disable=SC2086
    compile $checks -o "$folder/store" tests/c_store.c
    # shellcheck disable=SC2086
    compile $checks -o "$folder/compact" tests/c_compact.c
    mkdir "$folder/faces" "$folder/faces/compact"
    "$folder/store" faces "$folder/faces" || status=1
    "$folder/compact" "$folder/faces/compact" || status=1
    rm -rf "$folder/faces"
done

compile -o "$folder/store" tests/c_store.c
wrong=0
killed=0
for n in $(seq 1 "${1:-20}"); do
    "$folder/store" pay "$folder/counter" 100000 3 >"$folder/told" &
    sleep "0.$(printf %02d $((n * 37 % 29)))"
    kill -9 $! 2>/dev/null && killed=$((killed + 1))
    wait $! 2>/dev/null || true
    told=$(tail -n 1 "$folder/told")
    sum=$("$folder/store" read "$folder/counter")
    if [ "$sum" -lt "${told:-0}" ] || [ "$sum" -gt $((${told:-${last:-0}} + 1)) ]; then
        echo "kill $n: told $told, found $sum"
        wrong=$((wrong + 1))
    fi
    last=$sum
done
echo "$killed kills, $sum commits: $wrong wrong"
[ "$wrong" = 0 ] || status=1

# Counts to 7 on a new store, stopped by a library at its n-th call or growth, of which it makes fewer than are tried.
# Whoever isn't killed counts to the end, but where its opening, or memory for a number, is refused.
"${CC:-cc}" -O1 -shared -fPIC -o "$folder/stop.so" tests/stop.c
"${CC:-cc}" -O1 -shared -fPIC -o "$folder/refuse.so" tests/refuse.c
count_stopped() {
    rm -rf "$folder/stopped"
    ended=0
    env "$1=$3" LD_PRELOAD="$folder/$2" timeout 10 "$folder/store" pay "$folder/stopped" 7 3 >"$folder/told" \
        2>"$folder/why" || ended=$?
    told=$(tail -n 1 "$folder/told")
    sum=$("$folder/store" read "$folder/stopped")
    if [ "$sum" -lt "${told:-0}" ] || [ "$sum" -gt $((${told:-0} + 1)) ] || { [ "$ended" = 1 ] &&
        ! grep -q -e '^open: ' -e ': NoMemory$' "$folder/why"; }; then
        echo "$1 $3: status $ended, told $told, found $sum"
        wrong=$((wrong + 1))
    fi
}
try_stops() {
    wrong=0
    for n in $(seq 1 "$3"); do
        count_stopped "$1" "$2" "$n"
    done
    echo "$3 runs $1: $wrong wrong, the last one ended $ended"
    [ "$wrong$ended" = 00 ] || status=1
}
try_stops KILLED stop.so 60
try_stops FAILED stop.so 60
try_stops REFUSED refuse.so 200
exit $status
