#!/bin/sh
# Usage: tests/refused_pool.sh FIRST STEP LAST PROGRAM. Runs PROGRAM, which is test_pool, once for each n from FIRST
# to LAST by STEP, with the n-th growth refused; then with growths refused at regular distances, first those of all
# threads, then those of all but the first, which judges the others. Each run must end by itself, within ten minutes,
# and no case may differ. Prints in how many runs all cases agreed and in how many some gave up. Needs a C compiler.
set -u
folder=$(mktemp -d)
trap 'rm -rf "$folder"' EXIT
"${CC:-cc}" -O1 -shared -fPIC -o "$folder/refuse.so" "$(dirname "$0")/refuse.c" || exit 2
cp "$(dirname "$0")"/../crates/test_pool/data/* "$folder" || exit 2
case $4 in
/*) program=$4 ;;
*) program=$PWD/$4 ;;
esac
cd "$folder" || exit 2
agree=0
given_up=0
wrong=0
# One run with these variables. Without a line it gave up before its first case.
run() {
    timeout 600 env "$@" LD_PRELOAD="$folder/refuse.so" "$program" >text 2>errors
    status=$?
    line=$(tail -n 1 text)
    case $status:$line in
    0:*' agree, 0 differ') agree=$((agree + 1)) ;;
    0:*' agree, 0 differ, '*' gave up' | 1:) given_up=$((given_up + 1)) ;;
    *)
        wrong=$((wrong + 1))
        echo "$*: status $status, $(cat text)"
        ;;
    esac
}
for n in $(seq "$1" "$2" "$3"); do
    run "REFUSED=$n"
done
for each in 9973 997 101 37; do
    run "REFUSED_EACH=$each"
    echo "each ${each}th growth refused: $line"
    run "REFUSED_EACH=$each" REFUSED_BESIDE=1
    echo "each ${each}th growth beside the first thread refused: $line"
done
echo "$((agree + given_up + wrong)) runs: all agree in $agree, some gave up in $given_up, $wrong wrong"
[ "$wrong" = 0 ]
