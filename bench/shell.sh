#!/bin/sh
# Usage: bench/shell.sh. Proves and builds crates/undo_shell and measures it on scripts of 1,000, 10,000 and 100,000
# operations in transactions of ten, each answered before the next and every transaction rolled back. They are
# upserts, and then reads where no record is: in each transaction nine keys and a range of nine.
# Prints operations a second, each the best of five runs, and for both kinds the ratio of the last to the first. Last, how
# many bytes of resident memory each upsert with its compensation takes: what 400,000 take more than 1,000.
# The first line is the machine's.
set -eu
cd "$(dirname "$0")/../crates/undo_shell"
model=$(sed -n 's/^model name[^:]*: //p' /proc/cpuinfo | head -n 1)
printf 'machine: %s processors, %s\n' "$(nproc)" "$model"
folder=$(mktemp -d)
trap 'rm -rf "$folder"' EXIT
if ! rt run -- run --help >"$folder/log" 2>&1; then
    cat "$folder/log" >&2
    exit 1
fi

script() {
    awk -v kind="$1" -v operations="$2" 'BEGIN {
        print "settle"
        for (done = 0; done < operations; done += 10) {
            print "begin t"
            for (one = 0; one < 10; one++) {
                key = sprintf("k%d", (done + one) % 1000)
                if (kind == "upserts") print "upsert t " key, one
                else if (one < 9) print "get t " key
                else printf "scan t k%d %s\n", done % 1000, key
                print "settle"
            }
            print "rollback t\nsettle"
        }
    }'
}

best() {
    least=
    for run in 1 2 3 4 5; do
        before=$(date +%s%N)
        ./out/undo_shell run <"$1" >"$folder/text"
        took=$(($(date +%s%N) - before))
        if [ -z "$least" ] || [ "$took" -lt "$least" ]; then least=$took; fi
    done
    echo "$least"
}

for kind in upserts reads; do
    first=
    for operations in 1000 10000 100000; do
        script "$kind" "$operations" >"$folder/script"
        rate=$((operations * 1000000000 / $(best "$folder/script")))
        printf '%s %s: %s a second\n' "$operations" "$kind" "$rate"
        first=${first:-$rate}
    done
    awk -v kind="$kind" -v first="$first" -v last="$rate" \
        'BEGIN { printf "%s, ratio of the last to the first: %.2f\n", kind, last / first }'
done

resident() {
    script upserts "$1" >"$folder/script"
    command time -f %M -o "$folder/memory" ./out/undo_shell run <"$folder/script" >"$folder/text"
    cat "$folder/memory"
}

bytes=$(((1024 * ($(resident 400000) - $(resident 1000))) / 399000))
printf 'resident memory: %s bytes for each upsert with its compensation\n' "$bytes"
