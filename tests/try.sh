#!/bin/sh
# Runs programs of tests before any proof, each with the files of its folder data/, and compares what it prints with its
# file stdout. Usage: tests/try.sh [NAME..]; without a name all of them. Takes about a minute each on a fresh machine.
set -eu
cd "$(dirname "$0")/../crates"
[ $# -gt 0 ] || set -- test_records test_logs test_leaves test_dc test_tc test_node test_scripts test_shell test_stores test_pool
status=0
for name in "$@"; do
    cd "$name"
    given=
    words=
    for file in data/*; do
        [ -f "$file" ] && given="$given --data $(basename "$file")=$file"
    done
    [ -f args ] && words="-- $(tr '\n' ' ' <args)"
    # No name of a file has a space, and neither has a word.
    # shellcheck disable=SC2086
    if rt try --seconds 500 $given $words 2>&1 | sed '/^checked: /,$d' | diff - stdout; then
        echo "$name: as it should be"
    else
        status=1
    fi
    cd ..
done
exit $status
