#!/bin/sh
# Usage: tests/help.sh [SHELL]. Compares the lines of a script that `undo_shell run --help` lists with those in
# docs/FORMATS.md, each by its form (`insert T K V`). SHELL is a built undo_shell; without it one is built by rt try.
set -eu
cd "$(dirname "$0")/.."
folder=$(mktemp -d)
trap 'rm -rf "$folder"' EXIT
if [ $# -gt 0 ]; then
    "$1" run --help >"$folder/help"
else
    (cd crates/undo_shell && rt try -- run --help) >"$folder/help"
fi
# A line's form ends where two spaces or more stand; what it does goes on behind more of them.
sed -n 's/^  \([a-z][^ ]*\( [^ ][^ ]*\)*\)  .*/\1/p' "$folder/help" | sort >"$folder/helped"
# The forms in the first column of the table of lines.
sed -n '/^| Line | What it is/,/^$/p' docs/FORMATS.md | cut -d '|' -f 2 | grep -o '`[^`]*`' | tr -d '`' | sort >"$folder/listed"
diff "$folder/helped" "$folder/listed"
echo "$(wc -l <"$folder/helped") lines of a script: the help and docs/FORMATS.md list the same"
