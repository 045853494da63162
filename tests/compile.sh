# shellcheck shell=sh
# Sourced at the repository's top, after `rt lib` in crates/jakumshe: makes a folder, which is removed at the end, and
# defines `compile ARGUMENTS`, which links a program in C with the face for C and that library, or the one that
# JAKUMSHE_LIBRARY names.
folder=$(mktemp -d)
trap 'rm -rf "$folder"' EXIT
kit=$(dirname "$(rt doc)")
compile() {
    "${CC:-cc}" -std=c11 -pthread -Wall -Wextra -Wpedantic -Werror -O1 -g -Iinclude "$@" c/jakumshe_store.c \
        "${JAKUMSHE_LIBRARY:-crates/jakumshe/out/libjakumshe.a}" "$kit/c/liblibc_c.a"
}
