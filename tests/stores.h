/* What the tests of stores share: files below a folder, and a counter. */
#ifndef JAKUMSHE_TESTS_STORES_H
#define JAKUMSHE_TESTS_STORES_H

#include "jakumshe_store.h"

#include <fcntl.h>
#include <stdio.h>
#include <stdlib.h>
#include <unistd.h>

static inline char *below(const char *folder, const char *name)
{
    static char paths[4][4096];
    static int next;
    char *path = paths[next++ % 4];
    snprintf(path, sizeof paths[0], "%s/%s", folder, name);
    return path;
}

static inline void write_bytes(const char *path, const void *bytes, size_t length)
{
    int file = open(path, O_WRONLY | O_CREAT | O_TRUNC, 0666);
    if (file < 0 || write(file, bytes, length) != (ssize_t)length || close(file) != 0)
        abort();
}

static inline size_t read_file(const char *path, uint8_t *bytes, size_t room)
{
    int file = open(path, O_RDONLY);
    ssize_t length = file < 0 ? -1 : read(file, bytes, room);
    if (length < 0 || close(file) != 0)
        abort();
    return (size_t)length;
}

/* Adds 1 to the counter, and gives the sum. */
static inline int count_up(struct jakumshe_store *store, uint64_t *sum)
{
    uint64_t txn;
    struct jakumshe_value value;
    uint8_t none[8] = { 0 };
    int status = jakumshe_begin(&store->node, &txn);
    if (status != JAKUMSHE_DONE)
        return status;
    status = jakumshe_insert(&store->node, txn, "n", 1, none, sizeof none);
    if (status == JAKUMSHE_DONE || status == JAKUMSHE_EXISTS)
        status = jakumshe_add(&store->node, txn, "n", 1, 1);
    if (status == JAKUMSHE_DONE)
        status = jakumshe_get(&store->node, txn, "n", 1, &value);
    if (status != JAKUMSHE_DONE)
        return status;
    *sum = jakumshe_number(value.bytes);
    return jakumshe_store_commit(store, txn);
}

#endif
