/*
 * Jakumshe for C: a transactional database of records in memory.
 *
 * A record is a key of 1 to 32 bytes with a value of 0 to 120 bytes. Keys are ordered by their bytes, a beginning
 * first. Clients read and change records in transactions, up to 64 at a time, each of which has a number. What a
 * transaction reads or changes is locked until it ends; a call that meets another's lock is refused JAKUMSHE_BUSY at
 * once, and waits for nothing.
 *
 * Each call returns a status: JAKUMSHE_DONE, or why it did nothing. Where it isn't JAKUMSHE_DONE, what a pointer was
 * given for is left as it was, and so are the records. There is one exception: JAKUMSHE_NO_MEMORY may be told of a
 * call that has begun. The next call then finishes it first, and its answer is lost. So roll the transaction back
 * then; where the call was jakumshe_commit and that is refused JAKUMSHE_NOT_OPEN, it has committed.
 *
 * A node takes its memory from malloc, and nothing outlives the process. What it has logged it keeps until it is closed
 * or renewed (jakumshe_renew): by itself at a commit that leaves no transaction open, where the log has 4 MB and twice
 * what the last renewal left, unless its field `keeps_log` says otherwise. Numbers of transactions begin anew in a renewed
 * node: who keeps the number of one that has ended may name another by it.
 * The library has no state beside its nodes, takes no lock, starts no thread, and calls nobody back.
 *
 * What is checked: each pointer for null, by the functions of this header; each length; and that a node is open. What
 * is trusted of the caller:
 *   - a struct jakumshe_node starts as JAKUMSHE_CLOSED_NODE and is neither written nor copied by anybody else; it may
 *     be closed and opened again, and one that isn't closed in the end leaks its node;
 *   - a pointer that isn't null points to as much memory as its type and the length beside it say, which nothing else
 *     writes during the call; the memory of two pointers of a call doesn't overlap, unless the call writes neither;
 *   - a node is used by one thread at a time: by any thread, where what orders its calls, as a mutex does, also orders
 *     their memory; not by a signal handler, nor by a child that was forked from a process with threads;
 *   - malloc, realloc and free are those of one allocator, and there is enough stack.
 *
 * Who can't use the functions of this header, as another language, finds them in the shared library that c/Makefile
 * makes. Those that begin with jakumshe_raw_ ask more of their caller: that no pointer is null, also where its length is
 * 0, and what the others do round them.
 */
#ifndef JAKUMSHE_H
#define JAKUMSHE_H

#include <stddef.h>
#include <stdint.h>

#ifdef __cplusplus
extern "C" {
#endif

#define JAKUMSHE_HEADER_VERSION "0.2.0"

/* How the functions of this header are defined: c/jakumshe_calls.c defines them for other languages to call. */
#ifndef JAKUMSHE_CALL
#define JAKUMSHE_CALL static inline
#endif

enum {
    JAKUMSHE_DONE = 0,

    /*
     * The kernel's refusals. The others, 4 to 6, 8, 9 and 15 to 18, tell of recovery and messages: a node that has
     * settled has no reason for them.
     */
    JAKUMSHE_NO_MEMORY = 1,     /* out of memory */
    JAKUMSHE_BUSY = 2,          /* another transaction holds a lock */
    JAKUMSHE_NOT_OPEN = 3,      /* no open transaction has this number */
    JAKUMSHE_BAD_SAVEPOINT = 7, /* the transaction has no such savepoint */
    JAKUMSHE_DEVICE = 10,       /* the system refused a call of a store */
    JAKUMSHE_EMPTY_KEY = 11,    /* a key has at least one byte */
    JAKUMSHE_TOO_LONG = 12,     /* a key has at most 32 bytes, a value at most 120 */
    JAKUMSHE_BAD_RANGE = 13,    /* the upper end of a range isn't above its lower end */
    JAKUMSHE_FULL = 14,         /* 64 transactions are open, or the transaction has 16 savepoints */
    JAKUMSHE_BAD_BYTES = 19,    /* the bytes that a node is to be opened on are no log */
    JAKUMSHE_SPENT = 20,        /* the log has 2^48 records */

    /* The library's own. */
    JAKUMSHE_NULL = 32,       /* a pointer is null */
    JAKUMSHE_CLOSED = 33,     /* the node is closed */
    JAKUMSHE_OPEN = 34,       /* the node is open already */
    JAKUMSHE_EXISTS = 35,     /* there is a record at the key */
    JAKUMSHE_NO_RECORD = 36,  /* there is no record at the key */
    JAKUMSHE_NOT_NUMBER = 37, /* the value at the key isn't of 8 bytes */
    JAKUMSHE_UNTOLD = 38,     /* the call was made and not answered: a fault of the library's */

    /* Of a log that a node is to be opened on, and of a store. */
    JAKUMSHE_WRONG_ANSWER = 39, /* an answer in the log isn't what its operation gets */
    JAKUMSHE_CHECKPOINT = 40,   /* the log tells of pages that aren't there */
    JAKUMSHE_DAMAGED = 41,      /* a block of the log's file isn't what was written */
    JAKUMSHE_LOCKED = 42,       /* another has the store open */
    JAKUMSHE_NOT_A_STORE = 43,  /* the folder has other files and is no store */
    JAKUMSHE_VERSION = 44,      /* the store is of another format or version */

    /* The library's own again. */
    JAKUMSHE_ACTIVE = 45, /* a transaction is open */
    JAKUMSHE_STORED = 46  /* the node is a store's: the call of jakumshe_store.h is meant */
};

#define JAKUMSHE_KEY_ROOM 32
#define JAKUMSHE_VALUE_ROOM 120
#define JAKUMSHE_HEAD_ROOM 32

/* How many bytes a log has at least that is renewed by itself. */
#define JAKUMSHE_LONG_LOG ((size_t)4 << 20)

/*
 * A place for one node. It starts as JAKUMSHE_CLOSED_NODE. What jakumshe_raw_ functions see of it is its first field. Of
 * the others only `keeps_log` is the caller's.
 */
struct jakumshe_node {
    void *private_to_the_library;
    int keeps_log; /* whether the log is renewed by jakumshe_renew and jakumshe_store_compact alone */
    int is_stored; /* whether a store keeps the log */
    size_t left;   /* how many bytes of log the last renewal left, or there were where one failed */
};

#define JAKUMSHE_CLOSED_NODE { NULL, 0, 0, 0 }

struct jakumshe_value {
    uint8_t length;
    uint8_t bytes[JAKUMSHE_VALUE_ROOM];
};

struct jakumshe_row {
    uint8_t key_length;
    uint8_t value_length;
    uint8_t key[JAKUMSHE_KEY_ROOM];
    uint8_t value[JAKUMSHE_VALUE_ROOM];
};

struct jakumshe_key {
    uint8_t length;
    uint8_t bytes[JAKUMSHE_KEY_ROOM];
};

/* What is left of a range that a transaction reads, as jakumshe_start has made it and jakumshe_next reads on. */
struct jakumshe_cursor {
    uint64_t txn;
    struct jakumshe_key low;  /* the rows that are left are at this key or above it */
    struct jakumshe_key high; /* and below this one, to the end where its length is 0 */
    int is_backward;          /* whether the last one is read next */
    int is_at_end;
};

/* Ended by a 0. */
struct jakumshe_name {
    char text[16];
};

/* The head of a block of a store's log. */
struct jakumshe_head {
    uint8_t bytes[JAKUMSHE_HEAD_ROOM];
};

/* What the library exports. These trust the caller in that no pointer is null. */
int jakumshe_raw_open(struct jakumshe_node *node);
int jakumshe_raw_close(struct jakumshe_node *node);
int jakumshe_raw_begin(struct jakumshe_node *node, uint64_t *txn);
int jakumshe_raw_insert(struct jakumshe_node *node, uint64_t txn, const uint8_t *key, size_t key_length,
                        const uint8_t *value, size_t value_length);
int jakumshe_raw_update(struct jakumshe_node *node, uint64_t txn, const uint8_t *key, size_t key_length,
                        const uint8_t *value, size_t value_length);
int jakumshe_raw_upsert(struct jakumshe_node *node, uint64_t txn, const uint8_t *key, size_t key_length,
                        const uint8_t *value, size_t value_length);
int jakumshe_raw_delete(struct jakumshe_node *node, uint64_t txn, const uint8_t *key, size_t key_length);
int jakumshe_raw_add(struct jakumshe_node *node, uint64_t txn, const uint8_t *key, size_t key_length, uint64_t amount);
int jakumshe_raw_get(struct jakumshe_node *node, uint64_t txn, const uint8_t *key, size_t key_length,
                     struct jakumshe_value *value);
int jakumshe_raw_scan(struct jakumshe_node *node, uint64_t txn, const uint8_t *low, size_t low_length,
                      const uint8_t *high, size_t high_length, size_t *count);
int jakumshe_raw_scan_part(struct jakumshe_node *node, uint64_t txn, const uint8_t *low, size_t low_length,
                           const uint8_t *high, size_t high_length, struct jakumshe_key *end, size_t *count);
int jakumshe_raw_scan_part_back(struct jakumshe_node *node, uint64_t txn, const uint8_t *low, size_t low_length,
                                const uint8_t *high, size_t high_length, struct jakumshe_key *begin, size_t *count);
int jakumshe_raw_page(struct jakumshe_node *node, struct jakumshe_row *rows, size_t room, size_t *count);
int jakumshe_raw_save(struct jakumshe_node *node, uint64_t txn, uint64_t *savepoint);
int jakumshe_raw_go_back(struct jakumshe_node *node, uint64_t txn, uint64_t savepoint);
int jakumshe_raw_roll_back(struct jakumshe_node *node, uint64_t txn);
int jakumshe_raw_commit(struct jakumshe_node *node, uint64_t txn);
int jakumshe_raw_unpack(uint8_t *file, size_t size, uint64_t number, size_t *length, size_t *end, uint64_t *sum);
int jakumshe_raw_open_on(struct jakumshe_node *node, const uint8_t *log, size_t length, size_t *kept);
int jakumshe_raw_log(struct jakumshe_node *node, size_t from, uint8_t *bytes, size_t room, size_t *length);
void jakumshe_raw_head(uint64_t *sum, uint64_t start, const uint8_t *bytes, size_t length, struct jakumshe_head *head);
int jakumshe_raw_renew(struct jakumshe_node *node, struct jakumshe_node *renewed);
int jakumshe_raw_replace(struct jakumshe_node *node, struct jakumshe_node *renewed);
void jakumshe_raw_name(int status, struct jakumshe_name *name);
void jakumshe_raw_version(struct jakumshe_name *version);

/* Whether there are bytes to read: a null pointer has none. */
JAKUMSHE_CALL int jakumshe_has(const void *bytes, size_t length)
{
    return bytes != NULL || length == 0;
}

JAKUMSHE_CALL const uint8_t *jakumshe_bytes(const void *bytes)
{
    return bytes != NULL ? (const uint8_t *)bytes : (const uint8_t *)"";
}

/* How many bytes of log the node has. Not for callers. */
JAKUMSHE_CALL size_t jakumshe_log_length(struct jakumshe_node *node)
{
    uint8_t none[1];
    size_t length = 0;
    return jakumshe_raw_log(node, 0, none, 0, &length) == JAKUMSHE_DONE ? length : 0;
}

/* Whether a log of so many bytes is to be renewed by itself. Not for callers. */
JAKUMSHE_CALL int jakumshe_is_due(const struct jakumshe_node *node, size_t length)
{
    return !node->keeps_log && length >= JAKUMSHE_LONG_LOG && length / 2 >= node->left;
}

/* A renewal of a log of so many bytes by itself ended so. One that failed isn't tried at once again. Not for callers. */
JAKUMSHE_CALL void jakumshe_tried(struct jakumshe_node *node, int status, size_t length)
{
    if (status != JAKUMSHE_DONE && status != JAKUMSHE_ACTIVE)
        node->left = length;
}

/* Makes a new node, without records, in a place that has none. Refused OPEN, NO_MEMORY. */
JAKUMSHE_CALL int jakumshe_open(struct jakumshe_node *node)
{
    if (node == NULL)
        return JAKUMSHE_NULL;
    int status = jakumshe_raw_open(node);
    if (status == JAKUMSHE_DONE)
        node->left = 0;
    return status;
}

/*
 * Frees the node with all its records, and lets its place be opened again. Refused CLOSED, as every call below is; STORED
 * where the node is a store's.
 */
JAKUMSHE_CALL int jakumshe_close(struct jakumshe_node *node)
{
    if (node == NULL)
        return JAKUMSHE_NULL;
    return node->is_stored ? JAKUMSHE_STORED : jakumshe_raw_close(node);
}

/* Begins a transaction and gives its number. Refused FULL where 64 are open. */
JAKUMSHE_CALL int jakumshe_begin(struct jakumshe_node *node, uint64_t *txn)
{
    return node != NULL && txn != NULL ? jakumshe_raw_begin(node, txn) : JAKUMSHE_NULL;
}

/* Puts a record where there is none. Refused EXISTS. The key stays locked then too, as with the next five. */
JAKUMSHE_CALL int jakumshe_insert(struct jakumshe_node *node, uint64_t txn, const void *key, size_t key_length,
                                  const void *value, size_t value_length)
{
    if (node == NULL || !jakumshe_has(key, key_length) || !jakumshe_has(value, value_length))
        return JAKUMSHE_NULL;
    return jakumshe_raw_insert(node, txn, jakumshe_bytes(key), key_length, jakumshe_bytes(value), value_length);
}

/* Gives the record that is there another value. Refused NO_RECORD. */
JAKUMSHE_CALL int jakumshe_update(struct jakumshe_node *node, uint64_t txn, const void *key, size_t key_length,
                                  const void *value, size_t value_length)
{
    if (node == NULL || !jakumshe_has(key, key_length) || !jakumshe_has(value, value_length))
        return JAKUMSHE_NULL;
    return jakumshe_raw_update(node, txn, jakumshe_bytes(key), key_length, jakumshe_bytes(value), value_length);
}

/* Puts the record, whether there is one or not. */
JAKUMSHE_CALL int jakumshe_upsert(struct jakumshe_node *node, uint64_t txn, const void *key, size_t key_length,
                                  const void *value, size_t value_length)
{
    if (node == NULL || !jakumshe_has(key, key_length) || !jakumshe_has(value, value_length))
        return JAKUMSHE_NULL;
    return jakumshe_raw_upsert(node, txn, jakumshe_bytes(key), key_length, jakumshe_bytes(value), value_length);
}

/* Removes the record that is there. Refused NO_RECORD. */
JAKUMSHE_CALL int jakumshe_delete(struct jakumshe_node *node, uint64_t txn, const void *key, size_t key_length)
{
    if (node == NULL || !jakumshe_has(key, key_length))
        return JAKUMSHE_NULL;
    return jakumshe_raw_delete(node, txn, jakumshe_bytes(key), key_length);
}

/*
 * Adds to the number that is there: a value of 8 bytes, the highest first. The sum runs round at 2^64. Transactions
 * that add to one key don't lock each other out. Refused NO_RECORD, NOT_NUMBER.
 */
JAKUMSHE_CALL int jakumshe_add(struct jakumshe_node *node, uint64_t txn, const void *key, size_t key_length,
                               uint64_t amount)
{
    if (node == NULL || !jakumshe_has(key, key_length))
        return JAKUMSHE_NULL;
    return jakumshe_raw_add(node, txn, jakumshe_bytes(key), key_length, amount);
}

/* Gives the value at the key. Refused NO_RECORD. */
JAKUMSHE_CALL int jakumshe_get(struct jakumshe_node *node, uint64_t txn, const void *key, size_t key_length,
                               struct jakumshe_value *value)
{
    if (node == NULL || !jakumshe_has(key, key_length) || value == NULL)
        return JAKUMSHE_NULL;
    return jakumshe_raw_get(node, txn, jakumshe_bytes(key), key_length, value);
}

/*
 * Reads the rows from the key `low` on, below the key `high`, or to the end where `high` has no bytes, and gives how
 * many there are. All of the range is locked. The node keeps the rows for jakumshe_page, some 160 bytes each, in place of
 * what is left of an earlier scan; jakumshe_start is for ranges of which that is too much. Refused BAD_RANGE.
 */
JAKUMSHE_CALL int jakumshe_scan(struct jakumshe_node *node, uint64_t txn, const void *low, size_t low_length,
                                const void *high, size_t high_length, size_t *count)
{
    if (node == NULL || !jakumshe_has(low, low_length) || !jakumshe_has(high, high_length) || count == NULL)
        return JAKUMSHE_NULL;
    return jakumshe_raw_scan(node, txn, jakumshe_bytes(low), low_length, jakumshe_bytes(high), high_length, count);
}

/*
 * Gives the next rows of the last scan, in the order of their keys, as many as there is room for, and how many these
 * are: fewer than there is room for, or none, where no more are left. They are as the scan has read them, whatever came
 * since.
 */
JAKUMSHE_CALL int jakumshe_page(struct jakumshe_node *node, struct jakumshe_row *rows, size_t room, size_t *count)
{
    if (node == NULL || rows == NULL || count == NULL)
        return JAKUMSHE_NULL;
    return jakumshe_raw_page(node, rows, room, count);
}

/* Puts a key, or none where the length is 0. Not for callers. */
JAKUMSHE_CALL void jakumshe_put_key(struct jakumshe_key *key, const uint8_t *bytes, size_t length)
{
    key->length = (uint8_t)length;
    for (size_t place = 0; place < length; place++)
        key->bytes[place] = bytes[place];
}

/* Less than 0, 0 or more as the one key is below the other, the same or above. Not for callers. */
JAKUMSHE_CALL int jakumshe_compare(const struct jakumshe_key *key, const struct jakumshe_key *other)
{
    for (int place = 0; place < key->length && place < other->length; place++)
        if (key->bytes[place] != other->bytes[place])
            return (int)key->bytes[place] - (int)other->bytes[place];
    return (int)key->length - (int)other->length;
}

/* Makes of a key the least one that is above all that begin with it; where there is none, of length 0. Not for callers. */
JAKUMSHE_CALL void jakumshe_leave(struct jakumshe_key *key)
{
    while (key->length > 0 && key->bytes[key->length - 1] == 255)
        key->length--;
    if (key->length > 0)
        key->bytes[key->length - 1]++;
}

/* Takes a row that was read, and all before it, from what is left of the cursor's range. Not for callers. */
JAKUMSHE_CALL void jakumshe_pass(struct jakumshe_cursor *cursor, const struct jakumshe_row *row)
{
    struct jakumshe_key *end = cursor->is_backward ? &cursor->high : &cursor->low;
    jakumshe_put_key(end, row->key, row->key_length);
    if (!cursor->is_backward && end->length < JAKUMSHE_KEY_ROOM)
        end->bytes[end->length++] = 0;
    else if (!cursor->is_backward)
        jakumshe_leave(end);
    cursor->is_at_end = end->length == 0
        || (cursor->high.length > 0 && jakumshe_compare(&cursor->low, &cursor->high) >= 0);
}

/* Reads the next part of a cursor's range, at most a leaf's, and gives where the rest of it ends. Not for callers. */
JAKUMSHE_CALL int jakumshe_read_part(struct jakumshe_node *node, const struct jakumshe_cursor *cursor,
                                     struct jakumshe_key *end, size_t *count)
{
    const struct jakumshe_key *low = &cursor->low, *high = &cursor->high;
    if (cursor->is_backward)
        return jakumshe_raw_scan_part_back(node, cursor->txn, low->bytes, low->length, high->bytes, high->length, end,
                                           count);
    return jakumshe_raw_scan_part(node, cursor->txn, low->bytes, low->length, high->bytes, high->length, end, count);
}

/* Moves the cursor to where a part of its range has ended. Not for callers. */
JAKUMSHE_CALL void jakumshe_go_on(struct jakumshe_cursor *cursor, const struct jakumshe_key *end)
{
    *(cursor->is_backward ? &cursor->high : &cursor->low) = *end;
    cursor->is_at_end = end->length == 0;
}

/*
 * Makes a cursor over the rows from the key `low` on, below the key `high`, or to the end where `high` has no bytes. It
 * asks nothing of a node. Refused EMPTY_KEY, TOO_LONG.
 */
JAKUMSHE_CALL int jakumshe_start(struct jakumshe_cursor *cursor, uint64_t txn, const void *low, size_t low_length,
                                 const void *high, size_t high_length)
{
    if (cursor == NULL || !jakumshe_has(low, low_length) || !jakumshe_has(high, high_length))
        return JAKUMSHE_NULL;
    if (low_length == 0)
        return JAKUMSHE_EMPTY_KEY;
    if (low_length > JAKUMSHE_KEY_ROOM || high_length > JAKUMSHE_KEY_ROOM)
        return JAKUMSHE_TOO_LONG;
    cursor->txn = txn;
    cursor->is_backward = 0;
    cursor->is_at_end = 0;
    jakumshe_put_key(&cursor->low, jakumshe_bytes(low), low_length);
    jakumshe_put_key(&cursor->high, jakumshe_bytes(high), high_length);
    return JAKUMSHE_DONE;
}

/*
 * Makes a cursor over the rows whose keys begin with these bytes: over all where there are none. It asks nothing of a
 * node. Refused TOO_LONG.
 */
JAKUMSHE_CALL int jakumshe_start_prefix(struct jakumshe_cursor *cursor, uint64_t txn, const void *prefix, size_t length)
{
    if (cursor == NULL || !jakumshe_has(prefix, length))
        return JAKUMSHE_NULL;
    int status = jakumshe_start(cursor, txn, length > 0 ? prefix : "", length > 0 ? length : 1, NULL, 0);
    if (status == JAKUMSHE_DONE && length > 0) {
        cursor->high = cursor->low;
        jakumshe_leave(&cursor->high);
    }
    return status;
}

/*
 * Turns a cursor: what is left of its range is read from its other end on, backward if it was read forward before, with
 * the keys falling, and forward if it was read backward.
 */
JAKUMSHE_CALL int jakumshe_turn(struct jakumshe_cursor *cursor)
{
    if (cursor == NULL)
        return JAKUMSHE_NULL;
    cursor->is_backward = !cursor->is_backward;
    return JAKUMSHE_DONE;
}

/*
 * Gives the next rows of a cursor's range, in the order of their keys, or in the other where it was turned, as many as
 * there is room for, and how many these are: none where no more are left; there may be fewer than there is room for
 * before. The node keeps no copy of them, but for what the last leaf has of the range. Of the range just what was read is
 * locked, until the transaction ends: so what was read stays as it is for others, and further on the rows are as they are
 * when they are read, with what the transaction itself has done since it made the cursor. That is still as if it had read
 * them all at its end. It takes the place of what is left of a jakumshe_scan. Refused BAD_RANGE, NOT_OPEN; BUSY where
 * another's lock is met, and then the cursor stays where it is, and may go on later.
 */
JAKUMSHE_CALL int jakumshe_next(struct jakumshe_node *node, struct jakumshe_cursor *cursor, struct jakumshe_row *rows,
                                size_t room, size_t *count)
{
    if (node == NULL || cursor == NULL || rows == NULL || count == NULL)
        return JAKUMSHE_NULL;
    size_t given = 0;
    while (given < room && !cursor->is_at_end) {
        struct jakumshe_key end;
        size_t there = 0, taken = 0;
        int status = jakumshe_read_part(node, cursor, &end, &there);
        if (status != JAKUMSHE_DONE && given == 0)
            return status;
        /* What refuses it then is told by the next call. */
        if (status != JAKUMSHE_DONE || jakumshe_raw_page(node, rows + given, room - given, &taken) != JAKUMSHE_DONE)
            break;
        given += taken;
        if (taken < there) {
            jakumshe_pass(cursor, &rows[given - 1]);
        } else {
            jakumshe_go_on(cursor, &end);
        }
    }
    *count = given;
    return JAKUMSHE_DONE;
}

/*
 * Gives how many rows are left of a cursor's range; the cursor stays where it is. All of them are locked. It takes the
 * place of what is left of a jakumshe_scan. Refused BAD_RANGE, NOT_OPEN, BUSY; then some of them may be locked.
 */
JAKUMSHE_CALL int jakumshe_count(struct jakumshe_node *node, const struct jakumshe_cursor *cursor, uint64_t *count)
{
    if (node == NULL || cursor == NULL || count == NULL)
        return JAKUMSHE_NULL;
    struct jakumshe_cursor left = *cursor;
    uint64_t found = 0;
    while (!left.is_at_end) {
        struct jakumshe_key end;
        size_t there = 0;
        int status = jakumshe_read_part(node, &left, &end, &there);
        if (status != JAKUMSHE_DONE)
            return status;
        found += there;
        jakumshe_go_on(&left, &end);
    }
    *count = found;
    return JAKUMSHE_DONE;
}

/* Sets a savepoint and gives its number, from 1 in each transaction. Refused FULL where the transaction has 16. */
JAKUMSHE_CALL int jakumshe_save(struct jakumshe_node *node, uint64_t txn, uint64_t *savepoint)
{
    return node != NULL && savepoint != NULL ? jakumshe_raw_save(node, txn, savepoint) : JAKUMSHE_NULL;
}

/* Undoes what the transaction did since the savepoint, which stays; later ones don't. Refused BAD_SAVEPOINT. */
JAKUMSHE_CALL int jakumshe_go_back(struct jakumshe_node *node, uint64_t txn, uint64_t savepoint)
{
    return node != NULL ? jakumshe_raw_go_back(node, txn, savepoint) : JAKUMSHE_NULL;
}

/* Undoes all that the transaction did, and ends it. */
JAKUMSHE_CALL int jakumshe_roll_back(struct jakumshe_node *node, uint64_t txn)
{
    return node != NULL ? jakumshe_raw_roll_back(node, txn) : JAKUMSHE_NULL;
}

/*
 * Lets go of what the node has logged, but for what makes its records. It takes time and memory by the records, and needs
 * memory for them twice until it is done. Refused ACTIVE where a transaction is open, NO_MEMORY; STORED where the node is
 * a store's.
 */
JAKUMSHE_CALL int jakumshe_renew(struct jakumshe_node *node)
{
    struct jakumshe_node renewed = JAKUMSHE_CLOSED_NODE;
    if (node == NULL)
        return JAKUMSHE_NULL;
    if (node->is_stored)
        return JAKUMSHE_STORED;
    int status = jakumshe_raw_renew(node, &renewed);
    if (status != JAKUMSHE_DONE)
        return status;
    (void)jakumshe_raw_replace(node, &renewed);
    node->left = jakumshe_log_length(node);
    return JAKUMSHE_DONE;
}

/* Ends the transaction: what it did stays. Refused STORED where the node is a store's. */
JAKUMSHE_CALL int jakumshe_commit(struct jakumshe_node *node, uint64_t txn)
{
    if (node == NULL)
        return JAKUMSHE_NULL;
    if (node->is_stored)
        return JAKUMSHE_STORED;
    int status = jakumshe_raw_commit(node, txn);
    if (status != JAKUMSHE_DONE)
        return status;
    size_t length = jakumshe_log_length(node);
    if (jakumshe_is_due(node, length))
        jakumshe_tried(node, jakumshe_renew(node), length);
    return status;
}

/* The name of a status. */
JAKUMSHE_CALL struct jakumshe_name jakumshe_name(int status)
{
    struct jakumshe_name name;
    jakumshe_raw_name(status, &name);
    return name;
}

/* The version of the library that is linked; JAKUMSHE_HEADER_VERSION is that of this header. */
JAKUMSHE_CALL struct jakumshe_name jakumshe_version(void)
{
    struct jakumshe_name version;
    jakumshe_raw_version(&version);
    return version;
}

/* Spells a number as a value to which jakumshe_add can add. */
JAKUMSHE_CALL void jakumshe_put_number(uint8_t bytes[8], uint64_t number)
{
    for (int place = 7; place >= 0; place--) {
        bytes[place] = (uint8_t)number;
        number >>= 8;
    }
}

/* The number that 8 bytes of a value spell. */
JAKUMSHE_CALL uint64_t jakumshe_number(const uint8_t bytes[8])
{
    uint64_t number = 0;
    for (int place = 0; place < 8; place++)
        number = number << 8 | bytes[place];
    return number;
}

#ifdef __cplusplus
}
#endif

#endif
