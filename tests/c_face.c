/* What the face for C refuses and gives: each line says the status that its call is to have. Prints those that have
 * another, and then how many had the right one. */
#include "expect.h"

#include <stdlib.h>
#include <string.h>

static void refuse_nulls(struct jakumshe_node *node, uint64_t txn)
{
    struct jakumshe_value value;
    struct jakumshe_row row;
    size_t count;
    uint64_t number;
    EXPECT(JAKUMSHE_NULL, jakumshe_open(NULL));
    EXPECT(JAKUMSHE_NULL, jakumshe_begin(NULL, &number));
    EXPECT(JAKUMSHE_NULL, jakumshe_begin(node, NULL));
    EXPECT(JAKUMSHE_NULL, jakumshe_insert(node, txn, NULL, 1, "1", 1));
    EXPECT(JAKUMSHE_NULL, jakumshe_insert(node, txn, "a", 1, NULL, 1));
    EXPECT(JAKUMSHE_NULL, jakumshe_update(NULL, txn, "a", 1, "1", 1));
    EXPECT(JAKUMSHE_NULL, jakumshe_upsert(node, txn, NULL, 1, "1", 1));
    EXPECT(JAKUMSHE_NULL, jakumshe_delete(node, txn, NULL, 1));
    EXPECT(JAKUMSHE_NULL, jakumshe_add(node, txn, NULL, 1, 1));
    EXPECT(JAKUMSHE_NULL, jakumshe_get(node, txn, NULL, 1, &value));
    EXPECT(JAKUMSHE_NULL, jakumshe_get(node, txn, "a", 1, NULL));
    EXPECT(JAKUMSHE_NULL, jakumshe_scan(node, txn, NULL, 1, NULL, 0, &count));
    EXPECT(JAKUMSHE_NULL, jakumshe_scan(node, txn, "a", 1, NULL, 1, &count));
    EXPECT(JAKUMSHE_NULL, jakumshe_scan(node, txn, "a", 1, NULL, 0, NULL));
    EXPECT(JAKUMSHE_NULL, jakumshe_page(node, NULL, 1, &count));
    EXPECT(JAKUMSHE_NULL, jakumshe_page(node, &row, 1, NULL));
    EXPECT(JAKUMSHE_NULL, jakumshe_save(node, txn, NULL));
    EXPECT(JAKUMSHE_NULL, jakumshe_go_back(NULL, txn, 1));
    EXPECT(JAKUMSHE_NULL, jakumshe_roll_back(NULL, txn));
    EXPECT(JAKUMSHE_NULL, jakumshe_commit(NULL, txn));
    EXPECT(JAKUMSHE_NULL, jakumshe_renew(NULL));
    EXPECT(JAKUMSHE_NULL, jakumshe_close(NULL));
}

static void refuse_closed(struct jakumshe_node *node)
{
    struct jakumshe_value value;
    struct jakumshe_row row;
    size_t count;
    uint64_t number;
    EXPECT(JAKUMSHE_CLOSED, jakumshe_begin(node, &number));
    EXPECT(JAKUMSHE_CLOSED, jakumshe_insert(node, 2, "a", 1, "1", 1));
    EXPECT(JAKUMSHE_CLOSED, jakumshe_update(node, 2, "a", 1, "1", 1));
    EXPECT(JAKUMSHE_CLOSED, jakumshe_upsert(node, 2, "a", 1, "1", 1));
    EXPECT(JAKUMSHE_CLOSED, jakumshe_delete(node, 2, "a", 1));
    EXPECT(JAKUMSHE_CLOSED, jakumshe_add(node, 2, "a", 1, 1));
    EXPECT(JAKUMSHE_CLOSED, jakumshe_get(node, 2, "a", 1, &value));
    EXPECT(JAKUMSHE_CLOSED, jakumshe_scan(node, 2, "a", 1, NULL, 0, &count));
    EXPECT(JAKUMSHE_CLOSED, jakumshe_page(node, &row, 1, &count));
    EXPECT(JAKUMSHE_CLOSED, jakumshe_save(node, 2, &number));
    EXPECT(JAKUMSHE_CLOSED, jakumshe_go_back(node, 2, 1));
    EXPECT(JAKUMSHE_CLOSED, jakumshe_roll_back(node, 2));
    EXPECT(JAKUMSHE_CLOSED, jakumshe_commit(node, 2));
    EXPECT(JAKUMSHE_CLOSED, jakumshe_renew(node));
    EXPECT(JAKUMSHE_CLOSED, jakumshe_close(node));
}

static void refuse_lengths(struct jakumshe_node *node, uint64_t txn)
{
    char text[121];
    struct jakumshe_value value;
    size_t count;
    memset(text, 'x', sizeof text);
    EXPECT(JAKUMSHE_EMPTY_KEY, jakumshe_insert(node, txn, NULL, 0, "1", 1));
    EXPECT(JAKUMSHE_EMPTY_KEY, jakumshe_scan(node, txn, "", 0, NULL, 0, &count));
    EXPECT(JAKUMSHE_TOO_LONG, jakumshe_insert(node, txn, text, 33, "1", 1));
    EXPECT(JAKUMSHE_TOO_LONG, jakumshe_insert(node, txn, "a", 1, text, 121));
    EXPECT(JAKUMSHE_TOO_LONG, jakumshe_scan(node, txn, "a", 1, text, 33, &count));
    EXPECT(JAKUMSHE_BAD_RANGE, jakumshe_scan(node, txn, "b", 1, "a", 1, &count));
    EXPECT(JAKUMSHE_DONE, jakumshe_insert(node, txn, text, 32, text, 120));
    EXPECT(JAKUMSHE_DONE, jakumshe_get(node, txn, text, 32, &value));
    EXPECT(120, value.length);
    EXPECT(0, memcmp(value.bytes, text, 120));
    EXPECT(JAKUMSHE_DONE, jakumshe_update(node, txn, text, 32, NULL, 0));
    EXPECT(JAKUMSHE_DONE, jakumshe_get(node, txn, text, 32, &value));
    EXPECT(0, value.length);
    EXPECT(JAKUMSHE_DONE, jakumshe_delete(node, txn, text, 32));
}

static void tell_answers(struct jakumshe_node *node, uint64_t txn)
{
    struct jakumshe_value value;
    uint64_t first, other;
    EXPECT(JAKUMSHE_DONE, jakumshe_insert(node, txn, "a", 1, "1", 1));
    EXPECT(JAKUMSHE_EXISTS, jakumshe_insert(node, txn, "a", 1, "2", 1));
    EXPECT(JAKUMSHE_NOT_NUMBER, jakumshe_add(node, txn, "a", 1, 1));
    EXPECT(JAKUMSHE_NO_RECORD, jakumshe_update(node, txn, "b", 1, "1", 1));
    EXPECT(JAKUMSHE_NO_RECORD, jakumshe_delete(node, txn, "b", 1));
    EXPECT(JAKUMSHE_NO_RECORD, jakumshe_add(node, txn, "b", 1, 1));
    EXPECT(JAKUMSHE_NO_RECORD, jakumshe_get(node, txn, "b", 1, &value));
    EXPECT(JAKUMSHE_DONE, jakumshe_upsert(node, txn, "b", 1, "1", 1));
    EXPECT(JAKUMSHE_DONE, jakumshe_upsert(node, txn, "b", 1, "2", 1));
    EXPECT(JAKUMSHE_BAD_SAVEPOINT, jakumshe_go_back(node, txn, 1));
    EXPECT(JAKUMSHE_DONE, jakumshe_save(node, txn, &first));
    EXPECT(1, (int)first);
    EXPECT(JAKUMSHE_DONE, jakumshe_delete(node, txn, "b", 1));
    EXPECT(JAKUMSHE_DONE, jakumshe_go_back(node, txn, first));
    EXPECT(JAKUMSHE_DONE, jakumshe_get(node, txn, "b", 1, &value));
    EXPECT('2', value.bytes[0]);
    EXPECT(JAKUMSHE_DONE, jakumshe_begin(node, &other));
    EXPECT(JAKUMSHE_BUSY, jakumshe_get(node, other, "a", 1, &value));
    EXPECT(JAKUMSHE_DONE, jakumshe_commit(node, txn));
    EXPECT(JAKUMSHE_NOT_OPEN, jakumshe_commit(node, txn));
    EXPECT(JAKUMSHE_DONE, jakumshe_get(node, other, "a", 1, &value));
    EXPECT(JAKUMSHE_DONE, jakumshe_delete(node, other, "a", 1));
    EXPECT(JAKUMSHE_DONE, jakumshe_roll_back(node, other));
    EXPECT(JAKUMSHE_NOT_OPEN, jakumshe_get(node, other, "a", 1, &value));
}

static void fill_up(struct jakumshe_node *node)
{
    uint64_t txns[64], txn, savepoint;
    for (int n = 0; n < 64; n++)
        EXPECT(JAKUMSHE_DONE, jakumshe_begin(node, &txns[n]));
    EXPECT(JAKUMSHE_FULL, jakumshe_begin(node, &txn));
    for (int n = 0; n < 16; n++)
        EXPECT(JAKUMSHE_DONE, jakumshe_save(node, txns[0], &savepoint));
    EXPECT(JAKUMSHE_FULL, jakumshe_save(node, txns[0], &savepoint));
    for (int n = 0; n < 64; n++)
        EXPECT(JAKUMSHE_DONE, jakumshe_roll_back(node, txns[n]));
}

/* A thousand records, which take many leaves, by pages of seven; what is left of a scan goes with the next one. */
static void turn_pages(struct jakumshe_node *node)
{
    uint8_t key[8];
    struct jakumshe_row rows[7];
    size_t count, found = 0;
    uint64_t txn;
    EXPECT(JAKUMSHE_DONE, jakumshe_page(node, rows, 7, &count));
    EXPECT(0, (int)count);
    EXPECT(JAKUMSHE_DONE, jakumshe_begin(node, &txn));
    for (uint64_t n = 0; n < 1000; n++) {
        jakumshe_put_number(key, n * 7919 % 1000);
        EXPECT(JAKUMSHE_DONE, jakumshe_insert(node, txn, key, 8, key + 6, 2));
    }
    EXPECT(JAKUMSHE_DONE, jakumshe_scan(node, txn, "\0", 1, "\1", 1, &count));
    EXPECT(1000, (int)count);
    EXPECT(JAKUMSHE_DONE, jakumshe_page(node, rows, 7, &count));
    EXPECT(7, (int)count);
    EXPECT(JAKUMSHE_DONE, jakumshe_scan(node, txn, "\0", 1, "\1", 1, &count));
    do {
        EXPECT(JAKUMSHE_DONE, jakumshe_page(node, rows, 7, &count));
        for (size_t row = 0; row < count; row++, found++) {
            EXPECT(8, rows[row].key_length);
            EXPECT((int)found, (int)jakumshe_number(rows[row].key));
            EXPECT(2, rows[row].value_length);
            EXPECT(0, memcmp(rows[row].value, rows[row].key + 6, 2));
        }
    } while (count == 7);
    EXPECT(1000, (int)found);
    EXPECT(JAKUMSHE_DONE, jakumshe_roll_back(node, txn));
}

/* How many bytes of log the node has. */
static int log_length(struct jakumshe_node *node)
{
    uint8_t none[1];
    size_t length = 0;
    EXPECT(JAKUMSHE_DONE, jakumshe_raw_log(node, 0, none, 0, &length));
    return (int)length;
}

/* A renewed node has its records and what is left of a scan, and a log of these alone: by docs/FORMATS.md those of Begin,
 * Commit and Session have 9, 17 and 9 bytes, and those of a row 46 more than its key and its value. */
static void renew(void)
{
    struct jakumshe_node node = JAKUMSHE_CLOSED_NODE, other = JAKUMSHE_CLOSED_NODE, third = JAKUMSHE_CLOSED_NODE;
    struct jakumshe_value value;
    struct jakumshe_row rows[3];
    uint64_t first, txn;
    size_t count;
    EXPECT(JAKUMSHE_DONE, jakumshe_open(&node));
    EXPECT(JAKUMSHE_DONE, jakumshe_renew(&node));
    EXPECT(JAKUMSHE_DONE, jakumshe_begin(&node, &first));
    EXPECT(JAKUMSHE_DONE, jakumshe_insert(&node, first, "a", 1, "one", 3));
    EXPECT(JAKUMSHE_DONE, jakumshe_insert(&node, first, "b", 1, "two", 3));
    EXPECT(JAKUMSHE_DONE, jakumshe_insert(&node, first, "c", 1, "three", 5));
    EXPECT(JAKUMSHE_ACTIVE, jakumshe_renew(&node));
    EXPECT(JAKUMSHE_DONE, jakumshe_commit(&node, first));
    EXPECT(JAKUMSHE_DONE, jakumshe_begin(&node, &txn));
    EXPECT(JAKUMSHE_DONE, jakumshe_delete(&node, txn, "a", 1));
    EXPECT(JAKUMSHE_DONE, jakumshe_update(&node, txn, "c", 1, "3", 1));
    EXPECT(JAKUMSHE_DONE, jakumshe_scan(&node, txn, "a", 1, NULL, 0, &count));
    EXPECT(JAKUMSHE_DONE, jakumshe_page(&node, rows, 1, &count));
    EXPECT(JAKUMSHE_DONE, jakumshe_roll_back(&node, txn));
    EXPECT(JAKUMSHE_OPEN, jakumshe_raw_renew(&other, &node));
    EXPECT(JAKUMSHE_CLOSED, jakumshe_raw_replace(&node, &other));
    EXPECT(JAKUMSHE_CLOSED, jakumshe_raw_replace(&other, &node));
    EXPECT(JAKUMSHE_CLOSED, jakumshe_raw_renew(&other, &third));
    EXPECT(JAKUMSHE_DONE, jakumshe_renew(&node));
    EXPECT(9 + 17 + 9 + 3 * 46 + 3 + 3 + 3 + 5, log_length(&node));
    EXPECT(JAKUMSHE_DONE, jakumshe_page(&node, rows, 3, &count));
    EXPECT(1, (int)count);
    EXPECT('c', rows[0].key[0]);
    EXPECT('3', rows[0].value[0]);
    EXPECT(JAKUMSHE_NOT_OPEN, jakumshe_get(&node, txn, "a", 1, &value));
    EXPECT(JAKUMSHE_DONE, jakumshe_begin(&node, &txn));
    EXPECT(JAKUMSHE_DONE, jakumshe_scan(&node, txn, "a", 1, NULL, 0, &count));
    EXPECT(3, (int)count);
    EXPECT(JAKUMSHE_DONE, jakumshe_page(&node, rows, 3, &count));
    EXPECT(0, memcmp(rows[0].value, "one", 3));
    EXPECT(0, memcmp(rows[1].value, "two", 3));
    EXPECT(0, memcmp(rows[2].value, "three", 5));
    EXPECT(JAKUMSHE_DONE, jakumshe_commit(&node, txn));
    EXPECT(JAKUMSHE_DONE, jakumshe_close(&node));
}

/* A log that grows by at least 48,000 bytes a transaction is renewed by itself, where nobody is left open and the caller
 * doesn't keep it. */
static void renew_by_itself(struct jakumshe_node *node, int keeps_log, int stays_open)
{
    char value[120];
    uint64_t txn, other;
    int length = 0, longest = 0;
    memset(value, 'v', sizeof value);
    node->keeps_log = keeps_log;
    EXPECT(JAKUMSHE_DONE, jakumshe_open(node));
    if (stays_open)
        EXPECT(JAKUMSHE_DONE, jakumshe_begin(node, &other));
    for (int n = 0; n < 110; n++) {
        EXPECT(JAKUMSHE_DONE, jakumshe_begin(node, &txn));
        for (int m = 0; m < 300; m++)
            EXPECT(JAKUMSHE_DONE, jakumshe_upsert(node, txn, "k", 1, value, sizeof value));
        EXPECT(JAKUMSHE_DONE, jakumshe_commit(node, txn));
        length = log_length(node);
        longest = length > longest ? length : longest;
    }
    EXPECT(keeps_log || stays_open, length == longest);
    EXPECT(keeps_log || stays_open, longest > (4 << 20) + 100000);
    if (stays_open)
        EXPECT(JAKUMSHE_DONE, jakumshe_commit(node, other));
    if (stays_open)
        EXPECT(keeps_log ? length + 17 : 9 + 17 + 9 + 46 + 1 + 120, log_length(node));
    EXPECT(JAKUMSHE_DONE, jakumshe_close(node));
}

enum { WALKED = 3000, LONGEST = 32 };

static uint64_t drawn(uint64_t below)
{
    static uint64_t state = 88172645463325252u;
    state ^= state << 13;
    state ^= state >> 7;
    state ^= state << 17;
    return state % below;
}

static int compare(const void *one, const void *other)
{
    return jakumshe_compare((const struct jakumshe_key *)one, (const struct jakumshe_key *)other);
}

/* A key of few letters, the least and the greatest among them, so that many are near one another. */
static struct jakumshe_key drawn_key(void)
{
    static const uint8_t letters[] = { 0, 1, 'a', 255 };
    struct jakumshe_key key;
    key.length = (uint8_t)(drawn(4) == 0 ? LONGEST : 1 + drawn(LONGEST));
    for (int place = 0; place < key.length; place++)
        key.bytes[place] = letters[drawn(32) < 28 ? 3 : drawn(4)];
    return key;
}

/* Puts records at so many keys that differ, and gives these in their order. */
static size_t fill(struct jakumshe_node *node, struct jakumshe_key *keys)
{
    uint64_t txn;
    size_t count = 0;
    EXPECT(JAKUMSHE_DONE, jakumshe_begin(node, &txn));
    for (int n = 0; n < WALKED; n++) {
        struct jakumshe_key key = drawn_key();
        int status = jakumshe_insert(node, txn, key.bytes, key.length, key.bytes, key.length);
        int is_there = 0;
        for (size_t other = 0; other < count; other++)
            is_there = is_there || compare(&keys[other], &key) == 0;
        EXPECT(is_there ? JAKUMSHE_EXISTS : JAKUMSHE_DONE, status);
        if (!is_there)
            keys[count++] = key;
    }
    EXPECT(JAKUMSHE_DONE, jakumshe_commit(node, txn));
    qsort(keys, count, sizeof keys[0], compare);
    return count;
}

/* Ranges by cursors, with room for one row up to many, beside the keys in their order. */
static void walk(void)
{
    static struct jakumshe_key keys[WALKED];
    struct jakumshe_node node = JAKUMSHE_CLOSED_NODE;
    struct jakumshe_cursor cursor;
    struct jakumshe_row rows[200];
    uint64_t txn;
    EXPECT(JAKUMSHE_DONE, jakumshe_open(&node));
    size_t count = fill(&node, keys), given = 0;
    EXPECT(1, count > WALKED / 2);
    for (int n = 0; n < 300; n++) {
        struct jakumshe_key low = drawn_key(), high = drawn_key();
        size_t room = n % 3 == 0 ? 1 + drawn(3) : 1 + drawn(200), place = 0;
        if (n % 5 == 0)
            high.length = 0;
        if (high.length > 0 && compare(&low, &high) >= 0)
            continue;
        while (place < count && compare(&keys[place], &low) < 0)
            place++;
        EXPECT(JAKUMSHE_DONE, jakumshe_begin(&node, &txn));
        EXPECT(JAKUMSHE_DONE, jakumshe_start(&cursor, txn, low.bytes, low.length, high.bytes, high.length));
        do {
            EXPECT(JAKUMSHE_DONE, jakumshe_next(&node, &cursor, rows, room, &given));
            for (size_t row = 0; row < given; row++, place++) {
                EXPECT(keys[place].length, rows[row].key_length);
                EXPECT(0, memcmp(keys[place].bytes, rows[row].key, rows[row].key_length));
                EXPECT(0, memcmp(keys[place].bytes, rows[row].value, rows[row].value_length));
            }
        } while (given > 0);
        EXPECT(1, place == count || (high.length > 0 && compare(&keys[place], &high) >= 0));
        EXPECT(JAKUMSHE_DONE, jakumshe_roll_back(&node, txn));
    }
    EXPECT(JAKUMSHE_DONE, jakumshe_close(&node));
}

/* What a cursor locks, and what it sees of what its own transaction and another do. */
static void walk_among_others(void)
{
    struct jakumshe_node node = JAKUMSHE_CLOSED_NODE;
    struct jakumshe_cursor cursor;
    struct jakumshe_row rows[2];
    uint64_t txn, other;
    size_t count = 7;
    EXPECT(JAKUMSHE_NULL, jakumshe_start(NULL, 1, "a", 1, NULL, 0));
    EXPECT(JAKUMSHE_NULL, jakumshe_start(&cursor, 1, NULL, 1, NULL, 0));
    EXPECT(JAKUMSHE_EMPTY_KEY, jakumshe_start(&cursor, 1, NULL, 0, NULL, 0));
    EXPECT(JAKUMSHE_TOO_LONG, jakumshe_start(&cursor, 1, "a", 1, "123456789012345678901234567890123", 33));
    EXPECT(JAKUMSHE_DONE, jakumshe_start(&cursor, 1, "b", 1, "a", 1));
    EXPECT(JAKUMSHE_CLOSED, jakumshe_next(&node, &cursor, rows, 2, &count));
    EXPECT(JAKUMSHE_DONE, jakumshe_open(&node));
    EXPECT(JAKUMSHE_NULL, jakumshe_next(&node, NULL, rows, 2, &count));
    EXPECT(JAKUMSHE_NULL, jakumshe_next(&node, &cursor, NULL, 2, &count));
    EXPECT(JAKUMSHE_NULL, jakumshe_next(&node, &cursor, rows, 2, NULL));
    EXPECT(JAKUMSHE_DONE, jakumshe_begin(&node, &txn));
    cursor.txn = txn;
    EXPECT(JAKUMSHE_BAD_RANGE, jakumshe_next(&node, &cursor, rows, 2, &count));
    EXPECT(7, (int)count);
    for (int key = 'a'; key < 'k'; key++) {
        uint8_t byte = (uint8_t)key;
        EXPECT(JAKUMSHE_DONE, jakumshe_insert(&node, txn, &byte, 1, "1", 1));
    }
    EXPECT(JAKUMSHE_DONE, jakumshe_commit(&node, txn));
    EXPECT(JAKUMSHE_DONE, jakumshe_begin(&node, &txn));
    EXPECT(JAKUMSHE_DONE, jakumshe_begin(&node, &other));
    EXPECT(JAKUMSHE_DONE, jakumshe_start(&cursor, txn, "a", 1, NULL, 0));
    EXPECT(JAKUMSHE_DONE, jakumshe_next(&node, &cursor, rows, 2, &count));
    EXPECT(2, (int)count);
    EXPECT('b', rows[1].key[0]);
    EXPECT(JAKUMSHE_DONE, jakumshe_delete(&node, txn, "c", 1));
    EXPECT(JAKUMSHE_DONE, jakumshe_insert(&node, txn, "ca", 2, "2", 1));
    EXPECT(JAKUMSHE_BUSY, jakumshe_update(&node, other, "a", 1, "2", 1));
    EXPECT(JAKUMSHE_DONE, jakumshe_next(&node, &cursor, rows, 1, &count));
    EXPECT(1, (int)count);
    EXPECT(0, memcmp(rows[0].key, "ca", 2));
    EXPECT(JAKUMSHE_DONE, jakumshe_commit(&node, other));
    EXPECT(JAKUMSHE_DONE, jakumshe_next(&node, &cursor, rows, 0, &count));
    EXPECT(0, (int)count);
    EXPECT(JAKUMSHE_DONE, jakumshe_next(&node, &cursor, rows, 2, &count));
    EXPECT('d', rows[0].key[0]);
    EXPECT(JAKUMSHE_DONE, jakumshe_commit(&node, txn));
    EXPECT(JAKUMSHE_NOT_OPEN, jakumshe_next(&node, &cursor, rows, 2, &count));
    EXPECT(JAKUMSHE_DONE, jakumshe_close(&node));
}

/* The keys from one on and below another, or those that begin with the first: a part of all keys, from `first` to `end`. */
struct part {
    struct jakumshe_key low, high;
    int is_prefix;
    size_t first, end;
};

static int is_in(const struct part *part, const struct jakumshe_key *key)
{
    if (part->is_prefix)
        return key->length >= part->low.length && memcmp(key->bytes, part->low.bytes, part->low.length) == 0;
    return compare(key, &part->low) >= 0 && (part->high.length == 0 || compare(key, &part->high) < 0);
}

static struct part drawn_part(const struct jakumshe_key *keys, size_t count)
{
    struct part part = { drawn_key(), drawn_key(), drawn(3) == 0, 0, 0 };
    if (part.is_prefix)
        part.low.length = (uint8_t)drawn(drawn(4) == 0 ? LONGEST + 1 : 3);
    else if (drawn(5) == 0 || compare(&part.low, &part.high) >= 0)
        part.high.length = 0;
    while (part.first < count && !is_in(&part, &keys[part.first]))
        part.first++;
    for (part.end = part.first; part.end < count && is_in(&part, &keys[part.end]);)
        part.end++;
    return part;
}

/* Takes the rows from the one end or the other of what is left of a part. */
static void take(struct part *part, const struct jakumshe_key *keys, int is_backward, const struct jakumshe_row *rows,
                 size_t given)
{
    for (size_t row = 0; row < given; row++) {
        EXPECT(1, part->first < part->end);
        const struct jakumshe_key *key = is_backward ? &keys[--part->end] : &keys[part->first++];
        EXPECT(key->length, rows[row].key_length);
        EXPECT(0, memcmp(key->bytes, rows[row].key, key->length));
        EXPECT(0, memcmp(key->bytes, rows[row].value, rows[row].value_length));
    }
}

/* Ranges and beginnings by cursors that are turned now and then, and counted, beside the keys in their order. */
static void walk_both_ways(void)
{
    static struct jakumshe_key keys[WALKED];
    struct jakumshe_node node = JAKUMSHE_CLOSED_NODE;
    struct jakumshe_cursor cursor;
    struct jakumshe_row rows[200];
    uint64_t txn, left = 0;
    EXPECT(JAKUMSHE_DONE, jakumshe_open(&node));
    size_t count = fill(&node, keys), given = 0;
    EXPECT(JAKUMSHE_DONE, jakumshe_begin(&node, &txn));
    for (int n = 0; n < 600; n++) {
        struct part part = drawn_part(keys, count);
        const struct jakumshe_key *low = &part.low, *high = &part.high;
        int is_backward = 0;
        size_t room = n % 3 == 0 ? 1 + drawn(3) : 1 + drawn(200);
        if (part.is_prefix)
            EXPECT(JAKUMSHE_DONE, jakumshe_start_prefix(&cursor, txn, low->bytes, low->length));
        else
            EXPECT(JAKUMSHE_DONE, jakumshe_start(&cursor, txn, low->bytes, low->length, high->bytes, high->length));
        do {
            if (drawn(2) == 0) {
                EXPECT(JAKUMSHE_DONE, jakumshe_turn(&cursor));
                is_backward = !is_backward;
            }
            EXPECT(JAKUMSHE_DONE, jakumshe_count(&node, &cursor, &left));
            EXPECT(1, left == part.end - part.first);
            EXPECT(JAKUMSHE_DONE, jakumshe_next(&node, &cursor, rows, room, &given));
            take(&part, keys, is_backward, rows, given);
        } while (given > 0);
        EXPECT(1, part.first == part.end);
    }
    EXPECT(JAKUMSHE_DONE, jakumshe_commit(&node, txn));
    EXPECT(JAKUMSHE_DONE, jakumshe_close(&node));
}

/* What calls on cursors refuse, and what a cursor that goes backward locks. */
static void walk_back_among_others(void)
{
    struct jakumshe_node node = JAKUMSHE_CLOSED_NODE;
    struct jakumshe_cursor cursor;
    struct jakumshe_row rows[2];
    uint64_t txn, other, left = 7;
    size_t count = 7;
    EXPECT(JAKUMSHE_NULL, jakumshe_start_prefix(NULL, 1, "a", 1));
    EXPECT(JAKUMSHE_NULL, jakumshe_start_prefix(&cursor, 1, NULL, 1));
    EXPECT(JAKUMSHE_TOO_LONG, jakumshe_start_prefix(&cursor, 1, "123456789012345678901234567890123", 33));
    EXPECT(JAKUMSHE_NULL, jakumshe_turn(NULL));
    EXPECT(JAKUMSHE_DONE, jakumshe_start_prefix(&cursor, 1, NULL, 0));
    EXPECT(JAKUMSHE_CLOSED, jakumshe_count(&node, &cursor, &left));
    EXPECT(JAKUMSHE_DONE, jakumshe_open(&node));
    EXPECT(JAKUMSHE_NULL, jakumshe_count(NULL, &cursor, &left));
    EXPECT(JAKUMSHE_NULL, jakumshe_count(&node, NULL, &left));
    EXPECT(JAKUMSHE_NULL, jakumshe_count(&node, &cursor, NULL));
    EXPECT(JAKUMSHE_NOT_OPEN, jakumshe_count(&node, &cursor, &left));
    EXPECT(JAKUMSHE_DONE, jakumshe_begin(&node, &txn));
    EXPECT(JAKUMSHE_DONE, jakumshe_begin(&node, &other));
    EXPECT(JAKUMSHE_DONE, jakumshe_start(&cursor, txn, "b", 1, "a", 1));
    EXPECT(JAKUMSHE_BAD_RANGE, jakumshe_count(&node, &cursor, &left));
    EXPECT(JAKUMSHE_DONE, jakumshe_turn(&cursor));
    EXPECT(JAKUMSHE_BAD_RANGE, jakumshe_next(&node, &cursor, rows, 2, &count));
    EXPECT(7, (int)left);
    EXPECT(7, (int)count);
    for (int key = 'a'; key < 'k'; key++) {
        uint8_t byte = (uint8_t)key;
        EXPECT(JAKUMSHE_DONE, jakumshe_insert(&node, txn, &byte, 1, "1", 1));
    }
    EXPECT(JAKUMSHE_DONE, jakumshe_commit(&node, txn));
    EXPECT(JAKUMSHE_DONE, jakumshe_begin(&node, &txn));
    EXPECT(JAKUMSHE_DONE, jakumshe_start(&cursor, txn, "c", 1, "i", 1));
    EXPECT(JAKUMSHE_DONE, jakumshe_turn(&cursor));
    EXPECT(JAKUMSHE_DONE, jakumshe_next(&node, &cursor, rows, 2, &count));
    EXPECT(2, (int)count);
    EXPECT('h', rows[0].key[0]);
    EXPECT('g', rows[1].key[0]);
    EXPECT(JAKUMSHE_BUSY, jakumshe_update(&node, other, "g", 1, "2", 1));
    EXPECT(JAKUMSHE_DONE, jakumshe_update(&node, other, "i", 1, "2", 1));
    EXPECT(JAKUMSHE_DONE, jakumshe_count(&node, &cursor, &left));
    EXPECT(4, (int)left);
    EXPECT(JAKUMSHE_BUSY, jakumshe_delete(&node, other, "c", 1));
    EXPECT(JAKUMSHE_DONE, jakumshe_commit(&node, txn));
    EXPECT(JAKUMSHE_NOT_OPEN, jakumshe_next(&node, &cursor, rows, 2, &count));
    EXPECT(JAKUMSHE_DONE, jakumshe_close(&node));
}

int main(void)
{
    struct jakumshe_node node = JAKUMSHE_CLOSED_NODE, other = JAKUMSHE_CLOSED_NODE;
    uint64_t txn;
    refuse_closed(&node);
    EXPECT(JAKUMSHE_DONE, jakumshe_open(&node));
    EXPECT(JAKUMSHE_OPEN, jakumshe_open(&node));
    EXPECT(JAKUMSHE_DONE, jakumshe_open(&other));
    EXPECT(JAKUMSHE_DONE, jakumshe_begin(&node, &txn));
    EXPECT(JAKUMSHE_NOT_OPEN, jakumshe_commit(&other, txn));
    refuse_nulls(&node, txn);
    refuse_lengths(&node, txn);
    tell_answers(&node, txn);
    fill_up(&node);
    turn_pages(&other);
    EXPECT(JAKUMSHE_DONE, jakumshe_close(&node));
    EXPECT(JAKUMSHE_DONE, jakumshe_close(&other));
    refuse_closed(&node);
    EXPECT(JAKUMSHE_DONE, jakumshe_open(&node));
    EXPECT(JAKUMSHE_DONE, jakumshe_close(&node));
    walk();
    walk_among_others();
    walk_both_ways();
    walk_back_among_others();
    renew();
    renew_by_itself(&node, 0, 0);
    renew_by_itself(&node, 0, 1);
    renew_by_itself(&node, 1, 0);
    renew_by_itself(&node, 1, 1);
    EXPECT(0, strcmp(jakumshe_name(JAKUMSHE_BUSY).text, "Busy"));
    EXPECT(0, strcmp(jakumshe_name(JAKUMSHE_NULL).text, "Null"));
    EXPECT(0, strcmp(jakumshe_name(JAKUMSHE_ACTIVE).text, "Active"));
    EXPECT(0, strcmp(jakumshe_name(JAKUMSHE_STORED).text, "Stored"));
    EXPECT(0, strcmp(jakumshe_name(-1).text, "Unknown"));
    EXPECT(0, strcmp(jakumshe_version().text, JAKUMSHE_HEADER_VERSION));
    printf("%d as they should be, %d not\n", right, wrong);
    return wrong != 0;
}
