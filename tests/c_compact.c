/* Compaction of stores by the face for C. `c_compact FOLDER` makes stores below the folder, plays random transactions
 * beside a table of its own, and prints each line whose call has another status than that which the line says, or what
 * it compares differs, and then how many were right. */
#define _DEFAULT_SOURCE
#include "expect.h"
#include "stores.h"

#include <signal.h>
#include <string.h>
#include <sys/resource.h>
#include <sys/stat.h>

enum { KEYS = 300, ROOM = 1 << 20 };

/* What the store is to have: of each key the length of its value and the letter that this repeats, or less than 0. */
struct table {
    int length[KEYS];
    int letter[KEYS];
};

static uint64_t drawn(uint64_t below_this)
{
    static uint64_t state = 88172645463325252u;
    state ^= state << 13;
    state ^= state >> 7;
    state ^= state << 17;
    return state % below_this;
}

static void clear(struct table *table)
{
    for (int n = 0; n < KEYS; n++)
        table->length[n] = -1;
}

static void spell_key(char key[4], int n)
{
    for (int place = 3; place >= 0; place--, n /= 10)
        key[place] = (char)('0' + n % 10);
}

/* An operation on a key, with the answer that the table says. */
static void operate(struct jakumshe_node *node, uint64_t txn, struct table *table)
{
    char key[4], value[120];
    int n = (int)drawn(KEYS), length = (int)drawn(121), letter = 'a' + (int)drawn(26);
    int is_there = table->length[n] >= 0;
    spell_key(key, n);
    memset(value, letter, sizeof value);
    switch (drawn(4)) {
    case 0:
        EXPECT(is_there ? JAKUMSHE_DONE : JAKUMSHE_NO_RECORD, jakumshe_delete(node, txn, key, 4));
        length = -1;
        break;
    case 1:
        EXPECT(is_there ? JAKUMSHE_EXISTS : JAKUMSHE_DONE, jakumshe_insert(node, txn, key, 4, value, (size_t)length));
        if (is_there)
            return;
        break;
    default:
        EXPECT(JAKUMSHE_DONE, jakumshe_upsert(node, txn, key, 4, value, (size_t)length));
    }
    table->length[n] = length;
    table->letter[n] = letter;
}

/* So many transactions, of which each fourth is rolled back. */
static void play(struct jakumshe_store *store, struct table *table, int count)
{
    uint64_t txn;
    for (int n = 0; n < count; n++) {
        struct table changed = *table;
        EXPECT(JAKUMSHE_DONE, jakumshe_begin(&store->node, &txn));
        for (uint64_t left = drawn(8); left > 0; left--)
            operate(&store->node, txn, &changed);
        if (drawn(4) == 0) {
            EXPECT(JAKUMSHE_DONE, jakumshe_roll_back(&store->node, txn));
        } else {
            EXPECT(JAKUMSHE_DONE, jakumshe_store_commit(store, txn));
            *table = changed;
        }
    }
}

/* Compares all rows with the table. */
static void compare(struct jakumshe_node *node, const struct table *table)
{
    struct jakumshe_row row;
    char key[4], value[120];
    uint64_t txn;
    size_t count, rows = 0;
    EXPECT(JAKUMSHE_DONE, jakumshe_begin(node, &txn));
    EXPECT(JAKUMSHE_DONE, jakumshe_scan(node, txn, "0", 1, NULL, 0, &rows));
    for (int n = 0; n < KEYS; n++) {
        if (table->length[n] < 0)
            continue;
        rows--;
        spell_key(key, n);
        memset(value, table->letter[n], sizeof value);
        EXPECT(JAKUMSHE_DONE, jakumshe_page(node, &row, 1, &count));
        EXPECT(1, (int)count);
        EXPECT(0, memcmp(row.key, key, 4));
        EXPECT(table->length[n], row.value_length);
        EXPECT(0, memcmp(row.value, value, row.value_length));
    }
    EXPECT(0, (int)rows);
    EXPECT(JAKUMSHE_DONE, jakumshe_roll_back(node, txn));
}

/* The length of a log's file that has one block of the rows, by docs/STORE.md and docs/FORMATS.md: the block's head, the
 * frames of Begin, Commit and Session, and of each row those of its Op and its Answer. */
static int compacted_length(const struct table *table)
{
    int length = 32 + 9 + 17 + 9;
    for (int n = 0; n < KEYS; n++)
        if (table->length[n] >= 0)
            length += 46 + 4 + table->length[n];
    return length;
}

static int length_of(const char *path)
{
    struct stat found;
    return stat(path, &found) == 0 ? (int)found.st_size : -1;
}

static void open_again(struct jakumshe_store *store, const char *folder)
{
    EXPECT(JAKUMSHE_DONE, jakumshe_store_close(store));
    EXPECT(JAKUMSHE_DONE, jakumshe_store_open(store, folder));
}

/* Rounds of transactions and compactions: of a new store, of one that was opened again, of a compacted one. */
static void compact(const char *folder)
{
    static uint8_t once[ROOM], twice[ROOM];
    struct jakumshe_store store = JAKUMSHE_CLOSED_STORE;
    struct table table;
    char log[4096], path[4096];
    clear(&table);
    snprintf(path, sizeof path, "%s", below(folder, "rounds"));
    snprintf(log, sizeof log, "%s", below(folder, "rounds/log"));
    EXPECT(JAKUMSHE_DONE, jakumshe_store_open(&store, path));
    EXPECT(JAKUMSHE_DONE, jakumshe_store_compact(&store));
    EXPECT(compacted_length(&table), length_of(log));
    open_again(&store, path);
    for (int round = 0; round < 6; round++) {
        play(&store, &table, 60);
        compare(&store.node, &table);
        EXPECT(JAKUMSHE_DONE, jakumshe_store_compact(&store));
        EXPECT(compacted_length(&table), length_of(log));
        compare(&store.node, &table);
        size_t length = read_file(log, once, sizeof once);
        EXPECT(JAKUMSHE_DONE, jakumshe_store_compact(&store));
        EXPECT((int)length, (int)read_file(log, twice, sizeof twice));
        EXPECT(0, memcmp(once, twice, length));
        EXPECT(-1, length_of(below(folder, "rounds/log.new")));
        if (round % 2 == 0)
            open_again(&store, path);
        compare(&store.node, &table);
    }
    EXPECT(JAKUMSHE_DONE, jakumshe_store_close(&store));
}

/* What a transaction that is open refuses, and what of a scan and of numbers a compaction leaves. */
static void refuse(const char *folder)
{
    static uint8_t before[ROOM], after[ROOM];
    struct jakumshe_store store = JAKUMSHE_CLOSED_STORE;
    struct jakumshe_row rows[2];
    uint64_t txn, other, first;
    size_t count;
    EXPECT(JAKUMSHE_DONE, jakumshe_store_open(&store, below(folder, "refuses")));
    EXPECT(JAKUMSHE_DONE, jakumshe_begin(&store.node, &first));
    EXPECT(JAKUMSHE_DONE, jakumshe_insert(&store.node, first, "a", 1, "1", 1));
    EXPECT(JAKUMSHE_DONE, jakumshe_insert(&store.node, first, "b", 1, "2", 1));
    EXPECT(JAKUMSHE_DONE, jakumshe_store_commit(&store, first));
    EXPECT(JAKUMSHE_DONE, jakumshe_begin(&store.node, &txn));
    EXPECT(JAKUMSHE_DONE, jakumshe_delete(&store.node, txn, "a", 1));
    size_t length = read_file(below(folder, "refuses/log"), before, sizeof before);
    EXPECT(JAKUMSHE_ACTIVE, jakumshe_store_compact(&store));
    EXPECT(JAKUMSHE_DONE, jakumshe_begin(&store.node, &other));
    EXPECT(JAKUMSHE_DONE, jakumshe_roll_back(&store.node, txn));
    EXPECT(JAKUMSHE_ACTIVE, jakumshe_store_compact(&store));
    EXPECT((int)length, (int)read_file(below(folder, "refuses/log"), after, sizeof after));
    EXPECT(0, memcmp(before, after, length));
    EXPECT(-1, length_of(below(folder, "refuses/log.new")));
    EXPECT(JAKUMSHE_DONE, jakumshe_scan(&store.node, other, "a", 1, NULL, 0, &count));
    EXPECT(2, (int)count);
    EXPECT(JAKUMSHE_DONE, jakumshe_page(&store.node, rows, 1, &count));
    EXPECT('a', rows[0].key[0]);
    EXPECT(JAKUMSHE_STORED, jakumshe_commit(&store.node, other));
    EXPECT(JAKUMSHE_DONE, jakumshe_store_commit(&store, other));
    EXPECT(JAKUMSHE_DONE, jakumshe_store_compact(&store));
    EXPECT(JAKUMSHE_DONE, jakumshe_page(&store.node, rows, 2, &count));
    EXPECT(1, (int)count);
    EXPECT('b', rows[0].key[0]);
    EXPECT(JAKUMSHE_DONE, jakumshe_store_close(&store));
}

/* A disk that is full for a while. */
static void fill_disk(const char *folder)
{
    static uint8_t before[ROOM], after[ROOM];
    struct jakumshe_store store = JAKUMSHE_CLOSED_STORE;
    struct rlimit usual, full;
    struct table table;
    char log[4096];
    clear(&table);
    snprintf(log, sizeof log, "%s", below(folder, "full/log"));
    signal(SIGXFSZ, SIG_IGN);
    EXPECT(JAKUMSHE_DONE, jakumshe_store_open(&store, below(folder, "full")));
    play(&store, &table, 300);
    size_t length = read_file(log, before, sizeof before);
    EXPECT(0, getrlimit(RLIMIT_FSIZE, &usual));
    full = usual;
    for (int room = 0; room < compacted_length(&table); room += 1111) {
        full.rlim_cur = (rlim_t)room;
        EXPECT(0, setrlimit(RLIMIT_FSIZE, &full));
        EXPECT(JAKUMSHE_DEVICE, jakumshe_store_compact(&store));
        EXPECT(-1, length_of(below(folder, "full/log.new")));
    }
    EXPECT(0, setrlimit(RLIMIT_FSIZE, &usual));
    EXPECT((int)length, (int)read_file(log, after, sizeof after));
    EXPECT(0, memcmp(before, after, length));
    compare(&store.node, &table);
    play(&store, &table, 10);
    open_again(&store, below(folder, "full"));
    compare(&store.node, &table);
    EXPECT(JAKUMSHE_DONE, jakumshe_store_compact(&store));
    EXPECT(compacted_length(&table), length_of(log));
    open_again(&store, below(folder, "full"));
    compare(&store.node, &table);
    EXPECT(JAKUMSHE_DONE, jakumshe_store_close(&store));
}

/* What stands at `log.new`: an opening leaves it alone, and a compaction takes it away unread, if it isn't a folder. */
static void find_new_log(const char *folder)
{
    struct jakumshe_store store = JAKUMSHE_CLOSED_STORE;
    struct table table;
    struct stat found;
    char path[4096], log[4096], new_log[4096], other[4096];
    static uint8_t bytes[ROOM];
    clear(&table);
    snprintf(path, sizeof path, "%s", below(folder, "left"));
    snprintf(log, sizeof log, "%s", below(folder, "left/log"));
    snprintf(new_log, sizeof new_log, "%s", below(folder, "left/log.new"));
    snprintf(other, sizeof other, "%s", below(folder, "other"));
    EXPECT(JAKUMSHE_DONE, jakumshe_store_open(&store, path));
    play(&store, &table, 50);
    EXPECT(0, chmod(log, 0600));
    for (int kind = 0; kind < 5; kind++) {
        memset(bytes, 0xa5, sizeof bytes);
        write_bytes(other, "text", 4);
        if (kind == 0)
            write_bytes(new_log, bytes, sizeof bytes);
        else if (kind == 1)
            EXPECT(0, link(log, new_log));
        else if (kind == 2)
            EXPECT(0, symlink(other, new_log));
        else if (kind == 3)
            EXPECT(0, mkfifo(new_log, 0666));
        else
            EXPECT(0, mkdir(new_log, 0777));
        open_again(&store, path);
        compare(&store.node, &table);
        play(&store, &table, 5);
        EXPECT(kind < 4 ? JAKUMSHE_DONE : JAKUMSHE_DEVICE, jakumshe_store_compact(&store));
        EXPECT(4, (int)read_file(other, bytes, sizeof bytes));
        EXPECT(0, stat(log, &found));
        EXPECT(0600, (int)found.st_mode & 0777);
        if (kind < 4)
            EXPECT(compacted_length(&table), length_of(log));
        compare(&store.node, &table);
    }
    EXPECT(0, rmdir(new_log));
    EXPECT(JAKUMSHE_DONE, jakumshe_store_compact(&store));
    EXPECT(JAKUMSHE_DONE, jakumshe_store_close(&store));
}

/* Each byte of a compacted log's file is changed in turn. */
static void damage(const char *folder)
{
    static uint8_t bytes[ROOM];
    struct jakumshe_store store = JAKUMSHE_CLOSED_STORE;
    struct table table;
    char path[4096], log[4096];
    clear(&table);
    snprintf(path, sizeof path, "%s", below(folder, "damaged"));
    snprintf(log, sizeof log, "%s", below(folder, "damaged/log"));
    EXPECT(JAKUMSHE_DONE, jakumshe_store_open(&store, path));
    play(&store, &table, 8);
    EXPECT(JAKUMSHE_DONE, jakumshe_store_compact(&store));
    play(&store, &table, 2);
    EXPECT(JAKUMSHE_DONE, jakumshe_store_close(&store));
    size_t length = read_file(log, bytes, sizeof bytes);
    for (size_t place = 0; place < length; place++) {
        bytes[place] ^= 16;
        write_bytes(log, bytes, length);
        EXPECT(JAKUMSHE_DAMAGED, jakumshe_store_open(&store, path));
        bytes[place] ^= 16;
    }
    write_bytes(log, bytes, length);
    EXPECT(JAKUMSHE_DONE, jakumshe_store_open(&store, path));
    compare(&store.node, &table);
    EXPECT(JAKUMSHE_DONE, jakumshe_store_close(&store));
}

/* A transaction of so many upserts at one key, each of which takes at least 200 bytes of log. */
static void upsert(struct jakumshe_store *store, int count)
{
    uint64_t txn;
    char value[120];
    memset(value, 'x', sizeof value);
    EXPECT(JAKUMSHE_DONE, jakumshe_begin(&store->node, &txn));
    for (int n = 0; n < count; n++)
        EXPECT(JAKUMSHE_DONE, jakumshe_upsert(&store->node, txn, "key", 3, value, sizeof value));
    EXPECT(JAKUMSHE_DONE, jakumshe_store_commit(store, txn));
}

/* By itself: at a commit that leaves nobody open, at an opening, and not at all where the log is to be kept. */
static void compact_by_itself(const char *folder)
{
    struct jakumshe_store store = JAKUMSHE_CLOSED_STORE;
    uint64_t txn;
    char path[4096], log[4096];
    int longest = 0, length = 0;
    snprintf(path, sizeof path, "%s", below(folder, "itself"));
    snprintf(log, sizeof log, "%s", below(folder, "itself/log"));
    EXPECT(JAKUMSHE_DONE, jakumshe_store_open(&store, path));
    for (int n = 0; n < 300; n++) {
        upsert(&store, 100);
        length = length_of(log);
        longest = length > longest ? length : longest;
    }
    EXPECT(1, longest > 4150000 && longest < 4300000);
    EXPECT(1, length < 4150000);

    EXPECT(JAKUMSHE_DONE, jakumshe_begin(&store.node, &txn));
    for (int n = 0; n < 300; n++)
        upsert(&store, 100);
    EXPECT(1, length_of(log) > 6000000);
    EXPECT(JAKUMSHE_DONE, jakumshe_store_commit(&store, txn));
    EXPECT(32 + 9 + 17 + 9 + 46 + 3 + 120, length_of(log));

    store.node.keeps_log = 1;
    for (int n = 0; n < 300; n++)
        upsert(&store, 100);
    EXPECT(1, length_of(log) > 6000000);
    open_again(&store, path);
    EXPECT(1, length_of(log) > 6000000);
    EXPECT(JAKUMSHE_DONE, jakumshe_store_close(&store));
    store.node.keeps_log = 0;
    EXPECT(JAKUMSHE_DONE, jakumshe_store_open(&store, path));
    EXPECT(32 + 9 + 17 + 9 + 46 + 3 + 120, length_of(log));
    upsert(&store, 1);
    EXPECT(JAKUMSHE_DONE, jakumshe_store_close(&store));
}

int main(int count, char **words)
{
    if (count != 2) {
        fprintf(stderr, "usage: c_compact FOLDER\n");
        return 2;
    }
    compact(words[1]);
    refuse(words[1]);
    fill_disk(words[1]);
    find_new_log(words[1]);
    damage(words[1]);
    compact_by_itself(words[1]);
    printf("%d right, %d wrong\n", right, wrong);
    return wrong != 0;
}
