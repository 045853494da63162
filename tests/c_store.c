/* Stores of the face for C. `c_store faces FOLDER` makes stores below the folder, and prints each line whose call has
 * another status than that which the line says, and then how many had the right one. `c_store pay FOLDER N [EACH]` adds 1
 * to a counter N times, each time in a transaction of its own, and prints the sum once that is committed; where EACH is
 * given the store is compacted after each so many. `c_store read FOLDER` prints the sum alone. */
#define _DEFAULT_SOURCE
#include "expect.h"
#include "stores.h"

#include <inttypes.h>
#include <pthread.h>
#include <signal.h>
#include <stdio.h>
#include <stdlib.h>
#include <string.h>
#include <sys/resource.h>
#include <sys/stat.h>

static void write_file(const char *path, const char *text)
{
    write_bytes(path, text, strlen(text));
}

static void refuse_calls(const char *folder)
{
    struct jakumshe_store store = JAKUMSHE_CLOSED_STORE, other = JAKUMSHE_CLOSED_STORE;
    uint64_t sum = 0;
    EXPECT(JAKUMSHE_NULL, jakumshe_store_open(NULL, folder));
    EXPECT(JAKUMSHE_NULL, jakumshe_store_open(&store, NULL));
    EXPECT(JAKUMSHE_NULL, jakumshe_store_commit(NULL, 1));
    EXPECT(JAKUMSHE_NULL, jakumshe_store_sync(NULL));
    EXPECT(JAKUMSHE_NULL, jakumshe_store_compact(NULL));
    EXPECT(JAKUMSHE_NULL, jakumshe_store_close(NULL));
    EXPECT(JAKUMSHE_CLOSED, jakumshe_store_commit(&store, 1));
    EXPECT(JAKUMSHE_CLOSED, jakumshe_store_sync(&store));
    EXPECT(JAKUMSHE_CLOSED, jakumshe_store_compact(&store));
    EXPECT(JAKUMSHE_CLOSED, jakumshe_store_close(&store));
    EXPECT(JAKUMSHE_DONE, jakumshe_store_open(&store, below(folder, "calls")));
    EXPECT(JAKUMSHE_OPEN, jakumshe_store_open(&store, below(folder, "calls")));
    EXPECT(JAKUMSHE_LOCKED, jakumshe_store_open(&other, below(folder, "calls")));
    EXPECT(JAKUMSHE_NOT_OPEN, jakumshe_store_commit(&store, 77));
    EXPECT(JAKUMSHE_STORED, jakumshe_commit(&store.node, 77));
    EXPECT(JAKUMSHE_STORED, jakumshe_renew(&store.node));
    EXPECT(JAKUMSHE_STORED, jakumshe_close(&store.node));
    EXPECT(JAKUMSHE_DONE, count_up(&store, &sum));
    EXPECT(JAKUMSHE_DONE, jakumshe_store_sync(&store));
    EXPECT(JAKUMSHE_DONE, jakumshe_store_close(&store));
    EXPECT(JAKUMSHE_DONE, jakumshe_store_open(&other, below(folder, "calls")));
    EXPECT(JAKUMSHE_DONE, count_up(&other, &sum));
    EXPECT(2, (int)sum);
    EXPECT(JAKUMSHE_DONE, jakumshe_store_close(&other));
}

static void refuse_folders(const char *folder)
{
    struct jakumshe_store store = JAKUMSHE_CLOSED_STORE;
    EXPECT(0, mkdir(below(folder, "other"), 0777));
    write_file(below(folder, "other/file"), "text");
    EXPECT(JAKUMSHE_NOT_A_STORE, jakumshe_store_open(&store, below(folder, "other")));
    EXPECT(JAKUMSHE_DEVICE, jakumshe_store_open(&store, below(folder, "other/file")));
    EXPECT(JAKUMSHE_DEVICE, jakumshe_store_open(&store, below(folder, "none/store")));
    EXPECT(0, mkdir(below(folder, "later"), 0777));
    write_file(below(folder, "later/store"), "jakumshe store 2\n");
    EXPECT(JAKUMSHE_VERSION, jakumshe_store_open(&store, below(folder, "later")));
    write_file(below(folder, "later/store"), "jakumshe store 3 ");
    EXPECT(JAKUMSHE_VERSION, jakumshe_store_open(&store, below(folder, "later")));
    write_file(below(folder, "later/store"), "jakumshe store 2 000000000000000A");
    EXPECT(JAKUMSHE_VERSION, jakumshe_store_open(&store, below(folder, "later")));
    write_file(below(folder, "later/store"), "jakumshe store 1\nx");
    EXPECT(JAKUMSHE_VERSION, jakumshe_store_open(&store, below(folder, "later")));
    write_file(below(folder, "later/store"), "jakumshe");
    write_file(below(folder, "later/log"), "x");
    EXPECT(JAKUMSHE_VERSION, jakumshe_store_open(&store, below(folder, "later")));
    EXPECT(0, unlink(below(folder, "later/log")));
    EXPECT(JAKUMSHE_DONE, jakumshe_store_open(&store, below(folder, "later")));
    EXPECT(JAKUMSHE_DONE, jakumshe_store_close(&store));
    EXPECT(0, unlink(below(folder, "later/log")));
    EXPECT(JAKUMSHE_DEVICE, jakumshe_store_open(&store, below(folder, "later")));
}

/* A disk that is full for a while. */
static void fail_to_write(const char *folder)
{
    struct jakumshe_store store = JAKUMSHE_CLOSED_STORE;
    struct rlimit before, none;
    struct stat found;
    uint64_t sum = 0;
    signal(SIGXFSZ, SIG_IGN);
    EXPECT(0, getrlimit(RLIMIT_FSIZE, &before));
    EXPECT(JAKUMSHE_DONE, jakumshe_store_open(&store, below(folder, "full")));
    EXPECT(JAKUMSHE_DONE, count_up(&store, &sum));
    EXPECT(0, stat(below(folder, "full/log"), &found));
    none = before;
    none.rlim_cur = (rlim_t)found.st_size + 50;
    EXPECT(0, setrlimit(RLIMIT_FSIZE, &none));
    EXPECT(JAKUMSHE_DEVICE, count_up(&store, &sum));
    EXPECT(JAKUMSHE_DEVICE, count_up(&store, &sum));
    EXPECT(JAKUMSHE_DEVICE, jakumshe_store_sync(&store));
    EXPECT(0, setrlimit(RLIMIT_FSIZE, &before));
    EXPECT(JAKUMSHE_DONE, jakumshe_store_sync(&store));
    EXPECT(JAKUMSHE_DONE, jakumshe_store_close(&store));
    EXPECT(JAKUMSHE_DONE, jakumshe_store_open(&store, below(folder, "full")));
    EXPECT(JAKUMSHE_DONE, count_up(&store, &sum));
    EXPECT(4, (int)sum);
    EXPECT(JAKUMSHE_DONE, jakumshe_store_close(&store));
}

/* Whether a file has this text alone. */
static int has_text(const char *path, const char *text)
{
    uint8_t bytes[64];
    return read_file(path, bytes, sizeof bytes) == strlen(text) && memcmp(bytes, text, strlen(text)) == 0;
}

/* A store that version 1 has made: a session's record in one block. */
static const uint8_t old_log[] = {
    0, 0, 0, 0, 0, 0, 0, 0, 0, 0, 0, 0, 0, 0, 0, 9, 0x8d, 0xf2, 0x9f, 0x0f, 0x2b, 0x87, 0x1f, 0x0f,
    0x31, 0xac, 0x0a, 0xa0, 0x0c, 0xcf, 0xf0, 0xe6, 0x2f, 0xdb, 0xa9, 0x1a, 0x89, 0x93, 0xeb, 0xaf,
    0, 0, 0, 0, 0, 0, 0, 1, 1,
};

static void go_on_from_version_1(const char *folder)
{
    struct jakumshe_store store = JAKUMSHE_CLOSED_STORE;
    uint64_t sum = 0;
    EXPECT(0, mkdir(below(folder, "old"), 0777));
    write_file(below(folder, "old/store"), "jakumshe store 1\n");
    write_bytes(below(folder, "old/log"), old_log, sizeof old_log);
    EXPECT(JAKUMSHE_DONE, jakumshe_store_open(&store, below(folder, "old")));
    EXPECT(1, has_text(below(folder, "old/store"), "jakumshe store 1\n"));
    EXPECT(JAKUMSHE_DONE, count_up(&store, &sum));
    EXPECT(JAKUMSHE_DONE, jakumshe_store_close(&store));
    EXPECT(1, has_text(below(folder, "old/store"), "jakumshe store 2 0000000000000000\n"));
    EXPECT(JAKUMSHE_DONE, jakumshe_store_open(&store, below(folder, "old")));
    EXPECT(JAKUMSHE_DONE, count_up(&store, &sum));
    EXPECT(2, (int)sum);
    EXPECT(JAKUMSHE_DONE, jakumshe_store_close(&store));
    write_file(below(folder, "old/store"), "jakumshe store 1\n");
    write_bytes(below(folder, "old/log"), old_log, sizeof old_log);
    EXPECT(JAKUMSHE_DONE, jakumshe_store_open(&store, below(folder, "old")));
    EXPECT(JAKUMSHE_DONE, jakumshe_store_compact(&store));
    EXPECT(1, has_text(below(folder, "old/store"), "jakumshe store 2 0000000000000000\n"));
    EXPECT(JAKUMSHE_DONE, count_up(&store, &sum));
    EXPECT(JAKUMSHE_DONE, jakumshe_store_close(&store));
    EXPECT(JAKUMSHE_DONE, jakumshe_store_open(&store, below(folder, "old")));
    EXPECT(JAKUMSHE_DONE, count_up(&store, &sum));
    EXPECT(2, (int)sum);
    EXPECT(JAKUMSHE_DONE, jakumshe_store_close(&store));
    write_bytes(below(folder, "old/log"), old_log, 0);
    EXPECT(JAKUMSHE_DAMAGED, jakumshe_store_open(&store, below(folder, "old")));
    write_file(below(folder, "old/store"), "jakumshe store 1\n");
    EXPECT(JAKUMSHE_DONE, jakumshe_store_open(&store, below(folder, "old")));
    EXPECT(JAKUMSHE_DONE, jakumshe_store_close(&store));
}

/* A block of another store, and the file `store` of a store that has had a block and of one that has had none. */
static void tell_stores_apart(const char *folder)
{
    struct jakumshe_store store = JAKUMSHE_CLOSED_STORE;
    uint64_t sum = 0;
    uint8_t log[4096];
    EXPECT(JAKUMSHE_DONE, jakumshe_store_open(&store, below(folder, "one")));
    EXPECT(JAKUMSHE_DONE, count_up(&store, &sum));
    EXPECT(JAKUMSHE_DONE, jakumshe_store_close(&store));
    size_t length = read_file(below(folder, "one/log"), log, sizeof log);
    EXPECT(JAKUMSHE_DONE, jakumshe_store_open(&store, below(folder, "two")));
    EXPECT(JAKUMSHE_DONE, jakumshe_store_close(&store));
    EXPECT(33, (int)read_file(below(folder, "two/store"), log + length, sizeof log - length));
    write_bytes(below(folder, "two/log"), log, length);
    EXPECT(JAKUMSHE_DAMAGED, jakumshe_store_open(&store, below(folder, "two")));
    write_bytes(below(folder, "two/log"), log, 0);
    EXPECT(JAKUMSHE_DONE, jakumshe_store_open(&store, below(folder, "two")));
    EXPECT(JAKUMSHE_DONE, count_up(&store, &sum));
    EXPECT(JAKUMSHE_DONE, jakumshe_store_close(&store));
    EXPECT(34, (int)read_file(below(folder, "two/store"), log, sizeof log));
    EXPECT(0, truncate(below(folder, "two/store"), 33));
    EXPECT(JAKUMSHE_DONE, jakumshe_store_open(&store, below(folder, "two")));
    EXPECT(JAKUMSHE_DONE, jakumshe_store_close(&store));
    EXPECT(34, (int)read_file(below(folder, "two/store"), log, sizeof log));
    EXPECT(0, unlink(below(folder, "two/log")));
    EXPECT(0, mkfifo(below(folder, "two/log"), 0666));
    EXPECT(JAKUMSHE_NOT_A_STORE, jakumshe_store_open(&store, below(folder, "two")));
    EXPECT(0, unlink(below(folder, "two/store")));
    EXPECT(0, mkfifo(below(folder, "two/store"), 0666));
    EXPECT(JAKUMSHE_NOT_A_STORE, jakumshe_store_open(&store, below(folder, "two")));
}

/* Each byte of a log's file is changed in turn, and the file is cut short to each length. Where it has no whole block
 * left it is refused, since the store has had one. */
static void damage(const char *folder)
{
    struct jakumshe_store store = JAKUMSHE_CLOSED_STORE;
    uint64_t sum = 0;
    struct stat found;
    char *path = below(folder, "damaged/log");
    EXPECT(JAKUMSHE_DONE, jakumshe_store_open(&store, below(folder, "damaged")));
    EXPECT(JAKUMSHE_DONE, count_up(&store, &sum));
    EXPECT(JAKUMSHE_DONE, count_up(&store, &sum));
    EXPECT(JAKUMSHE_DONE, jakumshe_store_close(&store));
    int log = open(path, O_RDWR);
    if (log < 0 || fstat(log, &found) != 0)
        abort();
    for (off_t place = 0; place < found.st_size; place++) {
        uint8_t byte, other;
        if (pread(log, &byte, 1, place) != 1)
            abort();
        other = byte ^ 4;
        if (pwrite(log, &other, 1, place) != 1)
            abort();
        EXPECT(JAKUMSHE_DAMAGED, jakumshe_store_open(&store, below(folder, "damaged")));
        if (pwrite(log, &byte, 1, place) != 1)
            abort();
    }
    uint8_t head[32];
    if (pread(log, head, sizeof head, 0) != sizeof head)
        abort();
    off_t first = 32 + (off_t)jakumshe_number(head + 8);
    for (off_t length = found.st_size; length >= 0; length--) {
        if (ftruncate(log, length) != 0)
            abort();
        EXPECT(length < first ? JAKUMSHE_DAMAGED : JAKUMSHE_DONE, jakumshe_store_open(&store, below(folder, "damaged")));
        if (length >= first)
            EXPECT(JAKUMSHE_DONE, jakumshe_store_close(&store));
    }
    close(log);
}

enum { TURNS = 300 };

static struct jakumshe_store shared = JAKUMSHE_CLOSED_STORE;
static pthread_mutex_t turn = PTHREAD_MUTEX_INITIALIZER;

/* Counts in a store that another thread has opened and a third one uses; each call is made under the mutex. */
static void *count_shared(void *wrongs)
{
    uint64_t sum;
    for (int n = 0; n < TURNS; n++) {
        pthread_mutex_lock(&turn);
        *(int *)wrongs += count_up(&shared, &sum) != JAKUMSHE_DONE;
        if (n % 50 == 49)
            *(int *)wrongs += jakumshe_store_compact(&shared) != JAKUMSHE_DONE;
        pthread_mutex_unlock(&turn);
    }
    return NULL;
}

static void share(const char *folder)
{
    pthread_t threads[2];
    int wrongs[2] = { 0, 0 };
    uint64_t sum = 0;
    EXPECT(JAKUMSHE_DONE, jakumshe_store_open(&shared, below(folder, "shared")));
    for (int n = 0; n < 2; n++)
        EXPECT(0, pthread_create(&threads[n], NULL, count_shared, &wrongs[n]));
    for (int n = 0; n < 2; n++)
        EXPECT(0, pthread_join(threads[n], NULL));
    EXPECT(0, wrongs[0] + wrongs[1]);
    EXPECT(JAKUMSHE_DONE, count_up(&shared, &sum));
    EXPECT(2 * TURNS + 1, (int)sum);
    EXPECT(JAKUMSHE_DONE, jakumshe_store_close(&shared));
}

static int faces(const char *folder)
{
    refuse_calls(folder);
    refuse_folders(folder);
    fail_to_write(folder);
    go_on_from_version_1(folder);
    tell_stores_apart(folder);
    damage(folder);
    share(folder);
    printf("%d right, %d wrong\n", right, wrong);
    return wrong == 0 ? EXIT_SUCCESS : EXIT_FAILURE;
}

static int fail(const char *what, int status)
{
    fprintf(stderr, "%s: %s\n", what, jakumshe_name(status).text);
    return EXIT_FAILURE;
}

/* Adds 1 to the counter. Where the system refuses a call the commit's block is written again. */
static int count_once(struct jakumshe_store *store, uint64_t *sum)
{
    int status = count_up(store, sum);
    return status == JAKUMSHE_DEVICE ? jakumshe_store_sync(store) : status;
}

/* Compacts the store, or leaves it as it was; or it is closed, and opened again. */
static int compact(struct jakumshe_store *store, const char *folder)
{
    int status = jakumshe_store_compact(store);
    if (status == JAKUMSHE_DONE || status == JAKUMSHE_NO_MEMORY || status == JAKUMSHE_DEVICE)
        status = jakumshe_store_sync(store);
    return status == JAKUMSHE_CLOSED ? jakumshe_store_open(store, folder) : status;
}

static int pay(const char *folder, long count, long each)
{
    struct jakumshe_store store = JAKUMSHE_CLOSED_STORE;
    uint64_t sum = 0;
    int status = jakumshe_store_open(&store, folder);
    if (status != JAKUMSHE_DONE)
        return fail("open", status);
    for (long n = 1; n <= count; n++) {
        status = count_once(&store, &sum);
        if (status != JAKUMSHE_DONE)
            return fail("count", status);
        printf("%" PRIu64 "\n", sum);
        fflush(stdout);
        if (each > 0 && n % each == 0)
            status = compact(&store, folder);
        if (status != JAKUMSHE_DONE)
            return fail("compact", status);
    }
    jakumshe_store_close(&store);
    return EXIT_SUCCESS;
}

static int read_counter(const char *folder)
{
    struct jakumshe_store store = JAKUMSHE_CLOSED_STORE;
    struct jakumshe_value value;
    uint64_t txn;
    int status = jakumshe_store_open(&store, folder);
    if (status == JAKUMSHE_DONE)
        status = jakumshe_begin(&store.node, &txn);
    if (status == JAKUMSHE_DONE)
        status = jakumshe_get(&store.node, txn, "n", 1, &value);
    if (status != JAKUMSHE_DONE && status != JAKUMSHE_NO_RECORD)
        return fail("read", status);
    printf("%" PRIu64 "\n", status == JAKUMSHE_DONE ? jakumshe_number(value.bytes) : 0);
    jakumshe_store_close(&store);
    return EXIT_SUCCESS;
}

int main(int count, char **words)
{
    if (count == 3 && strcmp(words[1], "faces") == 0)
        return faces(words[2]);
    if ((count == 4 || count == 5) && strcmp(words[1], "pay") == 0)
        return pay(words[2], atol(words[3]), count == 5 ? atol(words[4]) : 0);
    if (count == 3 && strcmp(words[1], "read") == 0)
        return read_counter(words[2]);
    fprintf(stderr, "usage: c_store faces|read FOLDER, c_store pay FOLDER N [EACH]\n");
    return 2;
}
