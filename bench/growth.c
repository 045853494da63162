/* What a store of C's takes in the long run. `growth FOLDER OPERATIONS ROWS` makes upserts of values of 60 bytes, a hundred
 * a transaction, drawn over so many rows, and prints: operations, seconds, the most memory in MB, the longest log in MB,
 * the longest commit in seconds, and then the seconds of an opening.
 *
 *     cc -O2 -Iinclude -o growth bench/growth.c c/out/libjakumshe.a        (after `make` in c/)
 */
#define _DEFAULT_SOURCE
#include "jakumshe_store.h"

#include <inttypes.h>
#include <stdio.h>
#include <stdlib.h>
#include <string.h>
#include <sys/resource.h>
#include <sys/stat.h>
#include <time.h>

static double now(void)
{
    struct timespec time;
    clock_gettime(CLOCK_MONOTONIC, &time);
    return (double)time.tv_sec + (double)time.tv_nsec / 1e9;
}

static void must(const char *what, int status)
{
    if (status != JAKUMSHE_DONE) {
        fprintf(stderr, "%s: %s\n", what, jakumshe_name(status).text);
        exit(EXIT_FAILURE);
    }
}

/* A hundred upserts, and the seconds that their commit took. */
static double upsert(struct jakumshe_store *store, uint64_t rows)
{
    static uint64_t state = 88172645463325252u;
    uint64_t txn;
    must("begin", jakumshe_begin(&store->node, &txn));
    for (int n = 0; n < 100; n++) {
        char key[21], value[60];
        state ^= state << 13;
        state ^= state >> 7;
        state ^= state << 17;
        snprintf(key, sizeof key, "%08" PRIu64, state % rows);
        memset(value, 'a' + (int)(state % 26), sizeof value);
        must("upsert", jakumshe_upsert(&store->node, txn, key, strlen(key), value, sizeof value));
    }
    double start = now();
    must("commit", jakumshe_store_commit(store, txn));
    return now() - start;
}

int main(int count, char **words)
{
    struct jakumshe_store store = JAKUMSHE_CLOSED_STORE;
    struct rusage used;
    struct stat found;
    char log[4096];
    double longest = 0;
    off_t most = 0;
    if (count != 4) {
        fprintf(stderr, "usage: growth FOLDER OPERATIONS ROWS\n");
        return 2;
    }
    snprintf(log, sizeof log, "%s/log", words[1]);
    must("open", jakumshe_store_open(&store, words[1]));
    double start = now();
    for (long n = 0; n < atol(words[2]); n += 100) {
        double took = upsert(&store, strtoull(words[3], NULL, 10));
        longest = took > longest ? took : longest;
        if (stat(log, &found) == 0 && found.st_size > most)
            most = found.st_size;
    }
    double seconds = now() - start;
    getrusage(RUSAGE_SELF, &used);
    must("close", jakumshe_store_close(&store));
    start = now();
    must("open", jakumshe_store_open(&store, words[1]));
    double opening = now() - start;
    must("close", jakumshe_store_close(&store));
    printf("%s operations, %.1f s, %.1f MB of memory, %.1f MB of log, %.3f s, opened in %.3f s\n", words[2], seconds,
           (double)used.ru_maxrss / 1024, (double)most / 1e6, longest, opening);
    return EXIT_SUCCESS;
}
