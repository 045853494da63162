/* Refuses the n-th growth of a program, where n is in REFUSED, and each m-th, where m is in REFUSED_EACH. Where
 * REFUSED_BESIDE is set, those of its first thread aren't counted. Loaded before the C library by LD_PRELOAD. */
#define _GNU_SOURCE
#include <dlfcn.h>
#include <errno.h>
#include <pthread.h>
#include <stdatomic.h>
#include <stdlib.h>

static atomic_long left;
static long each;
static int beside;
static pthread_t first;
static void *(*next_malloc)(size_t);
static void *(*next_realloc)(void *, size_t);
static int (*next_posix_memalign)(void **, size_t, size_t);
static void *(*next_aligned_alloc)(size_t, size_t);

__attribute__((constructor)) static void begin(void)
{
    const char *refused = getenv("REFUSED");
    const char *refused_each = getenv("REFUSED_EACH");
    next_malloc = dlsym(RTLD_NEXT, "malloc");
    next_realloc = dlsym(RTLD_NEXT, "realloc");
    next_posix_memalign = dlsym(RTLD_NEXT, "posix_memalign");
    next_aligned_alloc = dlsym(RTLD_NEXT, "aligned_alloc");
    atomic_store(&left, refused ? atol(refused) : 0);
    each = refused_each ? atol(refused_each) : 0;
    beside = getenv("REFUSED_BESIDE") != NULL;
    first = pthread_self();
}

static int is_refused(void)
{
    if (beside && pthread_equal(pthread_self(), first))
        return 0;
    long now = atomic_fetch_sub(&left, 1);
    return now == 1 || (each > 0 && now % each == 0 && now != 0);
}

static void *refusal(void)
{
    errno = ENOMEM;
    return NULL;
}

void *malloc(size_t size)
{
    if (!next_malloc)
        begin();
    return is_refused() ? refusal() : next_malloc(size);
}

void *realloc(void *block, size_t size)
{
    if (!next_realloc)
        begin();
    return is_refused() ? refusal() : next_realloc(block, size);
}

int posix_memalign(void **block, size_t alignment, size_t size)
{
    if (!next_posix_memalign)
        begin();
    return is_refused() ? ENOMEM : next_posix_memalign(block, alignment, size);
}

void *aligned_alloc(size_t alignment, size_t size)
{
    if (!next_aligned_alloc)
        begin();
    return is_refused() ? refusal() : next_aligned_alloc(alignment, size);
}
