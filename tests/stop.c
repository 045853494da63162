/* Stops a program at the n-th call that changes a file: where n is in KILLED it is killed before that call is made, where
 * n is in FAILED that call is refused EIO. Of a write half is made in either case. Loaded before the C library by
 * LD_PRELOAD. */
#define _GNU_SOURCE
#include <dlfcn.h>
#include <errno.h>
#include <fcntl.h>
#include <signal.h>
#include <stdarg.h>
#include <stdio.h>
#include <stdlib.h>
#include <sys/stat.h>
#include <unistd.h>

static long made, killed, failed;

__attribute__((constructor)) static void begin(void)
{
    const char *at_kill = getenv("KILLED");
    const char *at_failure = getenv("FAILED");
    killed = at_kill ? atol(at_kill) : 0;
    failed = at_failure ? atol(at_failure) : 0;
}

/* Whether the next call fails. */
static int fails(void)
{
    made++;
    if (made == killed)
        kill(getpid(), SIGKILL);
    errno = EIO;
    return made == failed;
}

#define NEXT(name) ((__typeof__(&name))dlsym(RTLD_NEXT, #name))

ssize_t pwrite(int file, const void *bytes, size_t length, off_t place)
{
    if ((made + 1 == killed || made + 1 == failed) && length > 1)
        (void)NEXT(pwrite)(file, bytes, length / 2, place);
    return fails() ? -1 : NEXT(pwrite)(file, bytes, length, place);
}

int openat(int folder, const char *name, int flags, ...)
{
    va_list rest;
    va_start(rest, flags);
    mode_t mode = flags & O_CREAT ? va_arg(rest, mode_t) : 0;
    va_end(rest);
    return (flags & O_CREAT) && fails() ? -1 : NEXT(openat)(folder, name, flags, mode);
}

int fsync(int file)
{
    return fails() ? -1 : NEXT(fsync)(file);
}

int fdatasync(int file)
{
    return fails() ? -1 : NEXT(fdatasync)(file);
}

int ftruncate(int file, off_t length)
{
    return fails() ? -1 : NEXT(ftruncate)(file, length);
}

int fchmod(int file, mode_t mode)
{
    return fails() ? -1 : NEXT(fchmod)(file, mode);
}

int unlinkat(int folder, const char *name, int flags)
{
    return fails() ? -1 : NEXT(unlinkat)(folder, name, flags);
}

int renameat(int from, const char *name, int to, const char *other)
{
    return fails() ? -1 : NEXT(renameat)(from, name, to, other);
}
