/* The files of a store, as docs/STORE.md has them. What their bytes say is the library's matter. */
#define _DEFAULT_SOURCE
#include "jakumshe_store.h"

#include <dirent.h>
#include <errno.h>
#include <fcntl.h>
#include <stdio.h>
#include <stdlib.h>
#include <string.h>
#include <sys/file.h>
#include <sys/stat.h>
#include <unistd.h>

static const char old_mark[] = "jakumshe store 1\n";
static const char mark_start[] = "jakumshe store 2 ";
static const char digits[] = "0123456789abcdef";

/* Behind its beginning the text of the file `store` has the 16 digits of the store's number, and the line ends. */
enum { START_LENGTH = sizeof mark_start - 1, DIGITS_END = START_LENGTH + 16, MARK_LENGTH };

/* What the file `store` says. */
enum mark {
    MARK_OLD,      /* a store of version 1, which has no block of version 2 */
    MARK_WHOLE,    /* a store that has had a block */
    MARK_NUMBERED, /* one that has a number, and behind it no block that was forced: the line doesn't end */
    MARK_BEGUN,    /* a beginning, perhaps nothing: a store that was about to be made */
    MARK_OTHER
};

/* What is still to be written to it. */
enum due {
    DUE_NOTHING,
    DUE_TEXT,    /* all of it, before the first block of version 2 of a store that began as version 1 */
    DUE_LINE_END /* the end of the line, behind the first block that is forced */
};

/* The system refused a call. */
static int refused(struct jakumshe_store *store)
{
    store->error = errno;
    return errno == ENOMEM ? JAKUMSHE_NO_MEMORY : JAKUMSHE_DEVICE;
}

/* Writes all bytes at a place. */
static int put(int file, const void *bytes, size_t length, uint64_t place)
{
    const uint8_t *next = (const uint8_t *)bytes;
    while (length > 0) {
        ssize_t written = pwrite(file, next, length, (off_t)place);
        if (written < 0 && errno == EINTR)
            continue;
        if (written < 0)
            return -1;
        next += written;
        place += (uint64_t)written;
        length -= (size_t)written;
    }
    return 0;
}

/* Reads so many bytes at a place, or up to the end. Gives how many, or less than 0. */
static ssize_t take(int file, void *bytes, size_t length, uint64_t place)
{
    size_t count = 0;
    while (count < length) {
        ssize_t taken = pread(file, (uint8_t *)bytes + count, length - count, (off_t)(place + count));
        if (taken < 0 && errno == EINTR)
            continue;
        if (taken < 0)
            return -1;
        if (taken == 0)
            break;
        count += (size_t)taken;
    }
    return (ssize_t)count;
}

/* The file that was opened, never as one of the standard streams. */
static int above_streams(int file)
{
    if (file < 0 || file > 2)
        return file;
    int above = fcntl(file, F_DUPFD_CLOEXEC, 3);
    int error = errno;
    close(file);
    errno = error;
    return above;
}

/* Opens a file of the folder. */
static int open_at(int folder, const char *name, int flags)
{
    return above_streams(openat(folder, name, O_RDWR | O_CLOEXEC | flags, 0666));
}

/* Whether each file of the folder has one of two names: 1 or 0, or less than 0. */
static int has_only(int folder, const char *first, const char *second)
{
    int only = 1;
    int listed = openat(folder, ".", O_RDONLY | O_DIRECTORY | O_CLOEXEC);
    if (listed < 0)
        return -1;
    DIR *names = fdopendir(listed);
    if (names == NULL) {
        int error = errno;
        close(listed);
        errno = error;
        return -1;
    }
    for (;;) {
        errno = 0;
        const struct dirent *entry = readdir(names);
        if (entry == NULL)
            break;
        const char *name = entry->d_name;
        if (strcmp(name, ".") != 0 && strcmp(name, "..") != 0 && strcmp(name, first) != 0 && strcmp(name, second) != 0)
            only = 0;
    }
    int error = errno;
    closedir(names);
    errno = error;
    return error != 0 ? -1 : only;
}

/* Whether the folder has a file of this name. What is no plain file is refused before it is opened: to open a pipe may
 * wait for another process. */
static int look(struct jakumshe_store *store, const char *name, int *is_there)
{
    struct stat found;
    *is_there = fstatat(store->folder, name, &found, 0) == 0;
    if (!*is_there)
        return errno == ENOENT ? JAKUMSHE_DONE : refused(store);
    return S_ISREG(found.st_mode) ? JAKUMSHE_DONE : JAKUMSHE_NOT_A_STORE;
}

/* Opens and locks the file `store`, which is made in an empty folder alone. */
static int open_mark(struct jakumshe_store *store)
{
    int is_there;
    int status = look(store, "store", &is_there);
    if (status != JAKUMSHE_DONE)
        return status;
    if (!is_there) {
        int only = has_only(store->folder, "store", "store");
        if (only < 0)
            return refused(store);
        if (only == 0)
            return JAKUMSHE_NOT_A_STORE;
    }
    store->mark = open_at(store->folder, "store", is_there ? 0 : O_CREAT);
    if (store->mark < 0)
        return refused(store);
    if (flock(store->mark, LOCK_EX | LOCK_NB) == 0)
        return JAKUMSHE_DONE;
    return errno == EWOULDBLOCK ? JAKUMSHE_LOCKED : refused(store);
}

/* The text of a store of this number. */
static void spell_mark(uint64_t number, char text[MARK_LENGTH])
{
    memcpy(text, mark_start, START_LENGTH);
    for (int digit = 0; digit < 16; digit++)
        text[START_LENGTH + digit] = digits[number >> (60 - 4 * digit) & 15];
    text[DIGITS_END] = '\n';
}

/* What so many bytes of a text say, and the store's number, which is 0 where they have none. */
static enum mark read_mark(const char *text, size_t length, uint64_t *number)
{
    char spelled[MARK_LENGTH];
    *number = 0;
    if (length == START_LENGTH && memcmp(text, old_mark, length) == 0)
        return MARK_OLD;
    if (length < START_LENGTH)
        return memcmp(text, old_mark, length) == 0 || memcmp(text, mark_start, length) == 0 ? MARK_BEGUN : MARK_OTHER;
    if (length > MARK_LENGTH)
        return MARK_OTHER;
    for (size_t place = START_LENGTH; place < length && place < DIGITS_END; place++) {
        const char *digit = (const char *)memchr(digits, text[place], sizeof digits - 1);
        if (digit == NULL)
            return MARK_OTHER;
        *number = *number << 4 | (uint64_t)(digit - digits);
    }
    if (length < DIGITS_END) {
        *number = 0;
        return memcmp(text, mark_start, START_LENGTH) == 0 ? MARK_BEGUN : MARK_OTHER;
    }
    spell_mark(*number, spelled);
    if (memcmp(text, spelled, length) != 0)
        return MARK_OTHER;
    return length == MARK_LENGTH ? MARK_WHOLE : MARK_NUMBERED;
}

/* Writes a part of the text and syncs it: 0, or less than 0. */
static int put_mark(struct jakumshe_store *store, const char *text, size_t length, uint64_t place)
{
    return put(store->mark, text, length, place) == 0 && fsync(store->mark) == 0 ? 0 : -1;
}

/* Writes what of the file `store` is due before a block, or behind it: 0, or less than 0. */
static int put_due(struct jakumshe_store *store, enum due due)
{
    char text[MARK_LENGTH];
    if (store->due != (int)due)
        return 0;
    spell_mark(0, text);
    size_t first = due == DUE_TEXT ? 0 : DIGITS_END;
    if (put_mark(store, text + first, MARK_LENGTH - first, first) != 0)
        return -1;
    store->due = DUE_NOTHING;
    return 0;
}

/* A number that no other store is likely to have, and not that of a store that began as version 1: 0, or less than 0. */
static int draw(uint64_t *number)
{
    int source = open("/dev/urandom", O_RDONLY | O_CLOEXEC);
    if (source < 0)
        return -1;
    ssize_t length = read(source, number, sizeof *number);
    int error = length < 0 ? errno : EIO;
    close(source);
    errno = error;
    if (*number == 0)
        *number = 1;
    return length == sizeof *number ? 0 : -1;
}

/* Draws the store's number and writes it, without the end of the line. */
static int number_store(struct jakumshe_store *store)
{
    char text[MARK_LENGTH];
    if (draw(&store->number) != 0)
        return refused(store);
    store->sum = store->number;
    spell_mark(store->number, text);
    store->due = DUE_LINE_END;
    return put_mark(store, text, DIGITS_END, 0) == 0 ? JAKUMSHE_DONE : refused(store);
}

/* Makes the log of a store that is about to be one, and syncs the folder and the one above it. The mark comes after. */
static int make_log(struct jakumshe_store *store)
{
    struct stat found;
    int only = has_only(store->folder, "store", "log");
    if (only < 0)
        return refused(store);
    if (only == 0)
        return JAKUMSHE_NOT_A_STORE;
    store->log = open_at(store->folder, "log", O_CREAT);
    if (store->log < 0 || fstat(store->log, &found) != 0)
        return refused(store);
    if (found.st_size != 0)
        return JAKUMSHE_VERSION;
    int above = openat(store->folder, "..", O_RDONLY | O_DIRECTORY | O_CLOEXEC);
    if (above < 0)
        return refused(store);
    int status = fsync(store->folder) == 0 && fsync(above) == 0 ? JAKUMSHE_DONE : refused(store);
    close(above);
    return status;
}

/* Opens the folder's two files, and reads the store's number. */
static int open_files(struct jakumshe_store *store, enum mark *mark)
{
    char text[MARK_LENGTH + 1];
    int is_there;
    int status = open_mark(store);
    if (status != JAKUMSHE_DONE)
        return status;
    ssize_t length = take(store->mark, text, sizeof text, 0);
    if (length < 0)
        return refused(store);
    *mark = read_mark(text, (size_t)length, &store->number);
    if (*mark == MARK_OTHER)
        return JAKUMSHE_VERSION;
    status = look(store, "log", &is_there);
    if (status != JAKUMSHE_DONE)
        return status;
    if (*mark == MARK_BEGUN)
        return make_log(store);
    store->log = open_at(store->folder, "log", 0);
    return store->log < 0 ? refused(store) : JAKUMSHE_DONE;
}

/* Takes the text of the file `store` as it stands, or numbers the store. Behind a block the line ends. */
static int settle_mark(struct jakumshe_store *store, enum mark mark)
{
    if (mark == MARK_WHOLE && store->place == 0)
        return JAKUMSHE_DAMAGED;
    if (store->place == 0 && (mark != MARK_NUMBERED || store->number == 0))
        return number_store(store);
    /* Who wrote it may have been killed before its sync. */
    if (fsync(store->mark) != 0)
        return refused(store);
    store->due = mark == MARK_OLD ? DUE_TEXT : mark == MARK_NUMBERED ? DUE_LINE_END : DUE_NOTHING;
    return store->place == 0 || put_due(store, DUE_LINE_END) == 0 ? JAKUMSHE_DONE : refused(store);
}

/* How many bytes of log the first block has: where the log was compacted, what that left. */
static size_t first_length(const uint8_t *file, size_t size)
{
    return size < JAKUMSHE_HEAD_ROOM ? 0 : (size_t)jakumshe_number(file + 8);
}

/* Opens the node on what the log's file has. */
static int open_node(struct jakumshe_store *store, enum mark mark)
{
    struct stat found;
    if (fsync(store->log) != 0 || fstat(store->log, &found) != 0)
        return refused(store);
    if ((uint64_t)found.st_size > PTRDIFF_MAX)
        return JAKUMSHE_NO_MEMORY;
    size_t size = (size_t)found.st_size;
    uint8_t *file = (uint8_t *)malloc(size > 0 ? size : 1);
    if (file == NULL)
        return JAKUMSHE_NO_MEMORY;
    int status;
    if (take(store->log, file, size, 0) != (ssize_t)size) {
        status = refused(store);
    } else {
        size_t length, end, left = first_length(file, size);
        status = jakumshe_raw_unpack(file, size, store->number, &length, &end, &store->sum);
        if (status == JAKUMSHE_DONE) {
            store->is_unsure = end < size;
            store->place = end;
            status = settle_mark(store, mark);
        }
        if (status == JAKUMSHE_DONE)
            status = jakumshe_raw_open_on(&store->node, file, length, &store->kept);
        if (status == JAKUMSHE_DONE) {
            store->node.is_stored = 1;
            store->node.left = store->place > 0 ? left : 0;
        }
    }
    free(file);
    return status;
}

static void give_up(struct jakumshe_store *store)
{
    if (store->log >= 0)
        close(store->log);
    if (store->folder >= 0)
        close(store->folder);
    /* Last, since it gives the folder free. */
    if (store->mark >= 0)
        close(store->mark);
    store->log = store->folder = store->mark = -1;
    store->node.is_stored = 0;
}

/* Appends a block of these bytes to the log's file, and syncs it. Where it fails the next one begins where this did. */
static int append(struct jakumshe_store *store, const uint8_t *bytes, size_t length)
{
    struct jakumshe_head head;
    uint64_t sum = store->sum;
    jakumshe_raw_head(&sum, store->kept, bytes, length, &head);
    if (store->is_unsure && (ftruncate(store->log, (off_t)store->place) != 0 || fdatasync(store->log) != 0))
        return refused(store);
    store->is_unsure = 1;
    if (put_due(store, DUE_TEXT) != 0 || put(store->log, head.bytes, sizeof head.bytes, store->place) != 0
        || put(store->log, bytes, length, store->place + sizeof head.bytes) != 0 || fdatasync(store->log) != 0
        || put_due(store, DUE_LINE_END) != 0)
        return refused(store);
    store->is_unsure = 0;
    store->place += sizeof head.bytes + length;
    store->sum = sum;
    store->kept += length;
    return JAKUMSHE_DONE;
}

int jakumshe_store_sync(struct jakumshe_store *store)
{
    if (store == NULL)
        return JAKUMSHE_NULL;
    if (store->mark < 0)
        return JAKUMSHE_CLOSED;
    uint8_t none[1];
    size_t whole;
    int status = jakumshe_raw_log(&store->node, store->kept, none, 0, &whole);
    if (status != JAKUMSHE_DONE || whole <= store->kept)
        return status;
    size_t length = whole - store->kept;
    uint8_t *bytes = (uint8_t *)malloc(length);
    if (bytes == NULL)
        return JAKUMSHE_NO_MEMORY;
    status = jakumshe_raw_log(&store->node, store->kept, bytes, length, &whole);
    if (status == JAKUMSHE_DONE)
        status = append(store, bytes, length);
    free(bytes);
    return status;
}

/* Makes `log.new`, which may be read and written by whom `log` may be. One that was left there is removed, not opened: it
 * may be any file. */
static int make_new_log(struct jakumshe_store *store)
{
    struct stat found;
    if (fstat(store->log, &found) != 0 || (unlinkat(store->folder, "log.new", 0) != 0 && errno != ENOENT))
        return -1;
    int file = open_at(store->folder, "log.new", O_CREAT | O_EXCL);
    if (file < 0 || fchmod(file, found.st_mode & 0777) == 0)
        return file;
    int error = errno;
    close(file);
    (void)unlinkat(store->folder, "log.new", 0);
    errno = error;
    return -1;
}

/* Whatever the folder has, the store is closed. */
static void close_all(struct jakumshe_store *store)
{
    (void)jakumshe_raw_close(&store->node);
    give_up(store);
}

/* Puts a log of these bytes, in one block, in the place of `log`, all at once. Where it is refused before that, all is as
 * it was; where the folder isn't synced behind it either may be there, and the store is closed. */
static int replace_log(struct jakumshe_store *store, const uint8_t *bytes, size_t length)
{
    struct jakumshe_head head;
    uint64_t sum = store->number;
    jakumshe_raw_head(&sum, 0, bytes, length, &head);
    int file = make_new_log(store);
    if (file < 0)
        return refused(store);
    if (put(file, head.bytes, sizeof head.bytes, 0) != 0 || put(file, bytes, length, sizeof head.bytes) != 0
        || fsync(file) != 0 || renameat(store->folder, "log.new", store->folder, "log") != 0) {
        int status = refused(store);
        close(file);
        (void)unlinkat(store->folder, "log.new", 0);
        return status;
    }
    if (fsync(store->folder) != 0) {
        store->error = errno;
        close(file);
        close_all(store);
        return JAKUMSHE_DEVICE;
    }
    close(store->log);
    store->log = file;
    store->is_unsure = 0;
    store->place = sizeof head.bytes + length;
    store->sum = sum;
    store->kept = length;
    return JAKUMSHE_DONE;
}

/* Puts the log of the renewed node in the place of the store's. */
static int keep_renewed(struct jakumshe_store *store, struct jakumshe_node *renewed)
{
    size_t length = jakumshe_log_length(renewed);
    uint8_t *bytes = (uint8_t *)malloc(length);
    if (bytes == NULL)
        return JAKUMSHE_NO_MEMORY;
    int status = jakumshe_raw_log(renewed, 0, bytes, length, &length);
    /* A store that has had no block gets its first one: `store` says then that it has had one. */
    if (status == JAKUMSHE_DONE && store->due != DUE_NOTHING)
        status = jakumshe_store_sync(store);
    if (status == JAKUMSHE_DONE)
        status = replace_log(store, bytes, length);
    free(bytes);
    return status;
}

int jakumshe_store_compact(struct jakumshe_store *store)
{
    struct jakumshe_node renewed = JAKUMSHE_CLOSED_NODE;
    if (store == NULL)
        return JAKUMSHE_NULL;
    if (store->mark < 0)
        return JAKUMSHE_CLOSED;
    int status = jakumshe_raw_renew(&store->node, &renewed);
    if (status != JAKUMSHE_DONE)
        return status;
    status = keep_renewed(store, &renewed);
    if (status != JAKUMSHE_DONE) {
        (void)jakumshe_raw_close(&renewed);
        return status;
    }
    (void)jakumshe_raw_replace(&store->node, &renewed);
    store->node.left = store->kept;
    return JAKUMSHE_DONE;
}

/* Compacts the store where its log is due. That this is refused is told only where it has closed the store. */
static int compact_if_due(struct jakumshe_store *store)
{
    size_t length = store->kept;
    if (!jakumshe_is_due(&store->node, length))
        return JAKUMSHE_DONE;
    int status = jakumshe_store_compact(store);
    jakumshe_tried(&store->node, status, length);
    return store->mark < 0 ? status : JAKUMSHE_DONE;
}

int jakumshe_store_open(struct jakumshe_store *store, const char *folder)
{
    if (store == NULL || folder == NULL)
        return JAKUMSHE_NULL;
    if (store->mark >= 0)
        return JAKUMSHE_OPEN;
    store->error = 0;
    if (mkdir(folder, 0777) != 0 && errno != EEXIST)
        return refused(store);
    store->folder = above_streams(open(folder, O_RDONLY | O_DIRECTORY | O_CLOEXEC));
    if (store->folder < 0)
        return refused(store);
    enum mark mark = MARK_OTHER;
    int status = open_files(store, &mark);
    if (status == JAKUMSHE_DONE)
        status = open_node(store, mark);
    if (status == JAKUMSHE_DONE)
        return compact_if_due(store);
    give_up(store);
    return status;
}

int jakumshe_store_commit(struct jakumshe_store *store, uint64_t txn)
{
    if (store == NULL)
        return JAKUMSHE_NULL;
    if (store->mark < 0)
        return JAKUMSHE_CLOSED;
    int status = jakumshe_raw_commit(&store->node, txn);
    if (status == JAKUMSHE_DONE)
        status = jakumshe_store_sync(store);
    /* The commit is on the disk, whatever becomes of this. */
    if (status == JAKUMSHE_DONE)
        (void)compact_if_due(store);
    return status;
}

int jakumshe_store_close(struct jakumshe_store *store)
{
    if (store == NULL)
        return JAKUMSHE_NULL;
    if (store->mark < 0)
        return JAKUMSHE_CLOSED;
    int status = jakumshe_raw_close(&store->node);
    give_up(store);
    return status;
}
