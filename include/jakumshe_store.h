/*
 * A node for C whose log a folder keeps: what is committed is found by the next opening, whatever ends the process or
 * the machine. For POSIX; compile c/jakumshe_store.c along. The folder is the one that the shell opens by --store, and
 * docs/STORE.md has its files byte by byte.
 *
 * All calls of jakumshe.h are made on the store's node, but for three, which are refused STORED there:
 * jakumshe_store_commit takes the place of jakumshe_commit, jakumshe_store_compact that of jakumshe_renew, and
 * jakumshe_store_close that of jakumshe_close. Who calls the functions that begin with jakumshe_raw_ is refused nothing.
 *
 *     struct jakumshe_store store = JAKUMSHE_CLOSED_STORE;
 *     jakumshe_store_open(&store, "bank");
 *     jakumshe_begin(&store.node, &txn);
 *     jakumshe_upsert(&store.node, txn, "alice", 5, "100", 3);
 *     jakumshe_store_commit(&store, txn);
 *     jakumshe_store_close(&store);
 */
#ifndef JAKUMSHE_STORE_H
#define JAKUMSHE_STORE_H

#include "jakumshe.h"

#ifdef __cplusplus
extern "C" {
#endif

/*
 * A store, which starts as JAKUMSHE_CLOSED_STORE. Of its fields only `node` and `error` are the caller's; where
 * `node.keeps_log` isn't 0 it is compacted by jakumshe_store_compact alone, also if that is set before it is opened.
 */
struct jakumshe_store {
    struct jakumshe_node node;
    int error;       /* errno of the system's call that was refused last */
    int folder;      /* the folder */
    int mark;        /* the file `store`, which is locked as long as it is open */
    int due;         /* what is still to be written to it */
    int log;         /* the file `log` */
    int is_unsure;   /* whether `log` may have bytes behind its whole blocks */
    uint64_t number; /* the store's number */
    uint64_t place;  /* where the whole blocks of `log` end */
    uint64_t sum;    /* the checksum of all up to there */
    size_t kept;     /* how many bytes of the node's log they have */
};

#define JAKUMSHE_CLOSED_STORE { JAKUMSHE_CLOSED_NODE, 0, -1, -1, 0, -1, 0, 0, 0, 0, 0 }

/*
 * Opens the store of a folder, which is made where it isn't there, and a node on it with all that was committed; who was
 * open is rolled back. No byte of the log is taken on trust: it is refused BAD_BYTES, WRONG_ANSWER or CHECKPOINT where it
 * is no log that a store can have, DAMAGED where a block of its file isn't what was written, or none is left of those that
 * it has had. Refused OPEN; LOCKED where another has it open; NOT_A_STORE, VERSION; DEVICE where the system refused a call,
 * `error` says why; NO_MEMORY.
 */
int jakumshe_store_open(struct jakumshe_store *store, const char *folder);

/*
 * Ends the transaction; what it did stays, and is on the disk. Refused as jakumshe_commit is. Where it is refused DEVICE,
 * or NO_MEMORY and the transaction is no longer open, it has committed in the node, and whether the folder has it is
 * told by jakumshe_store_sync alone: where that is done it does. A commit that leaves no transaction open also compacts
 * the store, where the log has 4 MB and twice what the last compaction left; that one is refused doesn't change what
 * the commit returns, and the next one comes when the log is twice as long.
 */
int jakumshe_store_commit(struct jakumshe_store *store, uint64_t txn);

/*
 * Writes the log anew with the records alone, in a file that takes the place of the old one all at once: whatever ends the
 * process or the machine, the folder has the one log or the other, with whatever was committed. Numbers of transactions
 * begin anew. It takes time, memory and for a moment room on the disk by the records. An opening does it as well, where a
 * commit would. Refused ACTIVE where a transaction is open, NO_MEMORY, DEVICE: then all is as it was, but where DEVICE
 * tells that the folder wasn't synced, behind all else. Which of the two logs the folder keeps isn't known then, so the
 * store is closed, and every later call is refused CLOSED until it is opened again; so it is where a commit's own
 * compaction comes to that.
 */
int jakumshe_store_compact(struct jakumshe_store *store);

/* Brings the folder up to the node: whatever was committed is on the disk then. Refused CLOSED, DEVICE, NO_MEMORY. */
int jakumshe_store_sync(struct jakumshe_store *store);

/* Closes the node and gives the folder free. What isn't committed is gone. Refused CLOSED. */
int jakumshe_store_close(struct jakumshe_store *store);

#ifdef __cplusplus
}
#endif

#endif
