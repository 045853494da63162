/* A bank of two accounts. Each change is a transaction; a transfer that fails half way leaves no trace.
 *
 *     bank           in memory: nothing outlives the process
 *     bank FOLDER    on a store: the next run goes on where this one ends, also where it is killed
 */
#include "jakumshe_store.h"

#include <inttypes.h>
#include <stdio.h>
#include <stdlib.h>
#include <string.h>

static struct jakumshe_store store = JAKUMSHE_CLOSED_STORE;
static struct jakumshe_node *const bank = &store.node;
static int is_kept;

/* Ends the program where a call isn't done. */
static void must(const char *what, int status)
{
    if (status != JAKUMSHE_DONE) {
        printf("%s: %s\n", what, jakumshe_name(status).text);
        jakumshe_store_close(&store);
        jakumshe_close(bank);
        exit(EXIT_FAILURE);
    }
}

static void commit(uint64_t txn)
{
    must("commit", is_kept ? jakumshe_store_commit(&store, txn) : jakumshe_commit(bank, txn));
}

/* Opens an account, if the owner has none. */
static void open_account(uint64_t txn, const char *owner, uint64_t money)
{
    uint8_t value[8];
    jakumshe_put_number(value, money);
    int status = jakumshe_insert(bank, txn, owner, strlen(owner), value, sizeof value);
    if (status != JAKUMSHE_EXISTS)
        must("insert", status);
}

/* The money of an account. Whoever reads it keeps others from changing it, until the transaction ends. */
static uint64_t money_of(uint64_t txn, const char *owner)
{
    struct jakumshe_value value;
    must("get", jakumshe_get(bank, txn, owner, strlen(owner), &value));
    return jakumshe_number(value.bytes);
}

/* Moves money, and takes all of it back where the payee has no account. */
static void transfer(const char *payer, const char *payee, uint64_t money)
{
    uint64_t txn;
    must("begin", jakumshe_begin(bank, &txn));
    printf("%s pays %s %" PRIu64, payer, payee, money);
    if (money_of(txn, payer) < money) {
        printf(": not covered\n");
        must("roll back", jakumshe_roll_back(bank, txn));
        return;
    }
    must("add", jakumshe_add(bank, txn, payer, strlen(payer), -money));
    int status = jakumshe_add(bank, txn, payee, strlen(payee), money);
    if (status == JAKUMSHE_NO_RECORD) {
        printf(": no account, with %" PRIu64 " left to %s", money_of(txn, payer), payer);
        must("roll back", jakumshe_roll_back(bank, txn));
        printf("; rolled back\n");
        return;
    }
    must("add", status);
    commit(txn);
    printf("\n");
}

/* Two clerks add to one account at once: additions don't lock each other out, only who reads it. */
static void pay_in_at_once(const char *owner)
{
    uint64_t first, second;
    struct jakumshe_value value;
    must("begin", jakumshe_begin(bank, &first));
    must("begin", jakumshe_begin(bank, &second));
    must("add", jakumshe_add(bank, first, owner, strlen(owner), 5));
    must("add", jakumshe_add(bank, second, owner, strlen(owner), 7));
    int status = jakumshe_get(bank, second, owner, strlen(owner), &value);
    if (status != JAKUMSHE_BUSY)
        must("get", status);
    printf("two pay %s 5 and 7; neither may read it meanwhile\n", owner);
    commit(first);
    commit(second);
}

/* Prints the accounts, two rows a page. */
static void print_accounts(void)
{
    uint64_t txn;
    size_t count;
    struct jakumshe_row rows[2];
    must("begin", jakumshe_begin(bank, &txn));
    must("scan", jakumshe_scan(bank, txn, "a", 1, NULL, 0, &count));
    printf("%zu accounts:", count);
    do {
        must("page", jakumshe_page(bank, rows, 2, &count));
        for (size_t row = 0; row < count; row++)
            printf(" %.*s %" PRIu64, rows[row].key_length, (const char *)rows[row].key,
                   jakumshe_number(rows[row].value));
    } while (count == 2);
    printf("\n");
    commit(txn);
}

int main(int count, char **words)
{
    uint64_t txn;
    is_kept = count > 1;
    must("open", is_kept ? jakumshe_store_open(&store, words[1]) : jakumshe_open(bank));
    must("begin", jakumshe_begin(bank, &txn));
    open_account(txn, "alice", 100);
    open_account(txn, "bob", 20);
    commit(txn);
    print_accounts();
    transfer("alice", "bob", 30);
    transfer("alice", "carol", 30);
    transfer("bob", "alice", 51);
    pay_in_at_once("bob");
    print_accounts();
    must("close", is_kept ? jakumshe_store_close(&store) : jakumshe_close(bank));
    return 0;
}
