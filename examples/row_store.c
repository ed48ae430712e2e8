/* Rows in memory, whose transactions lock them by pashkure_threads.h: an example to copy from.
 *
 * Two threads would deadlock: the one that is told logs the cycle, rolls back to a savepoint, and tries again from there. Then a transaction waits
 * too long and rolls back to a savepoint, and another one is killed while it waits.
 *
 *     ./mmdetect library DIR
 *     cc -std=c99 row_store.c $(PKG_CONFIG_PATH=DIR/lib/pkgconfig pkg-config --cflags --libs pashkure) */
#define _POSIX_C_SOURCE 200809L
#include <pashkure_threads.h>
#include <pthread.h>
#include <stdio.h>
#include <stdlib.h>
#include <time.h>

enum { ROWS = 8, CHANGES = 16, TRANSACTIONS = 64, ATTEMPTS = 100, MILLISECOND = 1000000 };

static pashkure_locks *locks;
static long rows[ROWS];                  /* only the transaction that owns the name of a row reads or writes it */
static const char *titles[TRANSACTIONS]; /* of the transactions, by slot, for the log */

/* What a transaction did to a row. */
struct change {
    unsigned row;
    bool is_locked_here; /* it did not own the row before */
    long before;
};

struct transaction {
    pashkure_key key;
    size_t count;
    struct change changes[CHANGES]; /* the latest is the last */
};

static void must(bool is_so, const char *text)
{
    if (!is_so) {
        fprintf(stderr, "row_store: %s\n", text);
        exit(1);
    }
}

static void must_be_ok(pashkure_result result)
{
    must(result == PASHKURE_OK, pashkure_message(result));
}

static void begin(struct transaction *tx, const char *title)
{
    tx->count = 0;
    must_be_ok(pashkure_locks_begin(locks, &tx->key));
    titles[tx->key.slot] = title; /* the slot is this one's, and others read this while it waits alone */
}

/* The name of a row. Any bytes would do. */
static size_t name_row(unsigned row, char name[16])
{
    return (size_t)snprintf(name, 16, "rows/%u", row);
}

/* Adds to a row, which it locks first: it waits for that at most so long. */
static pashkure_result add(struct transaction *tx, unsigned row, long amount, int64_t nanoseconds)
{
    char name[16];
    size_t length = name_row(row, name);
    pashkure_result result;
    must(tx->count < CHANGES, "a transaction has too many changes");
    result = pashkure_locks_lock(locks, tx->key, name, length, nanoseconds);
    if (!PASHKURE_OWNS(result))
        return result;
    tx->changes[tx->count++] = (struct change){row, result == PASHKURE_OK, rows[row]};
    rows[row] += amount;
    return PASHKURE_OK;
}

/* Undoes the latest change, and returns it. */
static struct change undo(struct transaction *tx)
{
    struct change last = tx->changes[--tx->count];
    rows[last.row] = last.before;
    return last;
}

/* Undoes what came after a savepoint, which is a number of changes, and gives back the rows that were locked after it. */
static void roll_back_to(struct transaction *tx, size_t savepoint)
{
    while (tx->count > savepoint) {
        struct change last = undo(tx);
        char name[16];
        size_t length = name_row(last.row, name);
        if (last.is_locked_here)
            must_be_ok(pashkure_locks_unlock(locks, tx->key, name, length));
    }
}

/* Undoes all, and only then lets others have the rows. */
static void roll_back(struct transaction *tx)
{
    while (tx->count > 0)
        undo(tx);
    must_be_ok(pashkure_locks_abort(locks, tx->key));
}

/* ---- A deadlock ---- */

/* Logs who waits for whom: this one, as it would, and those that do. */
static void log_deadlock(pashkure_key told)
{
    pashkure_wait waits[16];
    const size_t count = pashkure_locks_cycle(locks, told, waits, 16);
    for (size_t i = 0; i < count; i++) {
        const pashkure_wait *wait = &waits[i];
        fprintf(stderr, "deadlock: %s waits for %.*s of %s\n", titles[wait->key.slot], (int)wait->length, (const char *)wait->name,
            titles[wait->holder.slot]);
    }
}

struct transfer {
    const char *title;
    unsigned mine, from, to;
    pthread_barrier_t *both; /* each has its first row, and asks for that of the other */
    int deadlocks;
};

static pashkure_result move_ten(struct transfer *my, struct transaction *tx, bool meets)
{
    pashkure_result result = add(tx, my->from, -10, PASHKURE_FOREVER);
    if (meets)
        pthread_barrier_wait(my->both);
    return result == PASHKURE_OK ? add(tx, my->to, 10, PASHKURE_FOREVER) : result;
}

/* Pauses for a random time, up to a millisecond. */
static void pause_some(unsigned *random)
{
    struct timespec pause = {0, 0};
    *random = *random * 1103515245u + 12345u;
    pause.tv_nsec = (long)((*random >> 16) % 1000u) * 1000;
    nanosleep(&pause, NULL);
}

/* After a deadlock only the moves are undone, and their rows given back, for one of which the other transaction waits. To ask again before that
 * would be in vain. */
static void *transfers(void *given)
{
    struct transfer *my = given;
    unsigned random = my->from;
    struct transaction tx;
    size_t savepoint;
    pashkure_result result;
    begin(&tx, my->title);
    must_be_ok(add(&tx, my->mine, 1, PASHKURE_FOREVER));
    savepoint = tx.count;
    while ((result = move_ten(my, &tx, my->deadlocks == 0)) == PASHKURE_DEADLOCK) {
        must(++my->deadlocks < ATTEMPTS, "too many deadlocks");
        log_deadlock(tx.key);
        roll_back_to(&tx, savepoint);
        pause_some(&random);
    }
    must_be_ok(result);
    must_be_ok(pashkure_locks_commit(locks, tx.key));
    return NULL;
}

static void deadlock(void)
{
    pthread_barrier_t both;
    struct transfer there = {"there", 6, 0, 1, &both, 0}, back = {"back", 7, 1, 0, &both, 0};
    pthread_t thread;
    must(pthread_barrier_init(&both, NULL, 2) == 0, "no barrier");
    must(pthread_create(&thread, NULL, transfers, &there) == 0, "no thread");
    transfers(&back);
    pthread_join(thread, NULL);
    pthread_barrier_destroy(&both);
    printf(
        "rows 0, 1, 6 and 7 have %ld, %ld, %ld and %ld, after %d deadlock\n", rows[0], rows[1], rows[6], rows[7], there.deadlocks + back.deadlocks);
}

/* ---- A time-out, and a savepoint ---- */

static void time_out(void)
{
    struct transaction owner, other;
    size_t savepoint;
    begin(&owner, "owner");
    begin(&other, "other");
    must_be_ok(add(&owner, 4, 1, PASHKURE_FOREVER));
    must_be_ok(add(&other, 2, 1, PASHKURE_FOREVER));
    savepoint = other.count;
    must_be_ok(add(&other, 3, 1, PASHKURE_FOREVER));
    printf("row 4: %s\n", pashkure_message(add(&other, 4, 1, 10 * MILLISECOND)));
    roll_back_to(&other, savepoint); /* row 3 is as it was, and free; row 2 is still its own */
    must_be_ok(pashkure_locks_commit(locks, other.key));
    must_be_ok(pashkure_locks_commit(locks, owner.key));
    printf("rows 2, 3 and 4 have %ld, %ld and %ld\n", rows[2], rows[3], rows[4]);
}

/* ---- A query that is killed ---- */

struct query {
    struct transaction tx;
    pashkure_result result;
};

static void *runs(void *given)
{
    struct query *my = given;
    my->result = add(&my->tx, 5, 1, PASHKURE_FOREVER);
    roll_back(&my->tx);
    return NULL;
}

static void kill_query(void)
{
    struct transaction owner;
    struct query query;
    pthread_t thread;
    begin(&owner, "owner");
    begin(&query.tx, "query");
    must_be_ok(add(&owner, 5, 1, PASHKURE_FOREVER));
    must(pthread_create(&thread, NULL, runs, &query) == 0, "no thread");
    must_be_ok(pashkure_locks_interrupt(locks, query.tx.key)); /* whether it waits already, or is about to */
    pthread_join(thread, NULL);
    printf("row 5: %s\n", pashkure_message(query.result));
    must_be_ok(pashkure_locks_commit(locks, owner.key));
}

int main(void)
{
    pashkure_config config = PASHKURE_CONFIG;
    config.transactions = TRANSACTIONS;
    must_be_ok(pashkure_locks_open(&locks, &config));
    deadlock();
    time_out();
    kill_query();
    must_be_ok(pashkure_locks_close(locks));
    return 0;
}
