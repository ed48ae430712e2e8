/* pashkure_remote.h - exclusive locks on names, for transactions, in a lock service on its Unix socket.            C11 and POSIX; C++ may include it.
 *
 * The service answers each request at once: the transaction owns the name, or it waits, or its request would have closed a cycle of waits and was
 * refused (a deadlock, which only the requester is ever told of). When a connection ends, also because its program is killed, the service aborts
 * each transaction that was begun on it.
 *
 *   WHAT THE CALLER OWES, and nothing tests.
 *   1. One thread at a time uses a connection. Threads that lock at the same time have a connection each; these share nothing.
 *   2. A connection begins as PASHKURE_REMOTE_CLOSED, or as zero bytes. Only these calls write it; it may be moved, not copied.
 *   3. Pointers are valid and not NULL. A name is text that ends with a zero.
 *   4. What a call is given to call (`each`) does not use the connection.
 *
 * Memory. No call takes any: a program keeps its connections and transactions as it likes.
 * Signals. A call that a signal interrupts goes on. A broken connection raises no SIGPIPE.
 * Faults. After LOST, PROTOCOL or CONNECTIONS_FULL the connection is closed, and each further call returns the same, until it is opened again. */
#ifndef PASHKURE_REMOTE_H
#define PASHKURE_REMOTE_H

#include <limits.h>
#include <stdbool.h>
#include <stddef.h>
#include <stdint.h>

#ifdef __cplusplus
extern "C" {
#endif

#define PASHKURE_REMOTE_NAME_BYTES 1024          /* the longest name that any service accepts */
#define PASHKURE_REMOTE_FENCE_BYTES 42           /* room for the text of a fence, and the zero at its end */
#define PASHKURE_REMOTE_FOREVER UINT_MAX         /* of milliseconds: without an end */
#define PASHKURE_REMOTE_REPLY_MILLISECONDS 10000 /* in which the service has to answer, unless pashkure_remote_reply_within says otherwise */

/* ---- Results. Each keeps its number. ---- */
typedef enum pashkure_remote_result {
    PASHKURE_REMOTE_OK = 0,        /* done. Of a request: the transaction owns the name from now on */
    PASHKURE_REMOTE_HELD = 1,      /* the transaction owned the name before; it is still owned once */
    PASHKURE_REMOTE_WAITS = 2,     /* the transaction waits; only pashkure_remote_ask says so */
    PASHKURE_REMOTE_DEADLOCK = 3,  /* the request would have closed a cycle of waits, and was refused: see below */
    PASHKURE_REMOTE_BUSY = 4,      /* another one owns the name, and nothing was changed */
    PASHKURE_REMOTE_FREE = 7,      /* nobody owns the name */
    PASHKURE_REMOTE_ABORTED = 8,   /* its wait has ended, since it has: the operator aborted it */
    PASHKURE_REMOTE_TIMED_OUT = 9, /* its time is up. It waits no longer, and keeps what it owns */

    /* Refusals: the call has changed nothing. */
    PASHKURE_REMOTE_NO_TRANSACTION = 16,    /* it ended, was never begun, or is another connection's. Nothing is sent for one of before an opening */
    PASHKURE_REMOTE_WAITING = 18,           /* it waits */
    PASHKURE_REMOTE_NOT_WAITING = 19,       /* it does not wait: what it asked for it was given */
    PASHKURE_REMOTE_NAME_TOO_LONG = 21,     /* the name is longer than the service was started for */
    PASHKURE_REMOTE_NOT_OWNER = 22,         /* it does not own the name */
    PASHKURE_REMOTE_TRANSACTIONS_FULL = 23, /* as many are live, at the service or on this connection, as can be */
    PASHKURE_REMOTE_NAMES_FULL = 24,        /* as many names are owned as can be */
    PASHKURE_REMOTE_LABELS_FULL = 25,       /* nobody may begin to wait any more: the service has to be started anew */
    PASHKURE_REMOTE_COUNTS_FULL = 26,       /* only ends are taken: the service has to be started anew */
    PASHKURE_REMOTE_TOO_MANY_NAMES = 28,    /* the transaction owns as many as one may (--names-each) */
    PASHKURE_REMOTE_NOT_OPEN = 32,          /* the connection is closed */
    PASHKURE_REMOTE_IN_USE = 33,            /* of open: the connection is open */

    PASHKURE_REMOTE_LOST = 64,                /* the service has ended, hangs, or ended the connection: all that was locked over it is lost */
    PASHKURE_REMOTE_PROTOCOL = 65,            /* the service answered what this client does not understand */
    PASHKURE_REMOTE_CANNOT_CONNECT = 66,      /* of open: errno says why */
    PASHKURE_REMOTE_BAD_NAME = 67,            /* it is empty, longer than 1,024 bytes, or has a space or a control character. Nothing was sent */
    PASHKURE_REMOTE_OPERATOR = 80,            /* only the operator's socket takes the request; or it does not take it */
    PASHKURE_REMOTE_NO_EPOCH = 81,            /* the service has no epoch, and so no fences */
    PASHKURE_REMOTE_CONNECTIONS_FULL = 84,    /* the service has as many clients as it can */
    PASHKURE_REMOTE_OTHER_PROTOCOL = 85,      /* of open: the service speaks another protocol. Restart it first, from this client's version */
    PASHKURE_REMOTE_RESULT_BITS_ = 0x7fffffff /* no result: gives the enum 32 bits with each compiler */
} pashkure_remote_result;

#define PASHKURE_REMOTE_OWNS(result) ((result) <= PASHKURE_REMOTE_HELD) /* a request: the transaction owns the name now */

/* After DEADLOCK the transaction waits for nothing, keeps what it owns, and may go on. But each transaction of the cycle waits, directly or over
 * others, for this one. So give back what they wait for, as back to a savepoint, or abort. One that asks again before that is told DEADLOCK again,
 * and all of them wait on. */

/* What a result means, in English. Never NULL. */
const char *pashkure_remote_message(pashkure_remote_result result);

/* ---- Values. All are plain, and may be copied. ---- */

/* A transaction: its key, which the service writes slot.generation, and which opening of its connection it is of. A service that was started anew
 * gives the keys of the one before again; a value of before the opening is refused, and not sent. One of zero bytes is nobody. */
typedef struct pashkure_remote_transaction {
    uint32_t slot, generation;
    uint64_t opening;
} pashkure_remote_transaction;

/* A waiter, the name that it waits for, and who owns that. */
typedef struct pashkure_remote_wait_for {
    pashkure_remote_transaction waiter;
    char name[PASHKURE_REMOTE_NAME_BYTES + 1];
    pashkure_remote_transaction holder;
} pashkure_remote_wait_for;

typedef void pashkure_remote_each_name(void *context, const char *name);
typedef void pashkure_remote_each_wait(void *context, const pashkure_remote_wait_for *wait);

/* A connection. Its members are the library's. */
typedef struct pashkure_remote_connection {
    uint64_t opening; /* how often it was opened */
    bool is_open;
    int socket;
    pashkure_remote_result fault; /* why it is closed; OK: nobody opened it, or it was closed by a call */
    pashkure_remote_each_wait *each;
    void *context;
    uint64_t deadlocks;          /* how many it was told of */
    unsigned reply_milliseconds; /* in which the service has to answer; 0: PASHKURE_REMOTE_REPLY_MILLISECONDS */
    int64_t call_end, due;       /* when the time of the call ends, 0: it has none; when the line has to be there */
    size_t start, end;           /* the bytes of input that were received and are not yet read */
    char input[2048];
} pashkure_remote_connection;
#ifdef __cplusplus
#define PASHKURE_REMOTE_CLOSED                                                                                                                       \
    {                                                                                                                                                \
    }
#else
#define PASHKURE_REMOTE_CLOSED                                                                                                                       \
    {                                                                                                                                                \
        0                                                                                                                                            \
    }
#endif

/* ---- Opening and closing ---- */

/* Connects to the service at this path: OK, or IN_USE, CANNOT_CONNECT, CONNECTIONS_FULL, LOST, PROTOCOL, OTHER_PROTOCOL. */
pashkure_remote_result pashkure_remote_open(pashkure_remote_connection *connection, const char *path);

/* Says in how many milliseconds the service has to answer each request from now on, 1 at least. If it does not, the connection is closed, and the call
 * returns LOST. While a call waits for a lock the service has to answer once in this time too. To a call with a time of its own it has to answer
 * within a second after that, if this is sooner. The connection may be closed or open. */
void pashkure_remote_reply_within(pashkure_remote_connection *connection, unsigned milliseconds);

/* Closes the connection: the service aborts what was begun on it. Nothing, if it is closed. */
void pashkure_remote_close(pashkure_remote_connection *connection);

/* ---- Transactions ---- */

/* Begins a transaction. If it is refused, the transaction is nobody. */
pashkure_remote_result pashkure_remote_begin(pashkure_remote_connection *connection, pashkure_remote_transaction *transaction);

/* Begins a transaction and locks names, as pashkure_remote_lock_all does, in one round trip. If it is refused before it began, the transaction is
 * nobody. Otherwise it has begun, whatever is returned, and is to be ended. */
pashkure_remote_result pashkure_remote_begin_with(pashkure_remote_connection *connection, pashkure_remote_transaction *transaction,
    const char *const *names, size_t count, unsigned milliseconds, size_t *place);

/* Waits until the transaction owns the name: OK or HELD; or returns DEADLOCK, at once. A thread that waits for a transaction of its own waits for
 * ever: use pashkure_remote_ask there. */
pashkure_remote_result pashkure_remote_lock(pashkure_remote_connection *connection, pashkure_remote_transaction transaction, const char *name);

/* As pashkure_remote_lock, and TIMED_OUT if the name was not granted in time. */
pashkure_remote_result pashkure_remote_lock_for(
    pashkure_remote_connection *connection, pashkure_remote_transaction transaction, const char *name, unsigned milliseconds);

/* Locks several names, in this order, in one round trip if none is another one's: OK, the transaction owns all. Otherwise the place of the name
 * that it stopped at: those before it are owned, those after it were not asked for. If all are owned the place is the count. The time is for all. */
pashkure_remote_result pashkure_remote_lock_all(pashkure_remote_connection *connection, pashkure_remote_transaction transaction,
    const char *const *names, size_t count, unsigned milliseconds, size_t *place);

/* Never waits for a lock: OK, HELD, or BUSY. */
pashkure_remote_result pashkure_remote_try_lock(pashkure_remote_connection *connection, pashkure_remote_transaction transaction, const char *name);

/* Gives one name back. */
pashkure_remote_result pashkure_remote_unlock(pashkure_remote_connection *connection, pashkure_remote_transaction transaction, const char *name);

/* Ends the transaction, and gives back all that it owns. */
pashkure_remote_result pashkure_remote_commit(pashkure_remote_connection *connection, pashkure_remote_transaction transaction);

/* The same, also of a transaction that waits. The operator may abort each transaction. */
pashkure_remote_result pashkure_remote_abort(pashkure_remote_connection *connection, pashkure_remote_transaction transaction);

/* For several transactions of one thread. pashkure_remote_ask asks for a name and does not wait: OK, HELD, WAITS or DEADLOCK.
 * pashkure_remote_wait waits until the transaction owns what it asked for: a grant that came during other calls is not lost.
 * pashkure_remote_cancel takes the wait back: OK, or NOT_WAITING if the name was granted before. */
pashkure_remote_result pashkure_remote_ask(pashkure_remote_connection *connection, pashkure_remote_transaction transaction, const char *name);
pashkure_remote_result pashkure_remote_wait(pashkure_remote_connection *connection, pashkure_remote_transaction transaction);
pashkure_remote_result pashkure_remote_cancel(pashkure_remote_connection *connection, pashkure_remote_transaction transaction);

/* Says what is called for each wait of a deadlock, from then on by any call on this connection, as it reads; NULL: nothing. A call that returns
 * DEADLOCK has told the waits of its cycle before: first the one that was refused, and at most 16 others. Each holder is the next waiter, and the
 * last one is the first waiter again, or nobody if there are more. At the operator's socket the service tells each deadlock so, at any time. */
void pashkure_remote_on_deadlock(pashkure_remote_connection *connection, pashkure_remote_each_wait *each, void *context);

/* ---- Fences: numbers that rise, for a store that is written to under locks, and refuses a fence below one that it saw ---- */

typedef struct pashkure_remote_fence {
    uint64_t epoch, events; /* compared by the epoch first */
} pashkure_remote_fence;

/* The fence of a name that the transaction owns: OK, or NO_EPOCH, NOT_OWNER. */
pashkure_remote_result pashkure_remote_fence_of(
    pashkure_remote_connection *connection, pashkure_remote_transaction transaction, const char *name, pashkure_remote_fence *fence);

/* Writes a fence as text: both numbers with 19 digits, zeros in front, and a point between. Such texts sort as the fences do. */
void pashkure_remote_fence_text(pashkure_remote_fence fence, char text[PASHKURE_REMOTE_FENCE_BYTES]);

/* ---- Reading ---- */

typedef enum pashkure_remote_mode { PASHKURE_REMOTE_IS_ACTIVE, PASHKURE_REMOTE_IS_WAITING, PASHKURE_REMOTE_IS_ENDING } pashkure_remote_mode;

/* What a transaction does. It is ending if it gives back many names, part by part, since it commits or is aborted, or since its client has
 * hung up. Name and holder are those of its wait, and else empty. */
typedef struct pashkure_remote_status {
    pashkure_remote_mode mode;
    char name[PASHKURE_REMOTE_NAME_BYTES + 1];
    pashkure_remote_transaction holder;
} pashkure_remote_status;

/* How the service was started. */
typedef struct pashkure_remote_service {
    uint64_t epoch; /* 0: it has none */
    uint64_t transactions, names, name_bytes;
} pashkure_remote_service;

/* What was counted since the service started; pashkure_remote_totals gives the first four, and 0 for the others. */
typedef struct pashkure_remote_counts {
    uint64_t begun, committed, aborted, deadlocks;
    uint64_t waits, withdrawn, events;
    uint64_t labels_left, counts_left; /* requests that can yet wait or be told of a deadlock; events until COUNTS_FULL */
} pashkure_remote_counts;

/* Who owns the name: OK, or FREE. */
pashkure_remote_result pashkure_remote_owner(pashkure_remote_connection *connection, const char *name, pashkure_remote_transaction *owner);

/* What the transaction does. */
pashkure_remote_result pashkure_remote_status_of(
    pashkure_remote_connection *connection, pashkure_remote_transaction transaction, pashkure_remote_status *status);

/* Calls each for every name that the transaction owns, in the order of their bytes. They are read in parts of 1,024 names, each by a request of its own:
   a name that the transaction comes to own or gives back meanwhile may be among them or not. If a later part is refused, the names before it were told. */
pashkure_remote_result pashkure_remote_holds(
    pashkure_remote_connection *connection, pashkure_remote_transaction transaction, pashkure_remote_each_name *each, void *context);

pashkure_remote_result pashkure_remote_hello(pashkure_remote_connection *connection, pashkure_remote_service *service);
pashkure_remote_result pashkure_remote_totals(pashkure_remote_connection *connection, pashkure_remote_counts *counts);

/* ---- For the operator, at the operator's socket: others are told OPERATOR ---- */

typedef struct pashkure_remote_live {
    pashkure_remote_transaction transaction;
    uint32_t connection; /* the number of its client */
    pashkure_remote_status status;
} pashkure_remote_live;

typedef void pashkure_remote_each_live(void *context, const pashkure_remote_live *live);

/* Calls each for every live transaction; for every wait. In the order of their slots. */
pashkure_remote_result pashkure_remote_list(pashkure_remote_connection *connection, pashkure_remote_each_live *each, void *context);
pashkure_remote_result pashkure_remote_graph(pashkure_remote_connection *connection, pashkure_remote_each_wait *each, void *context);

pashkure_remote_result pashkure_remote_counts_of(pashkure_remote_connection *connection, pashkure_remote_counts *counts);

/* Waits until the service tells of a deadlock: OK, what pashkure_remote_on_deadlock was given was called; or TIMED_OUT. */
pashkure_remote_result pashkure_remote_listen(pashkure_remote_connection *connection, unsigned milliseconds);

#ifdef __cplusplus
}
#endif

#endif
