/* pashkure.h - exclusive locks on names, for transactions, in your own process.             C99, C++98 and later.
 *
 * A manager answers each request at once and finally: the transaction owns the name, or it waits, or its wait would close a cycle of waits
 * (a deadlock): then the request is refused, and the transaction goes on with what it owns. So between calls nobody waits for itself. No call
 * sleeps, calls back, starts a thread, or prints. What each call below does is proved, but for pashkure_message: README.md says what the
 * proofs rest on.
 *
 * Whenever a call ends somebody's wait, pashkure_woken names them, and the caller wakes them as it likes: a condition variable, an eventfd,
 * uv_async_send, a run queue. An event loop needs no more than that.
 *
 * After PASHKURE_DEADLOCK give back what others wait for: roll back to a savepoint, or abort. Do not ask for the name again before that: the
 * answer would be the same, and nobody in the cycle can go on, since each one waits, at the end, for this very transaction.
 *
 *   WHAT THE CALLER OWES, and nothing tests. All else is an answer: a wrong key, a closed manager, a full table, a name of any bytes.
 *   1. One call at a time uses a manager, the reading calls too. A call happens before the next one (by a mutex, a join, or one thread).
 *   2. A `pashkure` begins as PASHKURE_CLOSED, or as zero bytes. After pashkure_open only these calls write it; it may be moved, not copied.
 *   3. Pointers are valid and not NULL, and what a call writes does not overlap what it reads. With length 0 a name is not read.
 *   4. No call in a signal handler, and none in the child of a fork for a manager of its parent (the child would exclude nobody).
 *
 * Memory. pashkure_open takes all of it, from malloc: at most (name_bytes + 71) * names + 85 * transactions + 1,100 bytes. pashkure_close
 * gives all of it back, by free. No other call takes memory, so none fails for want of it.
 *
 * Time. Each call takes constant time, but: a name is hashed and compared; an end hands on each name that the transaction owns; a request
 * that waits, and an end that hands something on, pass labels to those that wait behind it.
 *
 * Versions. While the major number is 0 a minor number may change anything, and pashkure_open wants the same minor. From 1.0.0 on, programs run
 * with each later library of one major number: no call goes or changes, no struct changes its size, no number its meaning. A new minor number may
 * add calls, and results that only these new calls give. */
#ifndef PASHKURE_H
#define PASHKURE_H

#include <stdbool.h>
#include <stddef.h>
#include <stdint.h>

#define PASHKURE_VERSION 2000u /* of this header: major * 1,000,000 + minor * 1,000 + patch */

#if defined(__GNUC__) || defined(__clang__)
#define PASHKURE_CHECKED __attribute__((warn_unused_result)) /* an answer that is not looked at is a bug */
#else
#define PASHKURE_CHECKED
#endif

#ifdef __cplusplus
extern "C" {
#endif

/* ---- Results. The numbers do not change; 5, 6, 8, 17 and 38 stay free. From PASHKURE_REFUSED on, the call has changed nothing. ---- */
typedef enum pashkure_result {
    PASHKURE_OK = 0,           /* done. Of a request: the transaction owns the name from now on */
    PASHKURE_HELD = 1,         /* the transaction owned the name before; it is still owned once */
    PASHKURE_WAITS = 2,        /* it waits, and is never told of a deadlock: pashkure_woken will name it. Until then it makes no request */
    PASHKURE_DEADLOCK = 3,     /* its wait would close a cycle of waits. It does not wait, and goes on with what it owns */
    PASHKURE_BUSY = 4,         /* another one owns the name, and nothing was changed */
    PASHKURE_FREE = 7,         /* nobody owns the name, nobody has the slot, nobody has the number */
    PASHKURE_TIMED_OUT = 9,    /* 9 to 11 are for callers that sleep, no call below gives them. Its time is up: it waits no longer, and may go on */
    PASHKURE_INTERRUPTED = 10, /* the same, since another thread said so */
    PASHKURE_NOT_ASKED = 11,   /* of several names, one behind the name that was not given */

    PASHKURE_REFUSED = 16,           /* not an answer: the first number of a refusal */
    PASHKURE_NO_TRANSACTION = 16,    /* the key is of no live transaction: it ended, or never was */
    PASHKURE_WAITING = 18,           /* it waits */
    PASHKURE_NOT_WAITING = 19,       /* it does not wait: what it asked for it was given */
    PASHKURE_NAME_EMPTY = 20,        /* the length is 0 */
    PASHKURE_NAME_TOO_LONG = 21,     /* the length is above config.name_bytes */
    PASHKURE_NOT_OWNER = 22,         /* it does not own the name */
    PASHKURE_TRANSACTIONS_FULL = 23, /* config.transactions are live. Ends make room */
    PASHKURE_NAMES_FULL = 24,        /* config.names are owned, and this is a further one. Ends make room; PASHKURE_WAITS is never refused so */
    PASHKURE_LABELS_FULL = 25,       /* 8,796,093,022,207 answers WAITS or DEADLOCK: nobody may ask for what another one owns. End all, close, open */
    PASHKURE_COUNTS_FULL = 26,       /* 4,611,686,018,360,279,040 events: only ends are taken. End all, close, open */
    PASHKURE_TOO_MANY_NAMES = 28,    /* the transaction owns config.names_each, and this is a further one. Unlocks make room */
    PASHKURE_NOT_OPEN = 32,          /* the manager is closed */
    PASHKURE_IN_USE = 33,            /* pashkure_open of an open one; pashkure_locks_close while a transaction is live */
    PASHKURE_BAD_VERSION = 34,       /* the library does not serve config.header, or it is 0: the config did not begin as PASHKURE_CONFIG */
    PASHKURE_BAD_TRANSACTIONS = 35,  /* out of the range beside the member; so the next two */
    PASHKURE_BAD_NAMES = 36,
    PASHKURE_BAD_NAME_BYTES = 37,
    PASHKURE_NO_MEMORY = 39,
    PASHKURE_BAD_BUCKETS = 40, /* also of pashkure_open, if it is not 0 */
    /* 64 to 95 are for the client of the lock service, whose other results have the numbers above. */
    PASHKURE_RESULT_BITS_ = 0x7fffffff /* no result: gives the enum 32 bits with each compiler */
} pashkure_result;

#define PASHKURE_OWNS(result) ((result) <= PASHKURE_HELD)          /* a request: the transaction owns the name now */
#define PASHKURE_IS_REFUSAL(result) ((result) >= PASHKURE_REFUSED) /* the call has changed nothing */

/* What a result means, in English, as "the transaction waits". Never NULL. Any thread, any time; the text is for ever. */
const char *pashkure_message(pashkure_result result);

/* ---- Values. All are plain, and may be copied. ---- */

/* The key of a transaction. Of one manager no two transactions ever have the same key, and none has {0, 0}. So a key that is out of date does
 * no harm: calls refuse it. `slot` is below config.transactions, and no two live transactions share it: an index for what you keep of each. */
typedef struct pashkure_key {
    uint32_t slot, generation;
} pashkure_key;

typedef struct pashkure_config {
    uint32_t header;       /* PASHKURE_VERSION, by PASHKURE_CONFIG: how the library knows what you were compiled with */
    uint32_t transactions; /* how many can be live at a time: 1 to 65,536. Each slot serves 4,294,967,295, then begin stays full */
    uint32_t names;        /* how many can be owned at a time: 1 to 16,777,216 */
    uint32_t name_bytes;   /* how many bytes a name may have: 1 to 1,024. Any bytes; a name of numbers is as good as text */
    uint64_t seed;         /* of the hash of names: any number that those who choose names do not know, as of getrandom */
    uint32_t buckets;      /* of pashkure_locks_open; else 0 */
    uint32_t names_each;   /* how many one transaction may own, so that it does not own those of all others; 0: as many as there are */
} pashkure_config;
#define PASHKURE_CONFIG                                                                                                                              \
    {                                                                                                                                                \
        PASHKURE_VERSION, 1024, 4096, 64, 0, 0, 0                                                                                                    \
    } /* pashkure_config config = PASHKURE_CONFIG; then set members */

/* A manager. Its members are the library's. */
typedef struct pashkure {
    void *manager;
    uint64_t state;
} pashkure;
#define PASHKURE_CLOSED                                                                                                                              \
    {                                                                                                                                                \
        NULL, 0                                                                                                                                      \
    }

/* Whose wait the last call ended: it owns the name of this number. */
typedef struct pashkure_wake {
    pashkure_key key;
    uint32_t number;
} pashkure_wake;

/* A live transaction, as pashkure_look sees it. Holder and number are those of its wait; without one they are 0. */
typedef struct pashkure_seen {
    pashkure_key key, holder;
    uint32_t number;
} pashkure_seen;

/* What was counted since the opening. Live now: begun - committed - aborted. */
typedef struct pashkure_counts {
    uint64_t begun, committed, aborted, deadlocks;
    uint64_t waits, withdrawn; /* requests answered PASHKURE_WAITS; waits that were cancelled. By waits + deadlocks PASHKURE_LABELS_FULL goes */
    uint64_t events;           /* by which PASHKURE_COUNTS_FULL goes */
    uint64_t reserved;
} pashkure_counts;

/* The version of the library, as PASHKURE_VERSION is of this header. pashkure_open compares them. */
uint32_t pashkure_version(void);

/* ---- Opening and closing ---- */

/* OK, or IN_USE, BAD_.. (the first that applies, in the order of the members), NO_MEMORY. A refused one stays as it was. */
pashkure_result pashkure_open(pashkure *locks, const pashkure_config *config) PASHKURE_CHECKED;

/* Gives all memory back, also if transactions are live. The manager may be opened again. Nothing, if it is closed. */
void pashkure_close(pashkure *locks);

/* ---- Transactions. Refusals of each: those listed, in this order; NOT_OPEN before all of them. ---- */

/* Begins one: OK, and its key. COUNTS_FULL, TRANSACTIONS_FULL. A refused call writes no key. Transactions belong to no thread. */
pashkure_result pashkure_begin(pashkure *locks, pashkure_key *key) PASHKURE_CHECKED;

/* Asks for a name: OK, HELD, WAITS, or DEADLOCK exactly if the wait would close a cycle of waits. Those that wait for one name are given it
 * in the order in which they asked. After OK (and not HELD) note the name, if you have savepoints: to roll back to one is to unlock what was
 * noted since. NO_TRANSACTION, WAITING, COUNTS_FULL, NAME_EMPTY, NAME_TOO_LONG, TOO_MANY_NAMES, NAMES_FULL,
 * LABELS_FULL.
 *
 * Right after DEADLOCK the waits of the cycle stand, from the owner of the name to this transaction, and this gives them:
 *     pashkure_key at;
 *     pashkure_seen seen;
 *     if (pashkure_owner(&locks, name, length, &at) == PASHKURE_OK)
 *         for (; pashkure_look(&locks, at.slot, &seen) == PASHKURE_WAITS; at = seen.holder)
 *             report(seen.key, seen.number, seen.holder);                                                                                    */
pashkure_result pashkure_lock(pashkure *locks, pashkure_key key, const void *name, size_t length) PASHKURE_CHECKED;

/* As pashkure_lock, but never waits: OK, HELD, or BUSY if another one owns the name. Never DEADLOCK. Refusals as there, no LABELS_FULL. */
pashkure_result pashkure_try_lock(pashkure *locks, pashkure_key key, const void *name, size_t length) PASHKURE_CHECKED;

/* ---- Ends. After the first three read pashkure_woken, or somebody sleeps for ever. None is ever refused for want of room or counts. ---- */

/* Gives one name back: OK. NO_TRANSACTION, WAITING, NAME_EMPTY, NAME_TOO_LONG, NOT_OWNER. */
pashkure_result pashkure_unlock(pashkure *locks, pashkure_key key, const void *name, size_t length) PASHKURE_CHECKED;

/* Ends the transaction, and gives back all that it owns: OK. NO_TRANSACTION, WAITING. */
pashkure_result pashkure_commit(pashkure *locks, pashkure_key key) PASHKURE_CHECKED;

/* The same, also of a transaction that waits: OK. Undo its work first: others own its names when this returns. NO_TRANSACTION. */
pashkure_result pashkure_abort(pashkure *locks, pashkure_key key) PASHKURE_CHECKED;

/* Takes the wait of the transaction back (a time-out, a killed query): OK, it goes on with what it owns. It ends no other wait. NO_TRANSACTION,
 * NOT_WAITING (it was given the name before). */
pashkure_result pashkure_cancel(pashkure *locks, pashkure_key key) PASHKURE_CHECKED;

/* Whose waits the last unlock, commit or abort ended, in order, by index from 0: false if there are no more. It stays until the next call that
 * is no reading one.
 *     pashkure_wake woken;
 *     for (size_t i = 0; pashkure_woken(&locks, i, &woken); i++) wake(woken.key.slot);                                                     */
bool pashkure_woken(const pashkure *locks, size_t index, pashkure_wake *woken);

/* ---- Reading. These change nothing. ---- */

/* What is in a slot: OK (active), WAITS, or FREE. Over the slots below config.transactions it gives all transactions, and the wait-for graph.
 * From one that waits on, holder by holder, it leads to one that works. */
pashkure_result pashkure_look(const pashkure *locks, uint32_t slot, pashkure_seen *seen);

/* The name of a number, and its owner: OK, or FREE. A name has one number, below config.names, as long as it is owned. The length is written,
 * and the bytes if there is room. Over the numbers below config.names this gives all locks. */
pashkure_result pashkure_name(const pashkure *locks, uint32_t number, void *bytes, size_t room, size_t *length, pashkure_key *owner);

/* Who owns the name: OK, or FREE. */
pashkure_result pashkure_owner(const pashkure *locks, const void *name, size_t length, pashkure_key *owner);

/* What was counted. Of a closed manager all is 0. */
void pashkure_totals(const pashkure *locks, pashkure_counts *counts);

/* The sizes that the library was built for. An error in these lines: a compiler whose layout is another one. */
typedef char pashkure_sizes_[sizeof(pashkure_result) == 4 && sizeof(pashkure_key) == 8 && sizeof(pashkure_config) == 32 && sizeof(pashkure_wake) == 12
                                     && sizeof(pashkure_seen) == 20 && sizeof(pashkure_counts) == 64 && sizeof(pashkure) == 16
                                 ? 1
                                 : -1];

#ifdef __cplusplus
}
#endif
#endif
