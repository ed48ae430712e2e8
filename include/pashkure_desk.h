/* pashkure_desk.h - what pashkure_threads.c stands on. Not installed, and not exported. C99.
 *
 * A name belongs to a bucket, and each bucket has a word. A bucket is free; or thin: one worker has taken it, for one name; or fat: its names
 * are those of the desk's lock manager. A worker takes and gives back thin buckets by itself, with no mutex. The desk makes buckets fat, and
 * hands what was thin to its manager, where transactions wait.
 *
 *   WHAT THE CALLER OWES. One thread at a time is in a call of a worker, and one in a call of a desk: by a mutex. A call of a desk that is given a
 *   worker is a call of both. Worker and desk are of one opening. Rules 2 to 4 of pashkure.h.
 *
 * Each worker has a transaction of the desk's manager, which is begun at the opening. The workers are numbered from 0 in the order in which they
 * are added; `at` is such a number. Results are those of pashkure.h and those below. Each call but the closing ones and free_all answers NOT_OPEN
 * of a closed one. */
#ifndef PASHKURE_DESK_H
#define PASHKURE_DESK_H

#include "pashkure.h"

#define PASHKURE_AGAIN ((pashkure_result)12)      /* another thread changed a word meanwhile, or the bucket is the desk's */
#define PASHKURE_FAT ((pashkure_result)13)        /* the bucket is the desk's: ask there */
#define PASHKURE_FULL ((pashkure_result)14)       /* the sixteen records of the worker are taken: ask the desk */
#define PASHKURE_NOT_THIN ((pashkure_result)15)   /* the name has no bytes, or more than 63 or than config.name_bytes: ask the desk */
#define PASHKURE_NOT_LET_GO ((pashkure_result)27) /* a bucket is still lent to a worker of this number: worker and desk are of two openings */

typedef struct pashkure_desk {
    void *at;
    uint64_t state;
} pashkure_desk;
typedef struct pashkure_worker {
    void *at;
    uint64_t state;
} pashkure_worker;
#define PASHKURE_DESK_CLOSED                                                                                                                         \
    {                                                                                                                                                \
        NULL, 0                                                                                                                                      \
    }
#define PASHKURE_WORKER_CLOSED                                                                                                                       \
    {                                                                                                                                                \
        NULL, 0                                                                                                                                      \
    }

/* ---- Opening and closing ---- */

/* OK, or IN_USE, BAD_.. as of pashkure_open, BAD_BUCKETS, NO_MEMORY. It takes all the memory of the desk: that of pashkure_open, 16 bytes a
 * bucket, 1,160 a transaction and 12 a name. All buckets are free. */
pashkure_result pashkure_desk_open(pashkure_desk *desk, const pashkure_config *config, uint32_t buckets);

/* Gives the memory of the desk back. The words stay until the last worker is closed. */
void pashkure_desk_close(pashkure_desk *desk);

/* A worker more: OK, or IN_USE (the worker is open), TRANSACTIONS_FULL (there are as many as config.transactions), NO_MEMORY. */
pashkure_result pashkure_desk_add_worker(pashkure_desk *desk, pashkure_worker *worker);

/* Gives back all that the worker has taken, lets go what is fat, and gives its memory back. */
void pashkure_worker_close(pashkure_worker *worker);

/* ---- A worker alone, with no mutex ---- */

/* Takes a name: OK, HELD (taken before), BUSY (another worker has the bucket, for this name or another), FAT, FULL, NOT_THIN. */
pashkure_result pashkure_worker_take(pashkure_worker *worker, const void *name, size_t length);

/* Gives a name back: OK, FREE (the worker has not taken it), AGAIN (its bucket is fat: pashkure_desk_unlock). */
pashkure_result pashkure_worker_give_back(pashkure_worker *worker, const void *name, size_t length);

/* Gives all back: OK, or AGAIN if something is left that is fat: pashkure_desk_commit or pashkure_desk_abort. */
pashkure_result pashkure_worker_give_back_all(pashkure_worker *worker);

/* ---- Requests, with the mutex ---- */

/* Makes the name's bucket fat. Then as pashkure_lock: OK, HELD, WAITS, DEADLOCK. AGAIN: ask again. */
pashkure_result pashkure_desk_ask(pashkure_desk *desk, pashkure_worker *worker, const void *name, size_t length);

/* The same, as pashkure_try_lock: OK, HELD, BUSY. */
pashkure_result pashkure_desk_try_lock(pashkure_desk *desk, pashkure_worker *worker, const void *name, size_t length);

/* ---- Ends, with the mutex. After OK read pashkure_desk_woken, before any other call that is no reading one ---- */

/* Gives a name back. FREE: the worker did so by itself, nobody waited for it, and pashkure_desk_woken is what it was. Else what the worker has
 * taken and is fat is let go, and then as pashkure_unlock. */
pashkure_result pashkure_desk_unlock(pashkure_desk *desk, pashkure_worker *worker, const void *name, size_t length);

/* The worker gives back or lets go all that it has taken, also if the end is refused. Then as pashkure_commit. After OK the worker has no live
 * transaction until pashkure_desk_begin. */
pashkure_result pashkure_desk_commit(pashkure_desk *desk, pashkure_worker *worker);

/* The same, as pashkure_abort: also of one that waits. */
pashkure_result pashkure_desk_abort(pashkure_desk *desk, pashkure_worker *worker);

/* Begins the next transaction of this worker, if it has no live one, and writes the key of its live one: OK. Refusals as of pashkure_begin. Its
 * slot is the worker's number as long as each end is followed by this call before another worker's end. */
pashkure_result pashkure_desk_begin(pashkure_desk *desk, uint32_t at, pashkure_key *key);

/* Takes the wait of this worker's transaction back, as pashkure_cancel: OK, and pashkure_desk_woken is empty. */
pashkure_result pashkure_desk_cancel(pashkure_desk *desk, uint32_t at);

/* ---- All buckets, with the mutex ---- */

/* Makes each bucket fat, so that no worker can take a name, and all that is owned is the manager's: OK. AGAIN: some were changed meanwhile, and
 * are not fat. Else the manager's refusal of a name that was thin, as NAMES_FULL: that bucket and those behind it are what they were. */
pashkure_result pashkure_desk_adopt_all(pashkure_desk *desk);

/* Frees each bucket that is fat, and of which nobody owns a name. */
void pashkure_desk_free_all(pashkure_desk *desk);

/* ---- Reading the desk's manager, with the mutex: as the calls of pashkure.h. A name that was taken thinly is not there ---- */

bool pashkure_desk_woken(pashkure_desk *desk, size_t index, pashkure_wake *woken);
pashkure_result pashkure_desk_look(pashkure_desk *desk, uint32_t slot, pashkure_seen *seen);
pashkure_result pashkure_desk_name(pashkure_desk *desk, uint32_t number, void *bytes, size_t room, size_t *length, pashkure_key *owner);
pashkure_result pashkure_desk_owner(pashkure_desk *desk, const void *name, size_t length, pashkure_key *owner);
void pashkure_desk_totals(pashkure_desk *desk, pashkure_counts *counts);

/* How many names this worker's transaction owns there. Their numbers are written, as many as there is room for, each once. */
size_t pashkure_desk_owned(pashkure_desk *desk, uint32_t at, uint32_t *numbers, size_t room);

#endif
