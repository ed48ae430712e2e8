/* The seats of pashkure_threads.h. Each slot has one, with the worker that takes names by their words, without the mutex. All else is a call of
 * the desk, and made with the mutex.
 *
 * Of a seat, who has set its word to CALLING reads and writes the rest without the mutex, but for `interrupted` and `has_news`,
 * which are atomic, and what else belongs to a wait, which is written with the mutex. */
#ifndef PASHKURE_SEATS_H
#define PASHKURE_SEATS_H

#define _POSIX_C_SOURCE 200809L
#include "pashkure_desk.h"
#include "pashkure_threads.h"

#include <pthread.h>
#include <sched.h>
#include <stdatomic.h>
#include <time.h>

#define NOBODY UINT32_MAX

/* So many bytes lie between what two threads write. Else both would write to one cache line, which halves their speed. */
enum { APART = 128 };

/* What a word of a seat says, beside the generation: nobody has the slot; its transaction is in no call; it is in a call, or waits; it ends. */
enum { FREE, IDLE, CALLING, ENDING };

/* How many slots a word of `may_be_free` is for. */
enum { SLOTS_OF_WORD = 64 };

/* How many addresses stand for the names, for ThreadSanitizer: a bit each in an uint64_t. */
enum { ORDERS = 64 };

/* So many nanoseconds a thread stays awake for what others have. If each yield is a turn of another program, it sleeps after the first. */
enum { AWAKE = 50000 };

/* So many waits of a deadlock are kept at most, and so many bytes of their names together: no name is longer. */
enum { CYCLE_WAITS = 16, CYCLE_BYTES = 1024 };

/* What the last deadlock was about that a transaction was told of. Only who is in its seat reads or writes it. */
struct cycle {
    uint32_t generation; /* of that transaction; 0 if the slot had none */
    uint32_t count;
    size_t used; /* of the names, which are one behind the other */
    pashkure_wait waits[CYCLE_WAITS];
    unsigned char names[CYCLE_BYTES];
};

/* What is kept of each transaction, by its slot. */
struct seat {
    _Atomic uint64_t word;
    _Atomic uint32_t interrupted; /* the generation of the transaction whose next request is to be told; else 0 */
    bool is_known;                /* it may own something at the desk */
    _Atomic bool has_news;        /* its wait is over; it looks for that before it sleeps */
    uint64_t orders;              /* for ThreadSanitizer: the addresses of the names that it has taken or asked for */
    pashkure_worker worker;
    _Atomic uint64_t committed, aborted; /* how many of the slot's transactions */
    pashkure_result over;                /* how its last wait ended: OK, TIMED_OUT, INTERRUPTED */
    uint32_t next_due;                   /* in the list of those whose wake call is due */
    pashkure_wake_call *wake;            /* NULL if a thread sleeps */
    void *context;
    pthread_cond_t news; /* its thread sleeps here */
    void *between;       /* memory between its worker and the next one, which nobody uses */
    char apart[APART];
};

struct pashkure_locks {
    pthread_mutex_t mutex;
    pashkure_desk desk;
    _Atomic uint32_t contenders;  /* how many threads wait for the mutex */
    bool has_all;                 /* all names were brought to the desk */
    uint32_t first_due, last_due; /* wake calls to make, in order */
    _Atomic uint64_t doubts;      /* above: how often a bit was cleared that may have to be set again; below: how many of these are not decided */
    char apart[APART];
    uint32_t slots;                /* this and the next two are written by the opening alone */
    _Atomic uint64_t *may_be_free; /* a bit for each slot. If it is not set, a transaction has the slot, and its end sets it */
    struct cycle *cycles;          /* by slot, apart from the seats: most of this memory is never touched */
    char orders[ORDERS];           /* for ThreadSanitizer: only their addresses are used */
    char apart_too[APART - ORDERS];
    struct seat seats[];
};

static inline uint64_t word_of(uint32_t generation, uint32_t state)
{
    return (uint64_t)generation << 32 | state;
}
static inline uint32_t state_of(uint64_t word)
{
    return (uint32_t)word;
}
static inline uint32_t generation_of(uint64_t word)
{
    return (uint32_t)(word >> 32);
}

/* The key of the transaction that has a slot: at the desk it has a generation of its own. */
static inline pashkure_key key_of(const pashkure_locks *locks, uint32_t slot)
{
    return (pashkure_key){slot, generation_of(atomic_load_explicit(&locks->seats[slot].word, memory_order_relaxed))};
}

/* The seat of a live transaction, in which this thread is the only one from now on, or NULL and the refusal. `to` is CALLING or ENDING. */
static inline struct seat *take_seat_to(uint32_t to, pashkure_locks *locks, pashkure_key key, pashkure_result *refusal)
{
    struct seat *seat;
    uint64_t word = word_of(key.generation, IDLE);
    *refusal = PASHKURE_NO_TRANSACTION;
    if (key.slot >= locks->slots)
        return NULL;
    seat = &locks->seats[key.slot];
    if (atomic_compare_exchange_strong(&seat->word, &word, word_of(key.generation, to)))
        return seat;
    if (word == word_of(key.generation, CALLING) || word == word_of(key.generation, ENDING))
        *refusal = PASHKURE_WAITING;
    return NULL;
}

static inline void leave_seat(struct seat *seat, pashkure_key key)
{
    atomic_store_explicit(&seat->word, word_of(key.generation, IDLE), memory_order_release);
}

/* ---- Time and the mutex ---- */

static inline int64_t now(void)
{
    struct timespec at;
    clock_gettime(CLOCK_MONOTONIC, &at);
    return (int64_t)at.tv_sec * 1000000000 + at.tv_nsec;
}

/* Yields the processor so often, if the time does not come before: whether it did not. */
static inline bool yields_before(int64_t time, int yields)
{
    while (yields-- > 0) {
        sched_yield();
        if (now() >= time)
            return false;
    }
    return true;
}

/* Sleeps until the mutex is free, and takes it. */
static inline void sleep_for_mutex(pashkure_locks *locks)
{
    atomic_fetch_add_explicit(&locks->contenders, 1, memory_order_relaxed);
    pthread_mutex_lock(&locks->mutex);
    atomic_fetch_sub_explicit(&locks->contenders, 1, memory_order_relaxed);
}

/* ---- Calls of pashkure_threads.c that its other files make, all but the first one with the mutex ---- */

/* Takes the mutex. */
void seats_enter(pashkure_locks *locks);

/* Gives the mutex back, and makes the wake calls that are due. */
void seats_leave(pashkure_locks *locks);

/* Ends the waits that the last call of the desk ended. */
void seats_tell(pashkure_locks *locks);

/* ---- ThreadSanitizer, of which a program that is built with it has these. It sees the mutex, but not the words. ---- */

__attribute__((weak)) void __tsan_acquire(void *address);
__attribute__((weak)) void __tsan_release(void *address);
__attribute__((weak)) void AnnotateIgnoreReadsBegin(const char *file, int line);
__attribute__((weak)) void AnnotateIgnoreReadsEnd(const char *file, int line);

/* Which address stands for the name: by FNV-1a. */
static inline uint32_t order_of(const void *name, size_t length)
{
    const unsigned char *bytes = (const unsigned char *)name;
    uint32_t hash = 2166136261u;
    for (size_t i = 0; i < length; i++)
        hash = (hash ^ bytes[i]) * 16777619u;
    return (hash ^ hash >> 16) % ORDERS;
}

/* What was done before a name was given back is seen by who takes it after that. Two names seldom share an address, and so ThreadSanitizer sees
 * a race of two threads that lock different names. */
static inline pashkure_result took(pashkure_locks *locks, struct seat *seat, const pashkure_request *request, pashkure_result result)
{
    if (__tsan_acquire != NULL && (PASHKURE_OWNS(result) || result == PASHKURE_WAITS)) {
        const uint32_t order = order_of(request->name, request->length);
        seat->orders |= (uint64_t)1 << order;
        if (result != PASHKURE_WAITS)
            __tsan_acquire(&locks->orders[order]);
    }
    return result;
}

static inline void gives(pashkure_locks *locks, const void *name, size_t length)
{
    if (__tsan_release != NULL)
        __tsan_release(&locks->orders[order_of(name, length)]);
}

static inline void gives_all(pashkure_locks *locks, struct seat *seat)
{
    if (__tsan_release == NULL)
        return;
    for (uint32_t order = 0; order < ORDERS; order++)
        if (seat->orders >> order & 1)
            __tsan_release(&locks->orders[order]);
    seat->orders = 0;
}

/* Round a call that writes a name which the desk may read, or reads one: it sees no more than that bytes are copied. */
static inline void hides(void)
{
    if (AnnotateIgnoreReadsBegin != NULL)
        AnnotateIgnoreReadsBegin(__FILE__, __LINE__);
}

static inline void shows(void)
{
    if (AnnotateIgnoreReadsEnd != NULL)
        AnnotateIgnoreReadsEnd(__FILE__, __LINE__);
}

#endif
