/* The opening and the close of pashkure_threads.h, the begins, and what it reads. C11 and POSIX threads. */
#include "pashkure_seats.h"

#include <stdlib.h>

/* As many buckets as names, but not fewer than this: then two names that are owned seldom share one. More would be slower, since each lies in a
 * cache line of its own mostly. */
enum { LEAST_BUCKETS = 8192 };

static uint32_t buckets_of(const pashkure_config *config)
{
    if (config->buckets != 0)
        return config->buckets;
    return config->names < LEAST_BUCKETS ? LEAST_BUCKETS : config->names;
}

/* ---- Begins ---- */

/* The slot in which this thread began last, where it looks first: two threads that each begin one at a time do not meet, and write no bits. No call
 * and no memory is needed to find it. */
static _Thread_local uint32_t last_slot __attribute__((tls_model("initial-exec"))) = NOBODY;

/* So many slots a begin looks at before it looks for a bit. */
enum { NEAR = 8 };

/* A bit more that was cleared, and of which it is not decided whether it is to be set again. */
static const uint64_t DOUBT = ((uint64_t)1 << 32) + 1;

/* Begins in this slot, if it is free: whether it was. */
static bool take_slot(pashkure_locks *locks, uint32_t slot, pashkure_key *key)
{
    struct seat *seat = &locks->seats[slot];
    uint64_t word = atomic_load_explicit(&seat->word, memory_order_relaxed);
    const uint32_t generation = generation_of(word) + 1;
    if (state_of(word) != FREE || generation == 0)
        return false;
    if (!atomic_compare_exchange_strong_explicit(&seat->word, &word, word_of(generation, IDLE), memory_order_acquire, memory_order_relaxed))
        return false;
    last_slot = slot;
    *key = (pashkure_key){slot, generation};
    return true;
}

/* Begins in one of the slots behind the thread's last one: whether one of the first was free. Clears its bit. */
static bool take_near(pashkure_locks *locks, pashkure_key *key)
{
    uint32_t slot = last_slot % locks->slots;
    for (int tried = 0; tried < NEAR; tried++) {
        slot = slot + 1 < locks->slots ? slot + 1 : 0;
        if (!take_slot(locks, slot, key))
            continue;
        atomic_fetch_and(&locks->may_be_free[slot / SLOTS_OF_WORD], ~((uint64_t)1 << slot % SLOTS_OF_WORD));
        return true;
    }
    return false;
}

/* Whether the slot is free or its transaction ends, and it can be begun in again. */
static bool comes_free(pashkure_locks *locks, uint32_t slot)
{
    const uint64_t word = atomic_load(&locks->seats[slot].word);
    return (state_of(word) == FREE || state_of(word) == ENDING) && generation_of(word) != UINT32_MAX;
}

/* Begins in one of these slots of a word, if its bit is set and it is free: whether one was. Clears the bits of those that are taken, so that each
 * is looked at once. */
static bool take_marked(pashkure_locks *locks, uint32_t index, uint64_t among, pashkure_key *key)
{
    _Atomic uint64_t *bits = &locks->may_be_free[index];
    for (uint64_t left = atomic_load(bits) & among; left != 0; left &= left - 1) {
        const uint32_t slot = index * SLOTS_OF_WORD + (uint32_t)__builtin_ctzll(left);
        const uint64_t bit = left & -left;
        if (take_slot(locks, slot, key)) {
            atomic_fetch_and(bits, ~bit);
            return true;
        }
        atomic_fetch_add(&locks->doubts, DOUBT);
        atomic_fetch_and(bits, ~bit);
        if (comes_free(locks, slot))
            atomic_fetch_or(bits, bit);
        atomic_fetch_sub(&locks->doubts, 1);
    }
    return false;
}

/* Begins in a slot whose bit is set, the first one from the thread's last slot on: whether there was one. */
static bool take_any(pashkure_locks *locks, pashkure_key *key)
{
    const uint32_t words = (locks->slots - 1) / SLOTS_OF_WORD + 1, slot = last_slot % locks->slots, first = slot / SLOTS_OF_WORD;
    uint64_t among = UINT64_MAX << slot % SLOTS_OF_WORD;
    for (uint32_t tried = 0; tried <= words; tried++, among = UINT64_MAX)
        if (take_marked(locks, (first + tried) % words, among, key))
            return true;
    return false;
}

pashkure_result pashkure_locks_begin(pashkure_locks *locks, pashkure_key *key)
{
    static _Atomic uint32_t threads;
    if (last_slot == NOBODY)
        last_slot = atomic_fetch_add_explicit(&threads, 1, memory_order_relaxed);
    if (take_slot(locks, last_slot % locks->slots, key) || take_near(locks, key))
        return PASHKURE_OK;
    for (;;) {
        const uint64_t doubts = atomic_load(&locks->doubts);
        if (take_any(locks, key))
            return PASHKURE_OK;
        if (atomic_load(&locks->doubts) == doubts && (uint32_t)doubts == 0)
            return PASHKURE_TRANSACTIONS_FULL;
        sched_yield(); /* a bit that this has not seen may have been set again */
    }
}

/* ---- Reading ---- */

void pashkure_locks_hold(pashkure_locks *locks)
{
    sleep_for_mutex(locks);
}

pashkure_result pashkure_locks_hold_all(pashkure_locks *locks)
{
    pashkure_result result;
    sleep_for_mutex(locks);
    hides();
    do
        result = pashkure_desk_adopt_all(&locks->desk);
    while (result == PASHKURE_AGAIN);
    shows();
    locks->has_all = true;
    return result;
}

void pashkure_locks_let_go(pashkure_locks *locks)
{
    if (locks->has_all)
        pashkure_desk_free_all(&locks->desk);
    locks->has_all = false;
    pthread_mutex_unlock(&locks->mutex);
}

pashkure_result pashkure_locks_look(pashkure_locks *locks, uint32_t slot, pashkure_seen *seen)
{
    pashkure_result result;
    if (slot >= locks->slots || state_of(atomic_load_explicit(&locks->seats[slot].word, memory_order_relaxed)) == FREE)
        return PASHKURE_FREE;
    result = pashkure_desk_look(&locks->desk, slot, seen);
    seen->key = key_of(locks, slot);
    if (result == PASHKURE_WAITS)
        seen->holder = key_of(locks, seen->holder.slot);
    return result;
}

pashkure_result pashkure_locks_name(pashkure_locks *locks, uint32_t number, void *bytes, size_t room, size_t *length, pashkure_key *owner)
{
    const pashkure_result result = pashkure_desk_name(&locks->desk, number, bytes, room, length, owner);
    if (result == PASHKURE_OK)
        *owner = key_of(locks, owner->slot);
    return result;
}

pashkure_result pashkure_locks_owner(pashkure_locks *locks, const void *name, size_t length, pashkure_key *owner)
{
    const pashkure_result result = pashkure_desk_owner(&locks->desk, name, length, owner);
    if (result == PASHKURE_OK)
        *owner = key_of(locks, owner->slot);
    return result;
}

/* Those that have ended are read before those that have begun, so that never more have ended. */
void pashkure_locks_totals(pashkure_locks *locks, pashkure_counts *counts)
{
    pashkure_desk_totals(&locks->desk, counts);
    counts->begun = counts->committed = counts->aborted = 0;
    for (uint32_t slot = 0; slot < locks->slots; slot++) {
        const struct seat *seat = &locks->seats[slot];
        counts->committed += atomic_load_explicit(&seat->committed, memory_order_acquire);
        counts->aborted += atomic_load_explicit(&seat->aborted, memory_order_acquire);
        counts->begun += generation_of(atomic_load_explicit(&seat->word, memory_order_acquire));
    }
}

/* ---- Opening and closing ---- */

/* Gives all back of the first seats, and of the rest. */
static void destroy(pashkure_locks *locks, uint32_t seats)
{
    while (seats > 0) {
        struct seat *seat = &locks->seats[--seats];
        pthread_cond_destroy(&seat->news);
        free(seat->between);
        pashkure_worker_close(&seat->worker);
    }
    pthread_mutex_destroy(&locks->mutex);
    pashkure_desk_close(&locks->desk);
    free(locks);
}

/* Makes a seat: whether that is done. */
static bool make_seat(pashkure_locks *locks, struct seat *seat, const pthread_condattr_t *clock)
{
    if (pashkure_desk_add_worker(&locks->desk, &seat->worker) != PASHKURE_OK)
        return false;
    seat->between = malloc(APART - sizeof(size_t)); /* the allocator puts a size in front of what follows */
    if (seat->between != NULL && pthread_cond_init(&seat->news, clock) == 0)
        return true;
    free(seat->between);
    pashkure_worker_close(&seat->worker);
    return false;
}

/* Makes the seats: how many of them were made. */
static uint32_t make_seats(pashkure_locks *locks)
{
    uint32_t made = 0;
    pthread_condattr_t clock;
    if (pthread_condattr_init(&clock) != 0)
        return 0;
    if (pthread_condattr_setclock(&clock, CLOCK_MONOTONIC) == 0)
        while (made < locks->slots && make_seat(locks, &locks->seats[made], &clock))
            made++;
    pthread_condattr_destroy(&clock);
    return made;
}

/* Sets the bits of all slots. They lie behind the seats and the cycles, and APART from what others have there. */
static void mark_all(pashkure_locks *locks)
{
    locks->cycles = (struct cycle *)&locks->seats[locks->slots];
    locks->may_be_free = (_Atomic uint64_t *)&locks->cycles[locks->slots];
    for (uint32_t slot = 0; slot < locks->slots; slot++)
        locks->may_be_free[slot / SLOTS_OF_WORD] |= (uint64_t)1 << slot % SLOTS_OF_WORD;
}

pashkure_result pashkure_locks_open(pashkure_locks **locks, const pashkure_config *config)
{
    const size_t slots = config->transactions, words = (slots + SLOTS_OF_WORD - 1) / SLOTS_OF_WORD;
    pashkure_desk desk = PASHKURE_DESK_CLOSED;
    pashkure_locks *opened;
    uint32_t seats;
    pashkure_config numbers = *config;
    pashkure_result result;
    numbers.buckets = 0;
    result = pashkure_desk_open(&desk, &numbers, buckets_of(config));
    *locks = NULL;
    if (result != PASHKURE_OK)
        return result;
    opened = calloc(1, sizeof *opened + slots * (sizeof(struct seat) + sizeof(struct cycle)) + words * sizeof(uint64_t) + APART);
    if (opened == NULL || pthread_mutex_init(&opened->mutex, NULL) != 0) {
        free(opened);
        pashkure_desk_close(&desk);
        return PASHKURE_NO_MEMORY;
    }
    opened->desk = desk;
    opened->slots = config->transactions;
    opened->first_due = NOBODY;
    mark_all(opened);
    seats = make_seats(opened);
    if (seats < opened->slots) {
        destroy(opened, seats);
        return PASHKURE_NO_MEMORY;
    }
    *locks = opened;
    return PASHKURE_OK;
}

pashkure_result pashkure_locks_close(pashkure_locks *locks)
{
    pashkure_counts counts;
    if (locks == NULL)
        return PASHKURE_OK;
    pthread_mutex_lock(&locks->mutex);
    pashkure_locks_totals(locks, &counts);
    pthread_mutex_unlock(&locks->mutex);
    if (counts.begun != counts.committed + counts.aborted)
        return PASHKURE_IN_USE;
    destroy(locks, locks->slots);
    return PASHKURE_OK;
}
