/* The ends of pashkure_threads.h: of a transaction, and of what it has of one name. C11 and POSIX threads. */
#include "pashkure_seats.h"

/* After so many names an end lets others have the mutex. It lists so many at a time. */
enum { PORTION = 64, LISTED = 2048 };

/* The longest name that there can be. */
enum { NAME_BYTES = 1024 };

/* ---- One name ---- */

/* Gives a name back that the worker could not give back by itself. */
static pashkure_result unlock_at_desk(pashkure_locks *locks, struct seat *seat, const void *name, size_t length)
{
    pashkure_result result;
    seat->is_known = true;
    seats_enter(locks);
    result = pashkure_desk_unlock(&locks->desk, &seat->worker, name, length);
    if (result == PASHKURE_OK)
        seats_tell(locks);
    seats_leave(locks);
    if (result == PASHKURE_FREE)
        return PASHKURE_OK; /* by now the worker could */
    return result == PASHKURE_NO_TRANSACTION ? PASHKURE_NOT_OWNER : result;
}

pashkure_result pashkure_locks_unlock(pashkure_locks *locks, pashkure_key key, const void *name, size_t length)
{
    pashkure_result result;
    struct seat *seat = take_seat_to(CALLING, locks, key, &result);
    if (seat == NULL)
        return result;
    gives(locks, name, length);
    result = pashkure_worker_give_back(&seat->worker, name, length);
    if (result != PASHKURE_OK)
        result = unlock_at_desk(locks, seat, name, length);
    leave_seat(seat, key);
    return result;
}

/* ---- A transaction ---- */

/* Frees a seat whose word says ENDING, and sets its bit if somebody has cleared it. Who clears it looks at the word after that, and sets it again
 * if the transaction ends: then this may have looked before. */
static void free_seat(pashkure_locks *locks, struct seat *seat, pashkure_key key)
{
    _Atomic uint64_t *bits = &locks->may_be_free[key.slot / SLOTS_OF_WORD];
    const uint64_t bit = (uint64_t)1 << key.slot % SLOTS_OF_WORD;
    const bool is_set = (atomic_load(bits) & bit) != 0;
    atomic_store_explicit(&seat->word, word_of(key.generation, FREE), memory_order_release);
    if (!is_set)
        atomic_fetch_or(bits, bit);
}

/* Counts one more. Nobody else writes this number. */
static void count(_Atomic uint64_t *number)
{
    atomic_store_explicit(number, atomic_load_explicit(number, memory_order_relaxed) + 1, memory_order_release);
}

/* Gives the mutex back, and takes it again: after twice as long as this thread had had it since that time, if others wait for it. */
static void give_way(pashkure_locks *locks, int64_t since)
{
    const int64_t left = now(), had = left - since, end = left + 2 * (had < AWAKE ? had : AWAKE);
    seats_leave(locks);
    while (atomic_load_explicit(&locks->contenders, memory_order_relaxed) > 0 && yields_before(end, 1))
        continue;
    seats_enter(locks);
}

/* Gives the name of this number back, which the transaction owns at the desk. */
static void unlock_number(pashkure_locks *locks, struct seat *seat, uint32_t number)
{
    unsigned char name[NAME_BYTES];
    size_t length;
    pashkure_key owner;
    if (pashkure_desk_name(&locks->desk, number, name, sizeof name, &length, &owner) != PASHKURE_OK)
        return;
    if (pashkure_desk_unlock(&locks->desk, &seat->worker, name, length) == PASHKURE_OK)
        seats_tell(locks);
}

/* Gives the first of these names back, up to a portion: how many. */
static size_t unlock_portion(pashkure_locks *locks, struct seat *seat, const uint32_t *numbers, size_t count)
{
    const size_t first = count < PORTION ? count : PORTION;
    for (size_t i = 0; i < first; i++)
        unlock_number(locks, seat, numbers[i]);
    return first;
}

/* Gives names back in portions, until no more than one portion is left of what the transaction owns at the desk. */
static void unlock_portions(pashkure_locks *locks, struct seat *seat, uint32_t slot)
{
    uint32_t numbers[LISTED];
    size_t owned = pashkure_desk_owned(&locks->desk, slot, numbers, LISTED), before = SIZE_MAX, done = 0;
    while (owned > PORTION && owned < before) {
        const size_t listed = owned < LISTED ? owned : LISTED;
        for (done = 0; done < listed;) {
            const int64_t since = now();
            done += unlock_portion(locks, seat, numbers + done, listed - done);
            give_way(locks, since);
        }
        before = owned;
        owned = pashkure_desk_owned(&locks->desk, slot, numbers, LISTED);
    }
}

/* Ends the transaction of a seat at the desk, and begins its next one there; nothing, if the desk knows nothing of it. */
static void end_at_desk(pashkure_locks *locks, struct seat *seat, uint32_t slot, bool commits)
{
    pashkure_key next;
    if (pashkure_worker_give_back_all(&seat->worker) == PASHKURE_OK && !seat->is_known)
        return;
    seats_enter(locks);
    unlock_portions(locks, seat, slot);
    if (!commits || pashkure_desk_commit(&locks->desk, &seat->worker) != PASHKURE_OK)
        (void)pashkure_desk_abort(&locks->desk, &seat->worker);
    seats_tell(locks);
    (void)pashkure_desk_begin(&locks->desk, slot, &next);
    seats_leave(locks);
}

static pashkure_result end(pashkure_locks *locks, pashkure_key key, bool commits)
{
    pashkure_result result;
    struct seat *seat = take_seat_to(ENDING, locks, key, &result);
    if (seat == NULL)
        return result;
    gives_all(locks, seat);
    end_at_desk(locks, seat, key.slot, commits);
    seat->is_known = false;
    count(commits ? &seat->committed : &seat->aborted);
    free_seat(locks, seat, key);
    return PASHKURE_OK;
}

pashkure_result pashkure_locks_commit(pashkure_locks *locks, pashkure_key key)
{
    return end(locks, key, true);
}

pashkure_result pashkure_locks_abort(pashkure_locks *locks, pashkure_key key)
{
    return end(locks, key, false);
}
