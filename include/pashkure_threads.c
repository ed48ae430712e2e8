/* Threads that sleep, over the proved calls of pashkure_desk.h. C11 and POSIX threads.
 *
 * What a transaction owns is always the answer of a proved call: a fault here may make a thread sleep too long, but not own. */
#include "pashkure_seats.h"

#include <errno.h>
#include <string.h>

enum { FIRST_YIELDS = 2, LOOKS = 3, YIELDS = 32 };

/* ---- The mutex ---- */

/* Waits for the mutex, and takes it. To ask for it again at once would slow down the thread that has it, and that is done in a microsecond mostly.
 * So this thread yields its processor twice as often before each further try, while that one makes several calls in a row; then it sleeps. */
static void contend(pashkure_locks *locks)
{
    const int64_t end = now() + AWAKE;
    bool has_mutex = false;
    atomic_fetch_add_explicit(&locks->contenders, 1, memory_order_relaxed);
    for (int yields = FIRST_YIELDS; !has_mutex && yields_before(end, yields); yields *= 2)
        has_mutex = pthread_mutex_trylock(&locks->mutex) == 0;
    if (!has_mutex)
        pthread_mutex_lock(&locks->mutex);
    atomic_fetch_sub_explicit(&locks->contenders, 1, memory_order_relaxed);
}

void seats_enter(pashkure_locks *locks)
{
    if (pthread_mutex_trylock(&locks->mutex) != 0)
        contend(locks);
}

/* ---- Seats ---- */

/* Whether the transaction is to be told of an interrupt, which it is once. */
static bool is_interrupted(struct seat *seat, pashkure_key key)
{
    if (atomic_load_explicit(&seat->interrupted, memory_order_relaxed) != key.generation)
        return false;
    atomic_store_explicit(&seat->interrupted, 0, memory_order_relaxed);
    return true;
}

/* The next request of the transaction in the seat is to be told. */
static void interrupt_next(struct seat *seat)
{
    const uint64_t word = atomic_load_explicit(&seat->word, memory_order_relaxed);
    atomic_store_explicit(&seat->interrupted, generation_of(word), memory_order_relaxed);
}

/* What the transaction in the slot does, as the desk knows it: OK or WAITS. */
static pashkure_result does(pashkure_locks *locks, uint32_t slot)
{
    pashkure_seen seen;
    return pashkure_desk_look(&locks->desk, slot, &seen);
}

/* ---- Waits; all of this with the mutex ---- */

void seats_leave(pashkure_locks *locks)
{
    uint32_t slot = locks->first_due;
    locks->first_due = NOBODY;
    pthread_mutex_unlock(&locks->mutex);
    while (slot != NOBODY) {
        struct seat *seat = &locks->seats[slot];
        pashkure_wake_call *wake = seat->wake;
        void *context = seat->context;
        const pashkure_result over = seat->over;
        const uint32_t next = seat->next_due;
        const pashkure_key key = {slot, generation_of(atomic_load_explicit(&seat->word, memory_order_relaxed))};
        leave_seat(seat, key);
        wake(context, key, over);
        slot = next;
    }
}

/* Wakes who waited in the slot, or notes that its wake call is due. */
static void end_wait(pashkure_locks *locks, uint32_t slot, pashkure_result over)
{
    struct seat *seat = &locks->seats[slot];
    seat->over = over;
    if (seat->wake == NULL) {
        atomic_store_explicit(&seat->has_news, true, memory_order_relaxed);
        pthread_cond_signal(&seat->news);
        return;
    }
    seat->next_due = NOBODY;
    if (locks->first_due == NOBODY)
        locks->first_due = slot;
    else
        locks->seats[locks->last_due].next_due = slot;
    locks->last_due = slot;
}

void seats_tell(pashkure_locks *locks)
{
    pashkure_wake woken;
    for (size_t i = 0; pashkure_desk_woken(&locks->desk, i, &woken); i++)
        end_wait(locks, woken.key.slot, PASHKURE_OK);
}

/* Takes the wait back. Nothing, if it is over. */
static void withdraw(pashkure_locks *locks, uint32_t slot, pashkure_result as)
{
    if (pashkure_desk_cancel(&locks->desk, slot) == PASHKURE_OK)
        end_wait(locks, slot, as);
}

/* How long a request may wait. No clock is read before the first wait. */
struct limit {
    int64_t nanoseconds;
    bool is_begun;
    struct timespec until;
};

static struct timespec time_in(int64_t nanoseconds)
{
    struct timespec at;
    int64_t rest;
    clock_gettime(CLOCK_MONOTONIC, &at);
    rest = at.tv_nsec + nanoseconds % 1000000000;
    at.tv_sec += (time_t)(nanoseconds / 1000000000 + rest / 1000000000);
    at.tv_nsec = (long)(rest % 1000000000);
    return at;
}

static bool owns(pashkure_locks *locks, uint32_t slot, const pashkure_request *request)
{
    pashkure_key owner;
    return pashkure_desk_owner(&locks->desk, request->name, request->length, &owner) == PASHKURE_OK && owner.slot == slot;
}

/* Yields the processor some times, until there is news: most waits are over in some microseconds, and to be woken takes fifty. Meanwhile others
 * have the mutex. */
static void stay_awake(pashkure_locks *locks, struct seat *seat)
{
    const int64_t end = now() + AWAKE;
    atomic_store_explicit(&seat->has_news, false, memory_order_relaxed);
    pthread_mutex_unlock(&locks->mutex);
    for (int yields = 0; yields < YIELDS && !atomic_load_explicit(&seat->has_news, memory_order_relaxed); yields++)
        if (!yields_before(end, 1))
            break;
    seats_enter(locks);
}

/* Sleeps as long as the desk says that the transaction waits. */
static pashkure_result sleep_for(pashkure_locks *locks, uint32_t slot, const pashkure_request *request, struct limit *limit)
{
    struct seat *seat = &locks->seats[slot];
    const bool has_end = limit->nanoseconds != PASHKURE_FOREVER;
    if (has_end && !limit->is_begun) {
        limit->until = time_in(limit->nanoseconds);
        limit->is_begun = true;
    }
    seat->wake = NULL;
    stay_awake(locks, seat);
    while (does(locks, slot) == PASHKURE_WAITS) {
        if (!has_end)
            pthread_cond_wait(&seat->news, &locks->mutex);
        else if (pthread_cond_timedwait(&seat->news, &locks->mutex, &limit->until) == ETIMEDOUT)
            withdraw(locks, slot, PASHKURE_TIMED_OUT);
    }
    if (owns(locks, slot, request))
        return PASHKURE_OK;
    return seat->over == PASHKURE_TIMED_OUT ? PASHKURE_TIMED_OUT : PASHKURE_INTERRUPTED;
}

/* ---- Deadlocks ---- */

/* Adds a wait, whose name has been written behind the others: whether there was room for both. */
static bool add_wait(struct cycle *cycle, pashkure_key key, pashkure_key holder, size_t length)
{
    if (cycle->count == CYCLE_WAITS || length > CYCLE_BYTES - cycle->used)
        return false;
    cycle->waits[cycle->count++] = (pashkure_wait){key, holder, cycle->names + cycle->used, length};
    cycle->used += length;
    return true;
}

/* Notes the wait that the desk has just refused, and with the mutex still taken those that stand, from the owner of the name on. */
static void note_cycle(pashkure_locks *locks, uint32_t slot, const pashkure_request *request)
{
    struct cycle *cycle = &locks->cycles[slot];
    const pashkure_key told = key_of(locks, slot);
    pashkure_seen at = {told, told, 0};
    size_t length = request->length;
    cycle->generation = told.generation;
    cycle->count = 0;
    cycle->used = 0;
    memcpy(cycle->names, request->name, length);
    (void)pashkure_desk_owner(&locks->desk, request->name, length, &at.holder);
    while (add_wait(cycle, key_of(locks, at.key.slot), key_of(locks, at.holder.slot), length)) {
        pashkure_key owner;
        if (pashkure_desk_look(&locks->desk, at.holder.slot, &at) != PASHKURE_WAITS)
            break; /* the one that was told */
        (void)pashkure_desk_name(&locks->desk, at.number, cycle->names + cycle->used, CYCLE_BYTES - cycle->used, &length, &owner);
    }
}

size_t pashkure_locks_cycle(pashkure_locks *locks, pashkure_key key, pashkure_wait *waits, size_t room)
{
    pashkure_result refusal;
    struct seat *seat = take_seat_to(CALLING, locks, key, &refusal);
    const struct cycle *cycle;
    size_t count = 0;
    if (seat == NULL)
        return 0;
    cycle = &locks->cycles[key.slot];
    if (cycle->generation == key.generation)
        count = cycle->count;
    for (size_t i = 0; i < count && i < room; i++)
        waits[i] = cycle->waits[i];
    leave_seat(seat, key);
    return count;
}

/* ---- Requests ---- */

/* Asks the desk; with the mutex. A transaction that is live here has one at the desk, unless no more can be counted there. */
static pashkure_result ask(pashkure_locks *locks, uint32_t slot, const pashkure_request *request, bool may_wait)
{
    struct seat *seat = &locks->seats[slot];
    pashkure_result result;
    seat->is_known = true;
    hides();
    do {
        result = may_wait ? pashkure_desk_ask(&locks->desk, &seat->worker, request->name, request->length)
                          : pashkure_desk_try_lock(&locks->desk, &seat->worker, request->name, request->length);
    } while (result == PASHKURE_AGAIN);
    shows();
    if (result == PASHKURE_DEADLOCK)
        note_cycle(locks, slot, request);
    return result == PASHKURE_NO_TRANSACTION ? PASHKURE_COUNTS_FULL : result;
}

/* Takes the name without the mutex, if nobody has its bucket. */
static pashkure_result take(pashkure_locks *locks, struct seat *seat, const pashkure_request *request)
{
    pashkure_result result;
    hides();
    result = pashkure_worker_take(&seat->worker, request->name, request->length);
    shows();
    return took(locks, seat, request, result);
}

/* The same, and looks some times more while another one has the bucket. */
static pashkure_result take_soon(pashkure_locks *locks, struct seat *seat, const pashkure_request *request)
{
    pashkure_result result = take(locks, seat, request);
    if (result != PASHKURE_BUSY)
        return result;
    const int64_t end = now() + AWAKE;
    for (int look = 0; result == PASHKURE_BUSY && look < LOOKS && yields_before(end, 1 << look); look++)
        result = take(locks, seat, request);
    return result;
}

/* Locks the name: the answer to it. */
static pashkure_result lock(pashkure_locks *locks, struct seat *seat, uint32_t slot, const pashkure_request *request, struct limit *limit)
{
    const bool may_wait = limit->nanoseconds > 0;
    pashkure_result result = may_wait ? take_soon(locks, seat, request) : take(locks, seat, request);
    if (PASHKURE_OWNS(result))
        return result;
    seats_enter(locks);
    result = ask(locks, slot, request, may_wait);
    if (result == PASHKURE_WAITS)
        result = sleep_for(locks, slot, request, limit);
    seats_leave(locks);
    return took(locks, seat, request, result);
}

pashkure_result pashkure_locks_lock_all(pashkure_locks *locks, pashkure_key key, pashkure_request *requests, size_t count, int64_t nanoseconds)
{
    struct limit limit = {nanoseconds, false, {0, 0}};
    pashkure_result result;
    struct seat *seat = take_seat_to(CALLING, locks, key, &result);
    for (size_t i = 0; i < count; i++)
        requests[i].result = PASHKURE_NOT_ASKED;
    if (seat != NULL)
        result = is_interrupted(seat, key) ? PASHKURE_INTERRUPTED : PASHKURE_OK;
    if (result != PASHKURE_OK && count > 0)
        requests[0].result = result;
    for (size_t i = 0; i < count && PASHKURE_OWNS(result); i++)
        result = requests[i].result = lock(locks, seat, key.slot, &requests[i], &limit);
    if (seat != NULL)
        leave_seat(seat, key);
    return PASHKURE_OWNS(result) ? PASHKURE_OK : result;
}

pashkure_result pashkure_locks_lock(pashkure_locks *locks, pashkure_key key, const void *name, size_t length, int64_t nanoseconds)
{
    pashkure_request request = {name, length, PASHKURE_NOT_ASKED};
    pashkure_result result = pashkure_locks_lock_all(locks, key, &request, 1, nanoseconds);
    return result == PASHKURE_OK ? request.result : result; /* OK or HELD */
}

/* Locks the name, or waits for it from now on, with this call to make when the wait is over. */
static pashkure_result ask_for(pashkure_locks *locks, uint32_t slot, const pashkure_request *request, pashkure_wake_call *wake, void *context)
{
    struct seat *seat = &locks->seats[slot];
    pashkure_result result = take(locks, seat, request);
    if (PASHKURE_OWNS(result))
        return result;
    seats_enter(locks);
    seat->wake = wake;
    seat->context = context;
    result = took(locks, seat, request, ask(locks, slot, request, true));
    seats_leave(locks);
    return result;
}

pashkure_result pashkure_locks_ask(pashkure_locks *locks, pashkure_key key, const void *name, size_t length, pashkure_wake_call *wake, void *context)
{
    const pashkure_request request = {name, length, PASHKURE_NOT_ASKED};
    pashkure_result result;
    struct seat *seat = take_seat_to(CALLING, locks, key, &result);
    if (seat == NULL)
        return result;
    result = is_interrupted(seat, key) ? PASHKURE_INTERRUPTED : ask_for(locks, key.slot, &request, wake, context);
    if (result != PASHKURE_WAITS)
        leave_seat(seat, key); /* else it is left when the wait ends */
    return result;
}

pashkure_result pashkure_locks_interrupt(pashkure_locks *locks, pashkure_key key)
{
    struct seat *seat;
    uint64_t word;
    if (key.slot >= locks->slots)
        return PASHKURE_NO_TRANSACTION;
    seat = &locks->seats[key.slot];
    seats_enter(locks);
    word = atomic_load_explicit(&seat->word, memory_order_relaxed);
    if (generation_of(word) != key.generation || state_of(word) == FREE) {
        seats_leave(locks);
        return PASHKURE_NO_TRANSACTION;
    }
    if (does(locks, key.slot) == PASHKURE_WAITS)
        withdraw(locks, key.slot, PASHKURE_INTERRUPTED);
    else
        interrupt_next(seat);
    seats_leave(locks);
    return PASHKURE_OK;
}
