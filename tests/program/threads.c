/* The C library's layer for threads, a promise of its header a test: `threads NAME` runs one, `threads` all. It waits for states and never for a
 * time; an alarm ends what hangs. Calls of the C library, and one of the desk, come here first by -Wl,--wrap. */
#define _POSIX_C_SOURCE 200809L
#include "pashkure_desk.h"
#include "pashkure_threads.h"

#include "check.h"

#include <pthread.h>
#include <sched.h>
#include <signal.h>
#include <stdatomic.h>
#include <time.h>
#include <unistd.h>

enum { SHORT = 1000000 };
static const int64_t LONG = INT64_MAX - 1; /* a time that does not end while a test runs */

static pashkure_locks *locks;
static pashkure_key a, b, c, d, e, *const KEYS[] = {&a, &b, &c, &d, &e}, KEPT[12];
static bool is_counting;
static unsigned long requests, frees, bytes, refused; /* while `is_counting`. `refused`: this request for memory is refused, counted from 1 */
static atomic_int missed, timed;                      /* timed: how many sleeps with a time have begun */
static int portion, largest;                          /* how many names the desk was given back since somebody had the mutex, and how many at most */
static atomic_bool is_late, is_signalled;
static struct timespec untils[2]; /* of the last two sleeps with a time */

/* A function in place of another one, which is __real_.. here. */
#define WRAP(type, name, ...)                                                                                                                        \
    type __real_##name(__VA_ARGS__);                                                                                                                 \
    type __wrap_##name(__VA_ARGS__);                                                                                                                 \
    type __wrap_##name(__VA_ARGS__)

WRAP(void *, malloc, size_t size)
{
    bytes += is_counting ? size : 0;
    return is_counting && ++requests == refused ? NULL : __real_malloc(size);
}

WRAP(void *, calloc, size_t count, size_t size)
{
    bytes += is_counting ? count * size : 0;
    return is_counting && ++requests == refused ? NULL : __real_calloc(count, size);
}

WRAP(void, free, void *memory)
{
    frees += is_counting && memory != NULL;
    __real_free(memory);
}

WRAP(pashkure_result, pashkure_desk_unlock, pashkure_desk *desk, pashkure_worker *worker, const void *name, size_t length)
{
    pashkure_result told = __real_pashkure_desk_unlock(desk, worker, name, length);
    portion += told == PASHKURE_OK;
    return told;
}

WRAP(int, pthread_mutex_unlock, pthread_mutex_t *mutex)
{
    largest = portion > largest ? portion : largest;
    portion = 0;
    return __real_pthread_mutex_unlock(mutex);
}

WRAP(int, pthread_mutex_trylock, pthread_mutex_t *mutex)
{
    int told = __real_pthread_mutex_trylock(mutex);
    missed += told != 0;
    return told;
}

/* A thread that is woken while `is_late` comes to the mutex only afterwards. */
WRAP(int, pthread_cond_wait, pthread_cond_t *news, pthread_mutex_t *mutex)
{
    int told = __real_pthread_cond_wait(news, mutex);
    while (is_late)
        (void)pthread_mutex_unlock(mutex), (void)sched_yield(), (void)pthread_mutex_lock(mutex);
    return told;
}

WRAP(int, pthread_cond_timedwait, pthread_cond_t *news, pthread_mutex_t *mutex, const struct timespec *until)
{
    timed++;
    int told = __real_pthread_cond_timedwait(news, mutex, until);
    untils[0] = untils[1];
    untils[1] = *until;
    return told;
}

static pashkure_key begun(void)
{
    pashkure_key key;
    GIVES(pashkure_locks_begin(locks, &key), PASHKURE_OK);
    return key;
}

static void opens(uint32_t transactions, uint32_t names)
{
    pashkure_config config = PASHKURE_CONFIG;
    config.transactions = transactions;
    config.names = names;
    config.name_bytes = 8;
    GIVES(pashkure_locks_open(&locks, &config), PASHKURE_OK);
}

/* Opens a manager in which `live` transactions are begun, and the first one owns x, the second one y. */
static void opened(uint32_t live, uint32_t names)
{
    const pashkure_key none = {0, 0};
    opens(live + 12, names);
    for (uint32_t i = 0; i < 5; i++)
        *KEYS[i] = i < live ? begun() : none;
    if (live > 0)
        GIVES(pashkure_locks_lock(locks, a, "x", 1, PASHKURE_FOREVER), PASHKURE_OK);
    if (live > 1)
        GIVES(pashkure_locks_lock(locks, b, "y", 1, PASHKURE_FOREVER), PASHKURE_OK);
}

static pashkure_result lock(pashkure_key key, const char *name, int64_t time)
{
    return pashkure_locks_lock(locks, key, name, strlen(name), time);
}
static void interrupted(pashkure_key key)
{
    GIVES(pashkure_locks_interrupt(locks, key), PASHKURE_OK);
}
static void ends(pashkure_key key)
{
    GIVES(pashkure_locks_commit(locks, key), PASHKURE_OK);
}

/* Ends those of `opened` that are live, and closes: none but these may be. */
static void shut(void)
{
    for (size_t i = 0; i < 5; i++)
        (void)pashkure_locks_abort(locks, *KEYS[i]);
    GIVES(pashkure_locks_close(locks), PASHKURE_OK);
}

static pashkure_result state(pashkure_key key)
{
    pashkure_seen seen;
    pashkure_result is;
    pashkure_locks_hold(locks);
    is = pashkure_locks_look(locks, key.slot, &seen);
    pashkure_locks_let_go(locks);
    return is;
}

static pashkure_counts totals(void)
{
    pashkure_counts counts;
    pashkure_locks_hold(locks);
    pashkure_locks_totals(locks, &counts);
    pashkure_locks_let_go(locks);
    return counts;
}

/* A thread that locks one name. */
struct sleeper {
    pthread_t thread;
    pashkure_key key;
    const char *name;
    int64_t time;
    pashkure_result result;
};

static void *sleeps(void *argument)
{
    struct sleeper *my = argument;
    return my->result = lock(my->key, my->name, my->time), NULL;
}

/* Starts it. When this returns, it waits, and sleeps or is about to. */
static void starts(struct sleeper *sleeper, pashkure_key key, const char *name, int64_t time)
{
    *sleeper = (struct sleeper){.key = key, .name = name, .time = time};
    CHECK(pthread_create(&sleeper->thread, NULL, sleeps, sleeper) == 0);
    while (state(key) != PASHKURE_WAITS)
        sched_yield();
}

static pashkure_result result_of(struct sleeper *sleeper)
{
    CHECK(pthread_join(sleeper->thread, NULL) == 0);
    return sleeper->result;
}

struct note {
    int calls;
    pashkure_result result;
    pthread_t thread;
};

static void notes(void *context, pashkure_key key, pashkure_result result)
{
    struct note *note = context;
    CHECK(state(key) != PASHKURE_WAITS); /* the mutex is free */
    note->calls++;
    note->result = result;
    note->thread = pthread_self();
}

static pashkure_result ask(pashkure_key key, const char *name, struct note *note)
{
    return pashkure_locks_ask(locks, key, name, strlen(name), notes, note);
}

static void handles(int number)
{
    is_signalled = number != 0;
}

TEST(memory)
{
    pashkure_config config = PASHKURE_CONFIG;
    pashkure core = PASHKURE_CLOSED;
    unsigned long wanted, of_core, of_opening;
    config.transactions = config.names = 64;
    is_counting = true;
    GIVES(pashkure_open(&core, &config), PASHKURE_OK);
    of_core = bytes;
    pashkure_close(&core);
    requests = frees = bytes = 0;
    config.buckets = 1000;
    GIVES(pashkure_locks_open(&locks, &config), PASHKURE_OK);
    CHECK(bytes - of_core < 24 * config.buckets + 12 * config.names + 5750 * config.transactions);
    wanted = requests, of_opening = frees;
    for (int i = 0; i < 100; i++) {
        a = begun(), b = begun();
        GIVES(lock(a, "x", 0), PASHKURE_OK);
        GIVES(lock(b, "x", SHORT), PASHKURE_TIMED_OUT);
        ends(a);
        ends(b);
    }
    CHECK(requests == wanted && frees == of_opening);
    shut();
    CHECK(requests == wanted && frees == wanted);
    for (refused = 1; refused <= wanted; refused++) {
        requests = frees = 0;
        GIVES(pashkure_locks_open(&locks, &config), PASHKURE_NO_MEMORY);
        CHECK(locks == NULL && requests == refused && frees == refused - 1);
    }
    is_counting = false;
    locks = (pashkure_locks *)&config;
    config.names = 0;
    GIVES(pashkure_locks_open(&locks, &config), PASHKURE_BAD_NAMES);
    CHECK(locks == NULL);
    GIVES(pashkure_locks_close(NULL), PASHKURE_OK);
}

TEST(refusals)
{
    opened(2, 2);
    GIVES(lock(b, "x", 0), PASHKURE_BUSY);
    GIVES(lock(b, "x", INT64_MIN), PASHKURE_BUSY);
    CHECK(totals().waits == 0);
    GIVES(lock(b, "", 0), PASHKURE_NAME_EMPTY);
    GIVES(lock(b, "123456789", LONG), PASHKURE_NAME_TOO_LONG);
    GIVES(lock(a, "y", 0), PASHKURE_BUSY); /* now the manager has x and y */
    GIVES(lock(b, "z", LONG), PASHKURE_OK);
    GIVES(lock(a, "z", LONG), PASHKURE_NAMES_FULL);
    GIVES(pashkure_locks_unlock(locks, b, "x", 1), PASHKURE_NOT_OWNER);
    for (int i = 0; i < 12; i++)
        KEPT[i] = begun();
    GIVES(pashkure_locks_begin(locks, &c), PASHKURE_TRANSACTIONS_FULL);
    for (int i = 0; i < 12; i++)
        ends(KEPT[i]);
    ends(b);
    GIVES(pashkure_locks_close(locks), PASHKURE_IN_USE);
    GIVES(lock(a, "x", 0), PASHKURE_HELD);
    GIVES(pashkure_locks_abort(locks, a), PASHKURE_OK);
    GIVES(pashkure_locks_commit(locks, a), PASHKURE_NO_TRANSACTION);
    GIVES(lock(a, "x", 0), PASHKURE_NO_TRANSACTION);
    GIVES(pashkure_locks_interrupt(locks, a), PASHKURE_NO_TRANSACTION);
    shut();
}

/* A transaction may own its first sixteen names, of which the manager does not know, and names_each further ones. Its neighbour goes on, and an
 * unlock makes room for one. */
TEST(names_each)
{
    pashkure_config config = PASHKURE_CONFIG;
    char name[2] = "A";
    config.names_each = 4;
    GIVES(pashkure_locks_open(&locks, &config), PASHKURE_OK);
    a = begun(), b = begun();
    for (; name[0] < 'A' + 20; name[0]++)
        GIVES(lock(a, name, 0), PASHKURE_OK);
    GIVES(lock(a, "more", 0), PASHKURE_TOO_MANY_NAMES);
    GIVES(lock(a, "A", 0), PASHKURE_HELD);
    GIVES(lock(b, "more", 0), PASHKURE_OK);
    GIVES(lock(b, "A", 0), PASHKURE_BUSY);
    GIVES(pashkure_locks_unlock(locks, a, "T", 1), PASHKURE_OK);
    GIVES(lock(a, "T", 0), PASHKURE_OK);
    GIVES(lock(a, "U", 0), PASHKURE_TOO_MANY_NAMES);
    ends(a);
    GIVES(lock(b, "T", 0), PASHKURE_OK);
    ends(b);
    shut();
}

TEST(order_of_sleepers)
{
    struct sleeper first, second, other;
    opened(4, 4);
    GIVES(lock(a, "z", 0), PASHKURE_OK);
    starts(&first, d, "x", PASHKURE_FOREVER);
    starts(&other, b, "z", LONG);
    starts(&second, c, "x", LONG);
    GIVES(pashkure_locks_unlock(locks, a, "x", 1), PASHKURE_OK);
    GIVES(result_of(&first), PASHKURE_OK);
    CHECK(state(c) == PASHKURE_WAITS && state(b) == PASHKURE_WAITS);
    GIVES(pashkure_locks_abort(locks, d), PASHKURE_OK); /* by another thread than the one that locked */
    GIVES(result_of(&second), PASHKURE_OK);
    CHECK(state(b) == PASHKURE_WAITS);
    ends(a);
    GIVES(result_of(&other), PASHKURE_OK);
    shut();
}

static long long between(struct timespec from, struct timespec to)
{
    return (to.tv_sec - from.tv_sec) * 1000000000ll + to.tv_nsec - from.tv_nsec;
}

TEST(time_out)
{
    struct timespec from, to;
    struct sleeper sleeper;
    opened(3, 4);
    clock_gettime(CLOCK_MONOTONIC, &from);
    GIVES(lock(b, "x", SHORT), PASHKURE_TIMED_OUT);
    clock_gettime(CLOCK_MONOTONIC, &to);
    CHECK(between(from, untils[1]) >= SHORT && between(untils[1], to) >= 0);
    CHECK(state(b) == PASHKURE_OK && totals().withdrawn == 1);
    GIVES(lock(b, "y", 0), PASHKURE_HELD);
    starts(&sleeper, c, "x", LONG);
    ends(a);
    GIVES(result_of(&sleeper), PASHKURE_OK); /* and not b, which waits no longer */
    GIVES(lock(b, "z", 0), PASHKURE_OK);
    shut();
}

static bool is_wait(const pashkure_wait *wait, pashkure_key key, const char *name, pashkure_key holder)
{
    return wait->key.slot == key.slot && wait->key.generation == key.generation && wait->holder.slot == holder.slot
           && wait->holder.generation == holder.generation && wait->length == strlen(name) && memcmp(wait->name, name, wait->length) == 0;
}

/* b is told. It keeps what it owns and goes on; a waits for it, until it gives y back. */
TEST(deadlock)
{
    struct sleeper given;
    pashkure_wait waits[3];
    opened(2, 8);
    ends(b);
    b = begun(); /* the desk has another generation of it */
    CHECK(b.generation == 2);
    GIVES(lock(b, "y", 0), PASHKURE_OK);
    CHECK(pashkure_locks_cycle(locks, b, NULL, 0) == 0);
    starts(&given, a, "y", PASHKURE_FOREVER);
    CHECK(pashkure_locks_cycle(locks, a, waits, 3) == 0); /* it is in a call */
    GIVES(lock(b, "x", PASHKURE_FOREVER), PASHKURE_DEADLOCK);
    CHECK(state(b) == PASHKURE_OK && state(a) == PASHKURE_WAITS);
    CHECK(pashkure_locks_cycle(locks, b, NULL, 0) == 2 && pashkure_locks_cycle(locks, b, waits, 3) == 2);
    CHECK(is_wait(&waits[0], b, "x", a) && is_wait(&waits[1], a, "y", b));
    GIVES(lock(b, "x", LONG), PASHKURE_DEADLOCK); /* again, since it gave nothing back */
    GIVES(lock(b, "x", 0), PASHKURE_BUSY);
    GIVES(lock(b, "z", 0), PASHKURE_OK);
    GIVES(pashkure_locks_unlock(locks, b, "y", 1), PASHKURE_OK);
    GIVES(result_of(&given), PASHKURE_OK);
    waits[1].length = 0;
    CHECK(pashkure_locks_cycle(locks, b, waits, 1) == 2 && waits[1].length == 0); /* of the last one, also when it is over */
    GIVES(pashkure_locks_commit(locks, b), PASHKURE_OK);
    CHECK(pashkure_locks_cycle(locks, b, waits, 3) == 0);
    b = begun();
    CHECK(pashkure_locks_cycle(locks, b, waits, 3) == 0);
    shut();
}

/* Those that wait for one that was told of a deadlock time out and are interrupted at once: it does nothing meanwhile. */
TEST(behind_a_deadlock)
{
    struct sleeper given, interrupts;
    struct note told = {0};
    opened(4, 8);
    starts(&given, a, "y", LONG);
    GIVES(ask(d, "x", &told), PASHKURE_WAITS);
    GIVES(lock(b, "x", LONG), PASHKURE_DEADLOCK);
    GIVES(lock(c, "y", SHORT), PASHKURE_TIMED_OUT);
    GIVES(lock(c, "x", SHORT), PASHKURE_TIMED_OUT);
    interrupted(d);
    CHECK(told.calls == 1 && told.result == PASHKURE_INTERRUPTED);
    interrupted(a);
    GIVES(result_of(&given), PASHKURE_INTERRUPTED);
    interrupted(b);
    GIVES(lock(b, "z", 0), PASHKURE_INTERRUPTED);
    starts(&interrupts, b, "x", LONG); /* nobody waits for b any more */
    ends(a);
    GIVES(result_of(&interrupts), PASHKURE_OK);
    shut();
}

/* So many transactions own a name each, of so many bytes, and ask for that of the next one. Returns how many waits the last one is told of; whether
 * they come back to it is written. */
static size_t ring(uint32_t size, size_t length, bool *is_whole)
{
    static char names[20][1024];
    pashkure_config config = PASHKURE_CONFIG;
    pashkure_key keys[20];
    pashkure_wait waits[20];
    struct note told[20] = {{0}};
    size_t count;
    config.name_bytes = 1024;
    GIVES(pashkure_locks_open(&locks, &config), PASHKURE_OK);
    for (uint32_t i = 0; i < size; i++) {
        memset(names[i], 'a' + (char)i, length);
        keys[i] = begun();
        GIVES(pashkure_locks_lock(locks, keys[i], names[i], length, 0), PASHKURE_OK);
    }
    for (uint32_t i = 0; i + 1 < size; i++)
        GIVES(pashkure_locks_ask(locks, keys[i], names[i + 1], length, notes, &told[i]), PASHKURE_WAITS);
    GIVES(pashkure_locks_ask(locks, keys[size - 1], names[0], length, notes, &told[size - 1]), PASHKURE_DEADLOCK);
    count = pashkure_locks_cycle(locks, keys[size - 1], waits, 20);
    for (size_t i = 0; i < count; i++) {
        const size_t wanted = i == 0 ? size - 1 : i - 1, next = (wanted + 1) % size;
        CHECK(waits[i].key.slot == keys[wanted].slot && waits[i].holder.slot == keys[next].slot);
        CHECK(waits[i].length == length && memcmp(waits[i].name, names[next], length) == 0);
    }
    *is_whole = waits[count - 1].holder.slot == keys[size - 1].slot;
    for (uint32_t i = size; i-- > 0;) /* each one's end wakes the one before it */
        ends(keys[i]);
    GIVES(pashkure_locks_close(locks), PASHKURE_OK);
    return count;
}

TEST(cycles)
{
    bool is_whole;
    CHECK(ring(2, 5, &is_whole) == 2 && is_whole);
    CHECK(ring(16, 64, &is_whole) == 16 && is_whole);
    CHECK(ring(17, 5, &is_whole) == 16 && !is_whole);
    CHECK(ring(2, 512, &is_whole) == 2 && is_whole);
    CHECK(ring(3, 512, &is_whole) == 2 && !is_whole);
    CHECK(ring(2, 1024, &is_whole) == 1 && !is_whole);
}

/* One of the two gives back what it locked since its savepoint, and nothing else: both commit. */
TEST(savepoint)
{
    struct sleeper first, second;
    opened(2, 8);
    GIVES(lock(b, "w", 0), PASHKURE_OK); /* y is before the savepoint, and w behind it */
    starts(&first, a, "w", PASHKURE_FOREVER);
    GIVES(lock(b, "x", PASHKURE_FOREVER), PASHKURE_DEADLOCK);
    GIVES(pashkure_locks_unlock(locks, b, "w", 1), PASHKURE_OK);
    GIVES(result_of(&first), PASHKURE_OK);
    GIVES(lock(b, "y", 0), PASHKURE_HELD);
    starts(&second, b, "x", PASHKURE_FOREVER);
    ends(a);
    GIVES(result_of(&second), PASHKURE_OK);
    GIVES(lock(b, "w", 0), PASHKURE_OK);
    ends(b);
    CHECK(totals().committed == 2 && totals().aborted == 0 && totals().deadlocks == 1);
    shut();
}

TEST(interrupt)
{
    struct sleeper sleeper;
    opened(2, 4);
    interrupted(a);
    GIVES(lock(a, "x", PASHKURE_FOREVER), PASHKURE_INTERRUPTED);
    GIVES(lock(a, "x", 0), PASHKURE_HELD); /* told once */
    starts(&sleeper, b, "x", PASHKURE_FOREVER);
    interrupted(b);
    GIVES(result_of(&sleeper), PASHKURE_INTERRUPTED);
    GIVES(lock(b, "y", 0), PASHKURE_HELD);
    interrupted(b);
    ends(b);
    c = begun();
    CHECK(c.slot == b.slot);
    GIVES(pashkure_locks_interrupt(locks, b), PASHKURE_NO_TRANSACTION);
    GIVES(lock(c, "y", 0), PASHKURE_OK); /* not told what was meant for b */
    shut();
}

static void *locks_all(void *argument)
{
    GIVES(pashkure_locks_lock_all(locks, c, argument, 2, LONG), PASHKURE_OK);
    return NULL;
}

/* The time is one for all: both waits end at the same one. */
TEST(several_names)
{
    pashkure_request two[2] = {{"x", 1, PASHKURE_BUSY}, {"y", 1, PASHKURE_BUSY}};
    pashkure_request three[3] = {{"w", 1, PASHKURE_BUSY}, {"x", 1, PASHKURE_BUSY}, {"z", 1, PASHKURE_BUSY}};
    pthread_t thread;
    opened(4, 8);
    const int before = timed;
    CHECK(pthread_create(&thread, NULL, locks_all, two) == 0);
    while (timed == before)
        sched_yield();
    ends(a);
    while (timed == before + 1)
        sched_yield();
    ends(b);
    CHECK(pthread_join(thread, NULL) == 0 && between(untils[0], untils[1]) == 0);
    GIVES(pashkure_locks_lock_all(locks, d, three, 3, SHORT), PASHKURE_TIMED_OUT);
    CHECK(three[0].result == PASHKURE_OK && three[1].result == PASHKURE_TIMED_OUT && three[2].result == PASHKURE_NOT_ASKED);
    interrupted(d);
    GIVES(pashkure_locks_lock_all(locks, d, three, 3, 0), PASHKURE_INTERRUPTED);
    CHECK(three[0].result == PASHKURE_INTERRUPTED && three[1].result == PASHKURE_NOT_ASKED);
    ends(c);
    GIVES(pashkure_locks_lock_all(locks, d, three, 3, 0), PASHKURE_OK);
    CHECK(three[0].result == PASHKURE_HELD && three[1].result == PASHKURE_OK && three[2].result == PASHKURE_OK);
    shut();
}

static const struct note *of_kept; /* what each of KEPT was told */

static void ends_itself(void *context, pashkure_key key, pashkure_result result)
{
    notes(context, key, result);
    for (int i = 0; i < 10; i++)
        if (of_kept[i].calls == 0)
            GIVES(pashkure_locks_commit(locks, KEPT[i]), PASHKURE_WAITING); /* it is not told yet */
    ends(key);
}

TEST(wake_calls)
{
    struct note told[10] = {{0}}, other = {0};
    opened(2, 16);
    of_kept = told;
    for (char name = '0'; name <= '9'; name++)
        GIVES(pashkure_locks_ask(locks, a, &name, 1, notes, &other), PASHKURE_OK);
    GIVES(ask(a, "x", &other), PASHKURE_HELD);
    GIVES(ask(b, "x", &other), PASHKURE_WAITS);
    GIVES(ask(b, "z", &told[0]), PASHKURE_WAITING);
    CHECK(other.calls == 0 && state(b) == PASHKURE_WAITS);
    interrupted(b);
    CHECK(other.calls == 1 && other.result == PASHKURE_INTERRUPTED);
    for (int i = 0; i < 10; i++) {
        const char name = (char)('0' + i);
        KEPT[i] = begun();
        GIVES(pashkure_locks_ask(locks, KEPT[i], &name, 1, ends_itself, &told[i]), PASHKURE_WAITS);
    }
    ends(a);
    for (int i = 0; i < 10; i++)
        CHECK(told[i].calls == 1 && told[i].result == PASHKURE_OK && pthread_equal(told[i].thread, pthread_self()));
    CHECK(other.calls == 1);
    shut();
}

static void refuses_all(pashkure_key key)
{
    GIVES(lock(key, "z", 0), PASHKURE_WAITING);
    GIVES(ask(key, "z", NULL), PASHKURE_WAITING);
    GIVES(pashkure_locks_unlock(locks, key, "x", 1), PASHKURE_WAITING);
    GIVES(pashkure_locks_commit(locks, key), PASHKURE_WAITING);
    GIVES(pashkure_locks_abort(locks, key), PASHKURE_WAITING);
}

/* Of a thread that was given the name too, as long as it has not seen it. A signal is no news. (It is sent again if it is not handled: the
 * ThreadSanitizer of GCC 12 loses one that comes while it takes memory for the thread's signals, at the first call of the thread that blocks. But not
 * at once: a thread that has a signal to handle each time does nothing else.) */
TEST(one_request_at_a_time)
{
    struct sleeper sleeper;
    struct sigaction action = {.sa_handler = handles};
    opened(2, 4);
    CHECK(sigaction(SIGUSR1, &action, NULL) == 0);
    is_late = true;
    starts(&sleeper, b, "x", PASHKURE_FOREVER);
    for (int yields = 0; !is_signalled; yields++) {
        if (yields % 100 == 0)
            CHECK(pthread_kill(sleeper.thread, SIGUSR1) == 0);
        sched_yield();
    }
    refuses_all(b);
    ends(a);
    CHECK(state(b) == PASHKURE_OK);
    refuses_all(b);
    interrupted(b);
    is_late = false;
    GIVES(result_of(&sleeper), PASHKURE_OK);
    GIVES(lock(b, "z", 0), PASHKURE_INTERRUPTED);
    shut();
}

static void *locks_x(void *argument)
{
    (void)argument;
    GIVES(lock(a, "x", PASHKURE_FOREVER), PASHKURE_OK);
    return NULL;
}

TEST(hold)
{
    pashkure_key owner;
    pashkure_seen seen;
    struct note told = {0};
    size_t length;
    char name[8];
    pthread_t thread;
    opened(0, 2);
    for (int i = 0; i < 3; i++)
        ends(begun()); /* of which the desk knows nothing */
    b = begun(), a = begun();
    GIVES(lock(b, "y", 0), PASHKURE_OK);
    pashkure_locks_hold(locks);
    GIVES(pashkure_locks_owner(locks, "y", 1, &owner), PASHKURE_FREE);
    pashkure_locks_let_go(locks);
    GIVES(pashkure_locks_hold_all(locks), PASHKURE_OK);
    missed = 0;
    CHECK(pthread_create(&thread, NULL, locks_x, NULL) == 0);
    while (missed < 1)
        sched_yield();
    GIVES(pashkure_locks_owner(locks, "x", 1, &owner), PASHKURE_FREE);
    GIVES(pashkure_locks_owner(locks, "y", 1, &owner), PASHKURE_OK);
    CHECK(owner.slot == b.slot && owner.generation == b.generation);
    GIVES(pashkure_locks_name(locks, 0, name, sizeof name, &length, &owner), PASHKURE_OK);
    CHECK(length == 1 && name[0] == 'y' && owner.slot == b.slot && owner.generation == b.generation);
    pashkure_locks_let_go(locks);
    CHECK(pthread_join(thread, NULL) == 0);
    GIVES(ask(a, "y", &told), PASHKURE_WAITS);
    pashkure_locks_hold(locks);
    GIVES(pashkure_locks_look(locks, a.slot, &seen), PASHKURE_WAITS);
    CHECK(seen.key.generation == a.generation && seen.holder.slot == b.slot && seen.holder.generation == b.generation);
    pashkure_locks_let_go(locks);
    ends(b);
    CHECK(state(b) == PASHKURE_FREE && totals().committed == 4 && totals().aborted == 0);
    b = begun();
    GIVES(lock(b, "z", 0), PASHKURE_OK);
    pashkure_locks_hold(locks);
    GIVES(pashkure_locks_owner(locks, "z", 1, &owner), PASHKURE_FREE); /* by its word again */
    pashkure_locks_let_go(locks);
    shut();
}

static const char *const WANTED[] = {"100", "2999"};
static int halfway; /* how often one of these was handed over while the other was the ending transaction's still */

static void looks(void *context, pashkure_key key, pashkure_result result)
{
    const int mine = context == WANTED[1];
    pashkure_key owner, other;
    pashkure_locks_hold(locks);
    GIVES(pashkure_locks_owner(locks, WANTED[mine], strlen(WANTED[mine]), &owner), PASHKURE_OK);
    GIVES(pashkure_locks_owner(locks, WANTED[!mine], strlen(WANTED[!mine]), &other), PASHKURE_OK);
    pashkure_locks_let_go(locks);
    CHECK(owner.slot == key.slot && result == PASHKURE_OK);
    halfway += other.slot == a.slot;
}

/* A transaction of 3,000 names ends, for which two others wait, and of which it gives no more than 256 back while it has the mutex. */
static void ends_by_portions(pashkure_result (*end)(pashkure_locks *, pashkure_key))
{
    char name[16];
    halfway = largest = 0;
    opens(8, 3000);
    a = begun(), b = begun(), c = begun();
    for (int i = 0; i < 3000; i++) {
        snprintf(name, sizeof name, "%d", i);
        GIVES(lock(a, name, 0), PASHKURE_OK);
    }
    GIVES(pashkure_locks_ask(locks, b, WANTED[0], strlen(WANTED[0]), looks, (void *)WANTED[0]), PASHKURE_WAITS);
    GIVES(pashkure_locks_ask(locks, c, WANTED[1], strlen(WANTED[1]), looks, (void *)WANTED[1]), PASHKURE_WAITS);
    GIVES(end(locks, a), PASHKURE_OK);
    CHECK(halfway == 1 && largest > 1 && largest <= 256);
    GIVES(lock(c, "1500", 0), PASHKURE_OK);
    ends(b);
    ends(c);
    GIVES(pashkure_locks_close(locks), PASHKURE_OK);
}

TEST(portions)
{
    ends_by_portions(pashkure_locks_commit);
    ends_by_portions(pashkure_locks_abort);
}

/* Each slot is found, by whom it was left to. */
TEST(slots)
{
    enum { SLOTS = 200 };
    static pashkure_key keys[SLOTS];
    pashkure_key key;
    opens(SLOTS, 8);
    for (int round = 0; round < 3; round++) {
        for (int i = 0; i < SLOTS; i++)
            ends(begun()), keys[i] = begun();
        GIVES(pashkure_locks_begin(locks, &key), PASHKURE_TRANSACTIONS_FULL);
        for (int i = 0; i < SLOTS; i += 7) {
            ends(keys[i]);
            key = begun();
            CHECK(key.slot == keys[i].slot && key.generation == keys[i].generation + 1);
            keys[i] = key;
            GIVES(pashkure_locks_begin(locks, &key), PASHKURE_TRANSACTIONS_FULL);
        }
        for (int i = 0; i < SLOTS; i++)
            ends(keys[i]);
    }
    GIVES(pashkure_locks_close(locks), PASHKURE_OK);
}

enum { MOST_THREADS = 100, MOST_NAMES = 1000 };
static struct {
    int threads, names, rounds;
    time_t until; /* so long each thread makes more rounds */
} of;
static int in_hands[MOST_NAMES]; /* plain: a name in two hands is a race */
static _Atomic(pashkure_key) now[MOST_THREADS];

static void posts(void *context, pashkure_key key, pashkure_result result)
{
    CHECK(key.generation != 0);
    *(atomic_int *)context = (int)result;
}

/* Locks the name in one of four ways. */
static pashkure_result locks_somehow(pashkure_key key, const int *name, unsigned how)
{
    atomic_int mail = PASHKURE_WAITS;
    pashkure_result told;
    if (how < 3)
        return pashkure_locks_lock(locks, key, name, sizeof *name, how == 0 ? PASHKURE_FOREVER : how == 1 ? 100000 : 0);
    told = pashkure_locks_ask(locks, key, name, sizeof *name, posts, &mail);
    if (told != PASHKURE_WAITS)
        return told;
    while (mail == PASHKURE_WAITS)
        sched_yield();
    return (pashkure_result)mail;
}

static void *works(void *argument)
{
    _Atomic(pashkure_key) *place = argument;
    unsigned random = (unsigned)(place - now) + 1;
    for (int round = 0; round < of.rounds; round++) {
        pashkure_key key = begun();
        int mine[3], count = 0;
        pashkure_result told = PASHKURE_OK;
        *place = key;
        (void)pashkure_locks_interrupt(locks, now[rand_r(&random) % of.threads]);
        for (int i = 0; i < 3 && PASHKURE_OWNS(told); i++) {
            const int name = rand_r(&random) % of.names;
            told = locks_somehow(key, &name, (unsigned)rand_r(&random) % 4);
            if (told == PASHKURE_OK)
                CHECK(in_hands[mine[count++] = name]++ == 0);
            sched_yield();
        }
        CHECK(!PASHKURE_IS_REFUSAL(told));
        if (count > 1) {
            CHECK(--in_hands[mine[--count]] == 0);
            GIVES(pashkure_locks_unlock(locks, key, &mine[count], sizeof *mine), PASHKURE_OK);
        }
        while (count > 0)
            CHECK(--in_hands[mine[--count]] == 0);
        GIVES(PASHKURE_OWNS(told) || rand_r(&random) % 2 ? pashkure_locks_commit(locks, key) : pashkure_locks_abort(locks, key), PASHKURE_OK);
    }
    return NULL;
}

/* No name is in two hands. */
static pashkure_counts come(int count, int of_names, int of_rounds, void *(*does)(void *))
{
    pthread_t threads[MOST_THREADS];
    pashkure_counts counts;
    of.threads = count, of.names = of_names, of.rounds = of_rounds;
    opens((uint32_t)count, MOST_NAMES);
    for (int i = 0; i < count; i++)
        CHECK(pthread_create(&threads[i], NULL, does, (void *)&now[i]) == 0);
    for (int i = 0; i < count; i++)
        CHECK(pthread_join(threads[i], NULL) == 0);
    counts = totals();
    CHECK(counts.begun == counts.committed + counts.aborted);
    GIVES(pashkure_locks_close(locks), PASHKURE_OK);
    return counts;
}

TEST(crowd)
{
    CHECK(come(8, 8, 1000, works).begun == 8000);
}

static int rounds_of(int usual)
{
    const char *rounds = getenv("ROUNDS");
    return rounds == NULL ? usual : atoi(rounds);
}

TEST(large_crowd)
{
    const int rounds = rounds_of(100);
    CHECK(come(64, 1000, rounds, works).begun == 64ul * (unsigned long)rounds);
}

/* Gives back what was locked since a savepoint, which is how many names were owned then. */
static void rolls_back_to(pashkure_key key, const int *mine, int *count, int savepoint)
{
    while (*count > savepoint) {
        const int name = mine[--*count];
        CHECK(--in_hands[name] == 0);
        GIVES(pashkure_locks_unlock(locks, key, &name, sizeof name), PASHKURE_OK);
    }
}

/* Transactions of four names, in any order, none of which ever aborts: after a deadlock it goes back by one name, after the next one by two, and
 * so on, until it has all. */
static void *goes_back(void *argument)
{
    unsigned random = (unsigned)((_Atomic(pashkure_key) *)argument - now) + 1;
    for (int round = 0; round < of.rounds || time(NULL) < of.until; round++) {
        const pashkure_key key = begun();
        int mine[4], count = 0, deadlocks = 0;
        while (count < 4) {
            const int name = rand_r(&random) % of.names;
            const pashkure_result told = pashkure_locks_lock(locks, key, &name, sizeof name, PASHKURE_FOREVER);
            if (told == PASHKURE_OK)
                CHECK(in_hands[mine[count++] = name]++ == 0);
            if (told != PASHKURE_DEADLOCK)
                continue;
            rolls_back_to(key, mine, &count, count > ++deadlocks ? count - deadlocks : 0);
            for (unsigned pause = (unsigned)rand_r(&random) % 64; pause > 0; pause--)
                sched_yield();
        }
        while (count > 0)
            CHECK(--in_hands[mine[--count]] == 0);
        ends(key);
    }
    return NULL;
}

TEST(savepoints)
{
    const char *seconds = getenv("SAVEPOINTS_FOR");
    of.until = seconds == NULL ? 0 : time(NULL) + atoi(seconds);
    CHECK(come(100, 400, 20, goes_back).aborted == 0);
}

#if defined(__SANITIZE_ADDRESS__) || defined(__SANITIZE_THREAD__)
enum { MANY = 1024 };
#else
enum { MANY = 32768 };
#endif

/* Far more names than the manager has room for, since nobody waits for one. */
TEST(many_names)
{
    static pashkure_key keys[MANY];
    pashkure_config config = PASHKURE_CONFIG;
    config.transactions = MANY;
    config.names = 2 * MANY;
    config.buckets = 128 * MANY;
    GIVES(pashkure_locks_open(&locks, &config), PASHKURE_OK);
    for (uint32_t i = 0; i < 8 * MANY; i++) {
        if (i % 8 == 0)
            keys[i / 8] = begun();
        GIVES(pashkure_locks_lock(locks, keys[i / 8], &i, sizeof i, 0), PASHKURE_OK);
    }
    CHECK(totals().begun == MANY);
    for (uint32_t i = 0; i < MANY; i++)
        ends(keys[i]);
    GIVES(pashkure_locks_close(locks), PASHKURE_OK);
}

static const struct test TESTS[] = {
    ROW(memory),
    ROW(refusals),
    ROW(names_each),
    ROW(order_of_sleepers),
    ROW(time_out),
    ROW(deadlock),
    ROW(behind_a_deadlock),
    ROW(cycles),
    ROW(savepoint),
    ROW(interrupt),
    ROW(several_names),
    ROW(wake_calls),
    ROW(one_request_at_a_time),
    ROW(hold),
    ROW(portions),
    ROW(slots),
    ROW(crowd),
    ROW(large_crowd),
    ROW(savepoints),
    ROW(many_names),
};

int main(int count, char **words)
{
    (void)count;
    alarm(300);
    return tested(TESTS, sizeof TESTS / sizeof *TESTS, words);
}
