/* What threads have to wait for, over pashkure_threads.h. `transfers_beside end` prints how many transactions of four names two threads commit in a
   second while a third one owns 50,000 names, how many while that one commits, and how many microseconds its commit takes: medians of nine.
   `transfers_beside wait` prints the longest time, in microseconds, that a thread needs to lock a name and give it back of which another thread does
   nothing else, beside two busy loops a processor, once a millisecond for three seconds. `transfers_beside hand` does that with one mutex. All of it is
   at normal priority: the loops take all processors. */
#define _GNU_SOURCE
#include <pashkure_threads.h>

#include <pthread.h>
#include <sched.h>
#include <signal.h>
#include <stdatomic.h>
#include <stdio.h>
#include <stdlib.h>
#include <string.h>
#include <sys/wait.h>
#include <time.h>
#include <unistd.h>

enum { NAME_BYTES = 16, MANY = 50000, NAMES = 65536, ROUNDS = 9, ALONE = 200000, LOOPS = 2, MOST_LOOPS = 128, SECONDS = 3 };

static pashkure_locks *locks;
static atomic_bool stop;

/* A cache line of its own for each thread, or two. */
static struct __attribute__((aligned(128))) {
    _Atomic uint64_t commits;
} done[2];

static void must(pashkure_result result)
{
    if (result == PASHKURE_OK)
        return;
    fprintf(stderr, "transfers_beside: %s\n", pashkure_message(result));
    exit(1);
}

static uint64_t microseconds(void)
{
    struct timespec at;
    clock_gettime(CLOCK_MONOTONIC, &at);
    return (uint64_t)at.tv_sec * 1000000 + (uint64_t)at.tv_nsec / 1000;
}

static void open_locks(void)
{
    pashkure_config config = PASHKURE_CONFIG;
    config.transactions = 8;
    config.names = NAMES;
    config.name_bytes = NAME_BYTES;
    config.seed = 7;
    must(pashkure_locks_open(&locks, &config));
}

static pashkure_key begun(void)
{
    pashkure_key key;
    must(pashkure_locks_begin(locks, &key));
    return key;
}

/* ---- The end of a large transaction ---- */

/* Whether the transaction had its four names; else it was aborted after a deadlock. */
static bool transfer(unsigned *random)
{
    char names[4][NAME_BYTES + 1];
    pashkure_request requests[4];
    pashkure_key key = begun();
    for (int place = 0; place < 4; place++) {
        snprintf(names[place], sizeof names[place], "accounts/%07u", rand_r(random) % NAMES);
        requests[place] = (pashkure_request){names[place], NAME_BYTES, PASHKURE_NOT_ASKED};
    }
    if (pashkure_locks_lock_all(locks, key, requests, 4, PASHKURE_FOREVER) != PASHKURE_OK) {
        must(pashkure_locks_abort(locks, key));
        return false;
    }
    must(pashkure_locks_commit(locks, key));
    return true;
}

static void *transfers(void *number)
{
    const size_t my = (size_t)number;
    unsigned random = (unsigned)my + 1;
    while (!atomic_load(&stop))
        if (transfer(&random))
            atomic_fetch_add(&done[my].commits, 1);
    return NULL;
}

static uint64_t commits(void)
{
    return atomic_load(&done[0].commits) + atomic_load(&done[1].commits);
}

/* A transaction that owns 50,000 names. */
static pashkure_key large(void)
{
    char name[NAME_BYTES + 1];
    pashkure_key key = begun();
    for (unsigned number = 0; number < MANY; number++) {
        snprintf(name, sizeof name, "large/%010u", number);
        must(pashkure_locks_lock(locks, key, name, NAME_BYTES, PASHKURE_FOREVER));
    }
    return key;
}

static int by_size(const void *one, const void *other)
{
    const uint64_t a = *(const uint64_t *)one, b = *(const uint64_t *)other;
    return (a > b) - (a < b);
}

static unsigned long long median(uint64_t *numbers)
{
    qsort(numbers, ROUNDS, sizeof *numbers, by_size);
    return numbers[ROUNDS / 2];
}

static void end_of_a_large_one(void)
{
    pthread_t threads[2];
    uint64_t alone[ROUNDS], beside[ROUNDS], took[ROUNDS];
    for (size_t i = 0; i < 2; i++)
        pthread_create(&threads[i], NULL, transfers, (void *)i);
    for (int round = 0; round < ROUNDS; round++) {
        const pashkure_key key = large();
        uint64_t before = commits(), begin = microseconds();
        usleep(ALONE);
        alone[round] = (commits() - before) * 1000000 / (microseconds() - begin);
        before = commits(), begin = microseconds();
        must(pashkure_locks_commit(locks, key));
        took[round] = microseconds() - begin;
        beside[round] = (commits() - before) * 1000000 / took[round];
    }
    atomic_store(&stop, true);
    for (size_t i = 0; i < 2; i++)
        pthread_join(threads[i], NULL);
    printf("%llu %llu %llu\n", median(alone), median(beside), median(took));
}

/* ---- The longest wait ---- */

static pthread_mutex_t by_hand = PTHREAD_MUTEX_INITIALIZER;

static void once_by_hand(void)
{
    pthread_mutex_lock(&by_hand);
    pthread_mutex_unlock(&by_hand);
}

static void once(void)
{
    const pashkure_key key = begun();
    must(pashkure_locks_lock(locks, key, "x", 1, PASHKURE_FOREVER));
    must(pashkure_locks_commit(locks, key));
}

static void *again_and_again(void *what)
{
    while (!atomic_load(&stop))
        (*(void (**)(void))what)();
    return NULL;
}

static void longest_wait(void (*what)(void))
{
    const long count = LOOPS * sysconf(_SC_NPROCESSORS_ONLN);
    pid_t loops[MOST_LOOPS];
    uint64_t longest = 0;
    pthread_t thread;
    for (long i = 0; i < count; i++)
        if ((loops[i] = fork()) == 0)
            for (;;)
                __asm__ volatile("");
    pthread_create(&thread, NULL, again_and_again, &what);
    for (const uint64_t end = microseconds() + SECONDS * 1000000; microseconds() < end; usleep(1000)) {
        const uint64_t begin = microseconds();
        what();
        const uint64_t took = microseconds() - begin;
        if (took > longest)
            longest = took;
    }
    for (long i = 0; i < count; i++)
        kill(loops[i], SIGKILL), waitpid(loops[i], NULL, 0);
    atomic_store(&stop, true);
    pthread_join(thread, NULL);
    printf("%llu\n", (unsigned long long)longest);
}

int main(int count, char **words)
{
    if (count != 2)
        return 2;
    sched_setscheduler(0, SCHED_OTHER, &(struct sched_param){0});
    open_locks();
    if (strcmp(words[1], "end") == 0)
        end_of_a_large_one();
    else if (strcmp(words[1], "wait") == 0)
        longest_wait(once);
    else if (strcmp(words[1], "hand") == 0)
        longest_wait(once_by_hand);
    else
        return 2;
    return 0;
}
