/* Runs of threads at one lock manager, written down: orders THREADS NAMES CALLS RUNS SEED. Each run prints a line for each call, "thread start end
 * kind name answer" in nanoseconds, as tests/lib/orders.py reads it, and then a line "run". */
#define _POSIX_C_SOURCE 200809L
#include <pashkure_threads.h>
#include <pthread.h>
#include <stdint.h>
#include <stdio.h>
#include <stdlib.h>
#include <time.h>

#define MAX_CALLS 64
#define MAX_THREADS 8
#define SHORT_TIME 30000

struct call {
    int64_t start, end;
    char kind, name;
    pashkure_result answer;
};

struct thread {
    pthread_t id;
    int number;
    uint64_t random;
    struct call calls[MAX_CALLS];
    int count;
};

/* Ends the program unless this holds. */
static void must(int is_so, const char *what)
{
    if (is_so)
        return;
    fprintf(stderr, "orders: %s\n", what);
    _Exit(1);
}

static pashkure_locks *locks;
static pthread_barrier_t gate;
static int names, most;

static uint32_t by_chance(struct thread *self, uint32_t bound)
{
    self->random = self->random * 6364136223846793005u + 1442695040888963407u;
    return (uint32_t)(self->random >> 33) % bound;
}

static int64_t now(void)
{
    struct timespec time;
    clock_gettime(CLOCK_MONOTONIC, &time);
    return (int64_t)time.tv_sec * 1000000000 + time.tv_nsec;
}

static pashkure_result made(pashkure_key key, struct call *call, int64_t limit)
{
    switch (call->kind) {
    case 'l':
    case 't': return pashkure_locks_lock(locks, key, &call->name, 1, limit);
    case 'u': return pashkure_locks_unlock(locks, key, &call->name, 1);
    case 'c': return pashkure_locks_commit(locks, key);
    default: return pashkure_locks_abort(locks, key);
    }
}

/* Makes a call, and writes it down. */
static pashkure_result call(struct thread *self, pashkure_key key, char kind, int64_t limit)
{
    struct call *call = &self->calls[self->count++];
    call->kind = kind;
    call->name = (char)('a' + by_chance(self, (uint32_t)names));
    call->start = now();
    call->answer = made(key, call, limit);
    call->end = now();
    return call->answer;
}

/* One call of a transaction, by chance. */
static pashkure_result any(struct thread *self, pashkure_key key)
{
    switch (by_chance(self, 8)) {
    case 0: return call(self, key, 'u', 0);
    case 1: return call(self, key, 't', 0);
    case 2: return call(self, key, 'l', SHORT_TIME);
    default: return call(self, key, 'l', PASHKURE_FOREVER);
    }
}

static void *work(void *given)
{
    struct thread *self = given;
    pthread_barrier_wait(&gate);
    while (self->count < most) {
        pashkure_key key;
        uint32_t left = 1 + by_chance(self, 4);
        must(pashkure_locks_begin(locks, &key) == PASHKURE_OK, "a begin is refused");
        while (left-- > 0 && self->count < most && any(self, key) != PASHKURE_DEADLOCK)
            ;
        must(call(self, key, by_chance(self, 4) == 0 ? 'a' : 'c', 0) == PASHKURE_OK, "an end is refused");
    }
    return NULL;
}

static const char *kind_of(char kind)
{
    return kind == 'l' ? "lock" : kind == 't' ? "try" : kind == 'u' ? "unlock" : "end";
}

static const char *answer_of(pashkure_result answer)
{
    switch (answer) {
    case PASHKURE_OK: return "ok";
    case PASHKURE_HELD: return "held";
    case PASHKURE_BUSY: return "busy";
    case PASHKURE_DEADLOCK: return "deadlock";
    case PASHKURE_TIMED_OUT: return "timed-out";
    case PASHKURE_NOT_OWNER: return "not-owner";
    default: return "refused";
    }
}

static void print(const struct thread *thread)
{
    for (int i = 0; i < thread->count; i++) {
        const struct call *call = &thread->calls[i];
        const char *kind = kind_of(call->kind);
        printf("%d %lld %lld %s %c %s\n", thread->number, (long long)call->start, (long long)call->end, kind, *kind == 'e' ? '-' : call->name,
            answer_of(call->answer));
    }
}

static void one_run(int threads, uint64_t seed)
{
    static struct thread all[MAX_THREADS];
    pashkure_config config = PASHKURE_CONFIG;
    config.transactions = (uint32_t)threads;
    config.names = (uint32_t)names;
    config.name_bytes = 1;
    config.buckets = seed % 2 == 0 ? 2 : 64;
    config.seed = seed;
    must(pashkure_locks_open(&locks, &config) == PASHKURE_OK, "it is not opened");
    pthread_barrier_init(&gate, NULL, (unsigned)threads);
    for (int i = 0; i < threads; i++) {
        all[i].number = i, all[i].count = 0, all[i].random = seed * MAX_THREADS + (uint64_t)i;
        must(pthread_create(&all[i].id, NULL, work, &all[i]) == 0, "no thread");
    }
    for (int i = 0; i < threads; i++)
        must(pthread_join(all[i].id, NULL) == 0, "a thread is lost");
    for (int i = 0; i < threads; i++)
        print(&all[i]);
    printf("run\n");
    pthread_barrier_destroy(&gate);
    must(pashkure_locks_close(locks) == PASHKURE_OK, "it is not closed");
}

int main(int count, char **words)
{
    must(count == 6, "orders THREADS NAMES CALLS RUNS SEED");
    int threads = atoi(words[1]), runs = atoi(words[4]);
    names = atoi(words[2]), most = atoi(words[3]);
    must(threads >= 1 && threads <= MAX_THREADS && most >= 1 && most < MAX_CALLS && names >= 1 && names <= 26, "a number is out of range");
    uint64_t seed = strtoull(words[5], NULL, 10);
    for (int run = 0; run < runs; run++)
        one_run(threads, seed + (uint64_t)(unsigned)run);
    return 0;
}
