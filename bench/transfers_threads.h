/* The threads of bench/transfers in C: a program includes this file, and gives the locks by four functions. `PROGRAM THREADS NAMES MILLISECONDS`
   makes transactions of four locks each in so many threads; if NAMES is 0, each thread has four names of its own. It prints how many nanoseconds
   that took, how many transactions were committed, and how often one was aborted after a deadlock. The threads look at the clock themselves: at
   real-time priority they leave no processor to another one. */
#include <pthread.h>
#include <stdatomic.h>
#include <stdint.h>
#include <stdio.h>
#include <stdlib.h>
#include <string.h>
#include <time.h>

enum { NAME_BYTES = 16, MAX_THREADS = 64, BETWEEN_LOOKS = 64 };

static char (*names)[NAME_BYTES + 1];
static uint32_t name_count;
static int is_own;                 /* each thread has names of its own */
static int64_t length;             /* of the run, in nanoseconds */
static _Atomic int64_t start, end; /* 0 before */
static pthread_barrier_t gate;

static void open_locks(void);

/* What a thread has for all of its transactions. */
static uint32_t open_session(void);
static void close_session(uint32_t session);

/* Locks four names and gives them back. Whether the transaction had all of them; else it was aborted after a deadlock. */
static int transfer(uint32_t session, const uint32_t *chosen);

/* A cache line of its own for each thread, or two. */
struct __attribute__((aligned(128))) done {
    uint64_t seed, commits, aborts;
};

/* The generator PCG-XSH-RR, on stream 0. */
static uint32_t next_word(uint64_t *state)
{
    uint64_t old = *state;
    *state = old * 6364136223846793005u + 1;
    uint32_t shifted = (uint32_t)((old >> 18 ^ old) >> 27), turn = (uint32_t)(old >> 59);
    return shifted >> turn | shifted << (-turn & 31);
}

static uint64_t seeded(uint64_t seed)
{
    uint64_t state = 0;
    next_word(&state);
    state += seed;
    next_word(&state);
    return state;
}

/* Four numbers below the count of names by chance, no two the same. */
static void four_names(uint64_t *state, uint32_t *chosen)
{
    for (int count = 0; count < 4;) {
        uint32_t number = (uint32_t)((uint64_t)next_word(state) * name_count >> 32);
        int is_new = 1;
        for (int place = 0; place < count; place++)
            is_new &= chosen[place] != number;
        if (is_new)
            chosen[count++] = number;
    }
}

static int64_t now(void)
{
    struct timespec at;
    clock_gettime(CLOCK_MONOTONIC, &at);
    return at.tv_sec * 1000000000LL + at.tv_nsec;
}

/* Stores the time, unless one is stored. */
static void set_time(_Atomic int64_t *time)
{
    int64_t none = 0;
    atomic_compare_exchange_strong(time, &none, now());
}

static void *work(void *argument)
{
    struct done *done = argument;
    uint64_t state = seeded(done->seed);
    uint32_t chosen[4];
    uint32_t session = open_session();
    pthread_barrier_wait(&gate);
    set_time(&start);
    for (uint32_t place = 0; place < 4; place++)
        chosen[place] = 4 * (uint32_t)(done->seed - 1) + place;
    while (atomic_load(&end) == 0) {
        if (!is_own)
            four_names(&state, chosen);
        while (!transfer(session, chosen))
            done->aborts++;
        done->commits++;
        if (done->commits % BETWEEN_LOOKS == 0 && now() - atomic_load(&start) >= length)
            set_time(&end);
    }
    close_session(session);
    return NULL;
}

static void make_names(void)
{
    names = malloc(name_count * sizeof *names);
    for (uint32_t number = 0; number < name_count; number++)
        snprintf(names[number], sizeof *names, "accounts/%07u", number % 10000000);
}

int main(int count, char **words)
{
    if (count != 4)
        return 2;
    int threads = atoi(words[1]);
    name_count = (uint32_t)atoi(words[2]);
    is_own = name_count == 0;
    if (is_own)
        name_count = 4 * (uint32_t)threads;
    make_names();
    open_locks();
    length = atoi(words[3]) * 1000000LL;
    pthread_barrier_init(&gate, NULL, (unsigned)threads);
    pthread_t started[MAX_THREADS];
    struct done done[MAX_THREADS] = {0};
    for (int thread = 0; thread < threads; thread++) {
        done[thread].seed = (uint64_t)thread + 1;
        pthread_create(&started[thread], NULL, work, &done[thread]);
    }
    uint64_t commits = 0, aborts = 0;
    for (int thread = 0; thread < threads; thread++) {
        pthread_join(started[thread], NULL);
        commits += done[thread].commits;
        aborts += done[thread].aborts;
    }
    printf("%lld %llu %llu\n", (long long)(end - start), (unsigned long long)commits, (unsigned long long)aborts);
    return 0;
}
