/* Two threads count in one place, each in a transaction, one after the other: `race NAME OTHER`. If they lock one name, that is no race. */
#include "pashkure_threads.h"

#include <pthread.h>
#include <sched.h>
#include <stdatomic.h>
#include <string.h>

static pashkure_locks *locks;
static int counted;
static atomic_int turn;

struct counter {
    int turn;
    const char *name;
};

/* Turns are taken by relaxed loads and stores, which order nothing else. */
static void *counts(void *argument)
{
    const struct counter *my = argument;
    pashkure_key key;
    while (atomic_load_explicit(&turn, memory_order_relaxed) != my->turn)
        sched_yield();
    if (pashkure_locks_begin(locks, &key) != PASHKURE_OK)
        return NULL;
    if (pashkure_locks_lock(locks, key, my->name, strlen(my->name), PASHKURE_FOREVER) != PASHKURE_OK)
        return NULL;
    counted++;
    if (pashkure_locks_commit(locks, key) == PASHKURE_OK)
        atomic_store_explicit(&turn, my->turn + 1, memory_order_relaxed);
    return NULL;
}

int main(int count, char **words)
{
    pashkure_config config = PASHKURE_CONFIG;
    pthread_t threads[2];
    if (count != 3 || pashkure_locks_open(&locks, &config) != PASHKURE_OK)
        return 2;
    struct counter counters[] = {{0, words[1]}, {1, words[2]}};
    for (int i = 0; i < 2; i++)
        if (pthread_create(&threads[i], NULL, counts, &counters[i]) != 0)
            return 2;
    for (int i = 0; i < 2; i++)
        pthread_join(threads[i], NULL);
    return pashkure_locks_close(locks) == PASHKURE_OK && counted == 2 ? 0 : 1;
}
