/* What one run of Berkeley DB's deadlock detector costs where this many transactions wait in a chain: each of them in a thread, since
   lock_get returns when the lock is granted. For each length it prints the length, and nanoseconds of processor time: the least of the
   runs after the last few waits. Before each run there is a new wait, since the detector does nothing otherwise; the wait itself is not
   timed. */
#include <db.h>
#include <pthread.h>
#include <stdio.h>
#include <stdlib.h>
#include <time.h>
#include <unistd.h>

enum { FEWEST = 4, MOST = 4095, RUNS = 4, STACK = 128 * 1024 };

static DB_ENV *env;
static u_int32_t lockers[MOST + 1];

static void must(int fault)
{
    if (fault != 0) {
        fprintf(stderr, "berkeley: %s\n", db_strerror(fault));
        exit(1);
    }
}

static void get(int transaction, int object)
{
    DBT name = {.data = &object, .size = sizeof object};
    DB_LOCK lock;
    must(env->lock_get(env, lockers[transaction], 0, &name, DB_LOCK_WRITE, &lock));
}

static void open_environment(void)
{
    must(db_env_create(&env, 0));
    must(env->set_lk_max_lockers(env, MOST + 1));
    must(env->set_lk_max_locks(env, 2 * MOST + 2));
    must(env->set_lk_max_objects(env, MOST + 1));
    must(env->open(env, NULL, DB_CREATE | DB_INIT_LOCK | DB_PRIVATE | DB_THREAD, 0));
}

/* Transaction n waits for n - 1. */
static void *wait_for_the_one_before(void *number)
{
    int transaction = (int)(size_t)number;
    get(transaction, transaction - 1);
    return NULL;
}

static void wait_until(u_int64_t waits)
{
    for (;;) {
        DB_LOCK_STAT *stat;
        must(env->lock_stat(env, &stat, 0));
        u_int64_t seen = stat->st_lock_wait;
        free(stat);
        if (seen >= waits)
            return;
        usleep(50);
    }
}

/* One more transaction, which owns an object of its own, and waits. */
static void add(int transaction)
{
    pthread_t thread;
    pthread_attr_t small;
    must(env->lock_id(env, &lockers[transaction]));
    get(transaction, transaction);
    if (transaction == 0)
        return;
    pthread_attr_init(&small);
    pthread_attr_setstacksize(&small, STACK);
    must(pthread_create(&thread, &small, wait_for_the_one_before, (void *)(size_t)transaction));
    wait_until(transaction);
}

static double detect(void)
{
    struct timespec start, end;
    int aborted = 0;
    clock_gettime(CLOCK_THREAD_CPUTIME_ID, &start);
    must(env->lock_detect(env, 0, DB_LOCK_DEFAULT, &aborted));
    clock_gettime(CLOCK_THREAD_CPUTIME_ID, &end);
    if (aborted != 0)
        must(DB_LOCK_DEADLOCK);
    return (end.tv_sec - start.tv_sec) * 1e9 + (end.tv_nsec - start.tv_nsec);
}

int main(void)
{
    int length = FEWEST;
    double least = 0;
    open_environment();
    add(0);
    for (int waits = 1; waits <= MOST; waits++) {
        add(waits);
        if (length - waits < RUNS) {
            double took = detect();
            if (least == 0 || took < least)
                least = took;
        }
        if (waits == length) {
            printf("%d %.1f\n", waits, least);
            least = 0;
            length = 2 * length < MOST ? 2 * length : MOST;
        }
    }
    fflush(stdout);
    _exit(0); /* the threads wait still */
}
