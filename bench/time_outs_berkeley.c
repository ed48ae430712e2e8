/* What `bench_locks last` of crates/bench_locks does, by Berkeley DB's lock manager: `time_outs_berkeley WAITING own|carried` lets this many
   transactions wait in a chain, each in a thread, and the last one asks with a time of 20 ms. If `carried`, the front of the chain blocks while
   the last one waits, else before it. It prints how many nanoseconds after its time the last one came back. Berkeley DB looks for
   requests whose time is over when its detector runs, so a thread runs the detector for these alone, a millisecond apart. */
#include <db.h>
#include <pthread.h>
#include <stdatomic.h>
#include <stdint.h>
#include <stdio.h>
#include <stdlib.h>
#include <string.h>
#include <time.h>
#include <unistd.h>

enum { MOST = 4095, STACK = 128 * 1024, LIMIT = 20, LATER = 10 };

static DB_ENV *env;
static int last, carried;
static atomic_bool is_back;
static pthread_barrier_t gate;
static int64_t late = -1;

static void must(int fault)
{
    if (fault != 0) {
        fprintf(stderr, "time_outs_berkeley: %s\n", db_strerror(fault));
        exit(1);
    }
}

static int64_t now(void)
{
    struct timespec time;
    clock_gettime(CLOCK_MONOTONIC, &time);
    return time.tv_sec * 1000000000LL + time.tv_nsec;
}

/* The others wait after this many milliseconds. */
static int settling(void)
{
    return 10 + last / 2;
}

static int get(u_int32_t locker, int number, u_int32_t milliseconds)
{
    DBT name = {.data = &number, .size = sizeof number};
    DB_LOCKREQ request = {.op = milliseconds ? DB_LOCK_GET_TIMEOUT : DB_LOCK_GET,
                   .mode = DB_LOCK_WRITE,
                   .obj = &name,
                   .timeout = milliseconds * 1000},
               *failed;
    return env->lock_vec(env, locker, 0, &request, 1, &failed);
}

/* Prints how late the last one came back, and ends the program: the others wait still. */
static void await_last(void)
{
    while (!atomic_load(&is_back))
        usleep(1000);
    if (late >= 0)
        printf("%lld\n", (long long)late);
    fflush(stdout);
    _exit(0);
}

static void *part(void *argument)
{
    int number = (int)(size_t)argument;
    u_int32_t locker;
    must(env->lock_id(env, &locker));
    must(get(locker, number, 0));
    pthread_barrier_wait(&gate);
    if (number == 0) {
        await_last();
    } else if (number == last) {
        usleep(1000u * (unsigned)settling());
        int64_t start = now();
        int fault = get(locker, number - 1, LIMIT);
        int64_t took = now() - start;
        if (fault == DB_LOCK_NOTGRANTED)
            late = took - LIMIT * 1000000LL;
        else if (fault != 0)
            fprintf(stderr, "time_outs_berkeley: %s\n", db_strerror(fault));
        atomic_store(&is_back, 1);
    } else {
        if (number == 1 && carried)
            usleep(1000u * (unsigned)(settling() + LATER));
        must(get(locker, number - 1, 0));
    }
    return NULL;
}

static void *detect(void *nothing)
{
    while (!atomic_load(&is_back)) {
        must(env->lock_detect(env, 0, DB_LOCK_EXPIRE, NULL));
        usleep(1000);
    }
    return nothing;
}

static void open_environment(void)
{
    must(db_env_create(&env, 0));
    must(env->set_lk_max_lockers(env, 2 * MOST));
    must(env->set_lk_max_locks(env, 1 << 17));
    must(env->set_lk_max_objects(env, 1 << 17));
    /* With several partitions a thread may find no free entry in its own one while others have some. */
    must(env->set_lk_partitions(env, 1));
    must(env->set_flags(env, DB_TIME_NOTGRANTED, 1));
    must(env->open(env, NULL, DB_CREATE | DB_INIT_LOCK | DB_PRIVATE | DB_THREAD, 0));
}

int main(int count, char **words)
{
    static pthread_t threads[MOST + 2];
    if (count != 3 || (last = atoi(words[1])) < 2 || last > MOST)
        return 2;
    carried = strcmp(words[2], "carried") == 0;
    open_environment();
    pthread_barrier_init(&gate, NULL, (unsigned)last + 1);
    pthread_attr_t small;
    pthread_attr_init(&small);
    pthread_attr_setstacksize(&small, STACK);
    for (int number = 0; number <= last; number++)
        must(pthread_create(&threads[number], &small, part, (void *)(size_t)number));
    must(pthread_create(&threads[last + 1], &small, detect, NULL));
    for (int number = 0; number <= last; number++)
        pthread_join(threads[number], NULL);
    return 0;
}
