/* What crates/bench_locks does, by Berkeley DB's lock manager. Each thread has one locker; a conflict is looked through for deadlocks at once
   (set_lk_detect), and a transaction ends by one call that gives all back. */
#include "transfers_threads.h"

#include <db.h>

static DB_ENV *env;

static void must(int fault)
{
    if (fault != 0) {
        fprintf(stderr, "transfers_berkeley: %s\n", db_strerror(fault));
        exit(1);
    }
}

static void open_locks(void)
{
    must(db_env_create(&env, 0));
    must(env->set_lk_max_lockers(env, 2 * MAX_THREADS));
    must(env->set_lk_max_locks(env, 1 << 17));
    must(env->set_lk_max_objects(env, 1 << 17));
    must(env->set_lk_detect(env, DB_LOCK_DEFAULT));
    must(env->open(env, NULL, DB_CREATE | DB_INIT_LOCK | DB_PRIVATE | DB_THREAD, 0));
}

static uint32_t open_session(void)
{
    u_int32_t locker;
    must(env->lock_id(env, &locker));
    return locker;
}

static void close_session(uint32_t locker)
{
    must(env->lock_id_free(env, locker));
}

static void give_all_back(u_int32_t locker)
{
    DB_LOCKREQ all = {.op = DB_LOCK_PUT_ALL}, *failed;
    must(env->lock_vec(env, locker, 0, &all, 1, &failed));
}

static int transfer(uint32_t locker, const uint32_t *chosen)
{
    for (int place = 0; place < 4; place++) {
        DBT name = {.data = names[chosen[place]], .size = NAME_BYTES};
        DB_LOCK lock;
        int fault = env->lock_get(env, locker, 0, &name, DB_LOCK_WRITE, &lock);
        if (fault == DB_LOCK_DEADLOCK) {
            give_all_back(locker);
            return 0;
        }
        must(fault);
    }
    give_all_back(locker);
    return 1;
}
