/* bench/bulk, by Berkeley DB's lock manager: a locker a transaction, whose locks are put all at once. */
#include "bulk.h"
#include <db.h>

static DB_ENV *env;
static u_int32_t *lockers;

static void opens(void)
{
    must(db_env_create(&env, 0) == 0, "db_env_create");
    env->set_lk_max_lockers(env, transactions + 10);
    env->set_lk_max_locks(env, names + 1000);
    env->set_lk_max_objects(env, names + 1000);
    env->set_lk_partitions(env, 1);
    env->set_lk_tablesize(env, names);
    env->set_memory_max(env, names >> 22, (names << 10 & UINT32_MAX) + (64 << 20));
    must(env->open(env, NULL, DB_CREATE | DB_INIT_LOCK | DB_PRIVATE, 0) == 0, "DB_ENV->open");
    lockers = (u_int32_t *)malloc(transactions * sizeof *lockers);
}

static void begins(size_t transaction)
{
    must(env->lock_id(env, &lockers[transaction]) == 0, "DB_ENV->lock_id");
}

static void locks(size_t transaction, const char *name)
{
    DB_LOCK lock;
    DBT object = {0};
    object.data = (void *)name, object.size = length;
    must(env->lock_get(env, lockers[transaction], 0, &object, DB_LOCK_WRITE, &lock) == 0, "DB_ENV->lock_get");
}

static void commits(size_t transaction)
{
    DB_LOCKREQ all = {0};
    all.op = DB_LOCK_PUT_ALL;
    must(env->lock_vec(env, lockers[transaction], 0, &all, 1, NULL) == 0, "DB_ENV->lock_vec");
    must(env->lock_id_free(env, lockers[transaction]) == 0, "DB_ENV->lock_id_free");
}
