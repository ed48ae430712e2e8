/* What crates/bench_locks does by `lock_all`, from C, over pashkure_threads.h. After a deadlock a thread yields its processor so often as chance
   says, as the header advises. */
#include "transfers_threads.h"

#include <pashkure_threads.h>
#include <sched.h>

enum { MOST_YIELDS = 512 };

static pashkure_locks *locks;

static void must(pashkure_result result)
{
    if (result != PASHKURE_OK) {
        fprintf(stderr, "transfers_c: %s\n", pashkure_message(result));
        exit(1);
    }
}

static void open_locks(void)
{
    pashkure_config config = PASHKURE_CONFIG;
    config.transactions = MAX_THREADS + 1;
    config.names = 65536;
    config.name_bytes = NAME_BYTES;
    config.seed = 7;
    must(pashkure_locks_open(&locks, &config));
}

static uint32_t open_session(void)
{
    return 0;
}
static void close_session(uint32_t session)
{
    (void)session;
}

/* A pause whose length differs from key to key. */
static void pause_after(pashkure_key key)
{
    uint64_t state = seeded((uint64_t)key.slot << 32 | key.generation);
    for (uint32_t yields = next_word(&state) % MOST_YIELDS; yields > 0; yields--)
        sched_yield();
}

static int transfer(uint32_t session, const uint32_t *chosen)
{
    pashkure_request requests[4];
    pashkure_key key;
    (void)session;
    for (int place = 0; place < 4; place++)
        requests[place] = (pashkure_request){names[chosen[place]], NAME_BYTES, PASHKURE_NOT_ASKED};
    must(pashkure_locks_begin(locks, &key));
    pashkure_result told = pashkure_locks_lock_all(locks, key, requests, 4, PASHKURE_FOREVER);
    if (told == PASHKURE_DEADLOCK) {
        must(pashkure_locks_abort(locks, key));
        pause_after(key);
        return 0;
    }
    must(told);
    must(pashkure_locks_commit(locks, key));
    return 1;
}
