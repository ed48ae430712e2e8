/* The C library, a behaviour of its header a test: `library NAME` runs one, `library` all. Linked with -Wl,--wrap=malloc,--wrap=free. */
#include "pashkure.h"

#include "check.h"

static unsigned long mallocs, bytes, frees, refused; /* `refused`: this request for memory is refused, counted from 1 */

void *__real_malloc(size_t size);
void __real_free(void *memory);
void *__wrap_malloc(size_t size);
void __wrap_free(void *memory);

void *__wrap_malloc(size_t size)
{
    mallocs++;
    bytes += size;
    return mallocs == refused ? NULL : __real_malloc(size);
}

void __wrap_free(void *memory)
{
    frees += memory != NULL;
    __real_free(memory);
}

static pashkure opened(uint32_t transactions, uint32_t names)
{
    pashkure locks = PASHKURE_CLOSED;
    pashkure_config config = PASHKURE_CONFIG;
    config.transactions = transactions;
    config.names = names;
    config.name_bytes = 8;
    GIVES(pashkure_open(&locks, &config), PASHKURE_OK);
    return locks;
}

static pashkure_key begun(pashkure *locks)
{
    pashkure_key key = {9, 0};
    GIVES(pashkure_begin(locks, &key), PASHKURE_OK);
    return key;
}

static pashkure_result locks_name(pashkure *locks, pashkure_key key, const char *name)
{
    return pashkure_lock(locks, key, name, strlen(name));
}

static int is_same(pashkure_key one, pashkure_key other)
{
    return one.slot == other.slot && one.generation == other.generation;
}

/* The name of a number, as text. */
static const char *named(const pashkure *locks, uint32_t number)
{
    static char text[9];
    pashkure_key owner;
    size_t length = 0;
    GIVES(pashkure_name(locks, number, text, 8, &length, &owner), PASHKURE_OK);
    text[length] = 0;
    return text;
}

/* The waits from a slot on, holder by holder, as "slot:name>", and what is in the slot to which they lead. */
static const char *walk(const pashkure *locks, uint32_t slot)
{
    static char text[200];
    char *end = text;
    pashkure_result does;
    for (pashkure_seen at; (does = pashkure_look(locks, slot, &at)) == PASHKURE_WAITS; slot = at.holder.slot)
        end += sprintf(end, "%u:%s>", (unsigned)at.key.slot, named(locks, at.number));
    sprintf(end, "%u is %d", (unsigned)slot, does);
    return text;
}

/* The cycle after DEADLOCK of a request for this name, by the lines of the header: "slot:name>" of each wait, and to whom the last one leads. */
static const char *cycle(const pashkure *locks, const char *name)
{
    static char text[200];
    char *end = text;
    pashkure_key at;
    pashkure_seen seen;
    if (pashkure_owner(locks, name, strlen(name), &at) == PASHKURE_OK)
        for (; pashkure_look(locks, at.slot, &seen) == PASHKURE_WAITS; at = seen.holder)
            end += sprintf(end, "%u:%s>", (unsigned)seen.key.slot, named(locks, seen.number));
    sprintf(end, "%u", (unsigned)at.slot);
    return text;
}

/* Whose waits the last call ended: "slot+number" of each. */
static const char *woken(const pashkure *locks)
{
    static char text[200];
    char *end = text;
    pashkure_wake wake;
    *end = 0;
    for (size_t i = 0; pashkure_woken(locks, i, &wake); i++)
        end += sprintf(end, "%u+%u ", (unsigned)wake.key.slot, (unsigned)wake.number);
    return text;
}

TEST(version)
{
    CHECK(pashkure_version() == PASHKURE_VERSION);
}

TEST(closed_manager)
{
    pashkure locks = PASHKURE_CLOSED, zero;
    pashkure_key key = {7, 7};
    pashkure_seen seen;
    pashkure_wake wake;
    pashkure_counts counts, none;
    size_t length = 5;
    memset(&zero, 0, sizeof zero);
    memset(&none, 0, sizeof none);
    memset(&counts, 1, sizeof counts);
    CHECK(memcmp(&zero, &locks, sizeof zero) == 0);
    GIVES(pashkure_begin(&locks, &key), PASHKURE_NOT_OPEN);
    GIVES(pashkure_lock(&locks, key, "a", 1), PASHKURE_NOT_OPEN);
    GIVES(pashkure_try_lock(&locks, key, "a", 1), PASHKURE_NOT_OPEN);
    GIVES(pashkure_unlock(&locks, key, "a", 1), PASHKURE_NOT_OPEN);
    GIVES(pashkure_commit(&locks, key), PASHKURE_NOT_OPEN);
    GIVES(pashkure_abort(&locks, key), PASHKURE_NOT_OPEN);
    GIVES(pashkure_cancel(&locks, key), PASHKURE_NOT_OPEN);
    GIVES(pashkure_look(&locks, 0, &seen), PASHKURE_NOT_OPEN);
    GIVES(pashkure_name(&locks, 0, NULL, 0, &length, &key), PASHKURE_NOT_OPEN);
    GIVES(pashkure_owner(&locks, "a", 1, &key), PASHKURE_NOT_OPEN);
    CHECK(!pashkure_woken(&locks, 0, &wake));
    pashkure_totals(&locks, &counts);
    CHECK(memcmp(&counts, &none, sizeof none) == 0);
    pashkure_close(&locks);
    CHECK(key.slot == 7 && key.generation == 7 && length == 5);
    CHECK(memcmp(&zero, &locks, sizeof zero) == 0);
    locks.state = 1;
    GIVES(pashkure_begin(&locks, &key), PASHKURE_NOT_OPEN);
}

TEST(refused_open)
{
    const uint32_t is = PASHKURE_VERSION;
    const struct {
        pashkure_config config;
        pashkure_result result;
    } rows[] = {
        {{is, 1, 1, 1, 0, 0, 0}, PASHKURE_OK},
        {{is, 65536, 65536, 1024, 0, 0, 0}, PASHKURE_OK},
        {{is + 1, 1, 1, 1, 0, 0, 0}, PASHKURE_OK},
        {{is + 1000, 1, 1, 1, 0, 0, 0}, PASHKURE_BAD_VERSION},
        {{is + 1000000, 1, 1, 1, 0, 0, 0}, PASHKURE_BAD_VERSION},
        {{is - 1, 0, 0, 0, 0, 0, 1}, PASHKURE_BAD_VERSION},
        {{is, 0, 0, 0, 0, 0, 1}, PASHKURE_BAD_TRANSACTIONS},
        {{is, 65537, 1, 1, 0, 0, 0}, PASHKURE_BAD_TRANSACTIONS},
        {{is, 1, 0, 0, 0, 0, 1}, PASHKURE_BAD_NAMES},
        {{is, 1, 65537, 1, 0, 0, 0}, PASHKURE_OK},
        {{is, 1, 16777217, 1, 0, 0, 0}, PASHKURE_BAD_NAMES},
        {{is, 1, 1, 0, 0, 0, 1}, PASHKURE_BAD_NAME_BYTES},
        {{is, 1, 1, 1025, 0, 0, 0}, PASHKURE_BAD_NAME_BYTES},
        {{is, 1, 1, 1, 0, 0, UINT32_MAX}, PASHKURE_OK},
        {{is, 1, 1, 1, 0, 1, 1}, PASHKURE_BAD_BUCKETS},
        {{0, 0, 0, 0, 0, 0, 0}, PASHKURE_BAD_VERSION},
    };
    pashkure locks = PASHKURE_CLOSED, was;
    pashkure_config config = PASHKURE_CONFIG, zero;
    pashkure_key key;
    memset(&zero, 0, sizeof zero);
    for (size_t i = 0; i < sizeof rows / sizeof *rows; i++) {
        GIVES(pashkure_open(&locks, &rows[i].config), rows[i].result);
        CHECK((rows[i].result == PASHKURE_OK) == (locks.manager != NULL) && (locks.manager != NULL || locks.state == 0));
        pashkure_close(&locks);
    }
    GIVES(pashkure_open(&locks, &config), PASHKURE_OK);
    key = begun(&locks);
    was = locks;
    GIVES(pashkure_open(&locks, &zero), PASHKURE_IN_USE);
    CHECK(memcmp(&was, &locks, sizeof was) == 0);
    GIVES(pashkure_commit(&locks, key), PASHKURE_OK);
    pashkure_close(&locks);
}

TEST(transactions)
{
    pashkure locks = opened(3, 1);
    pashkure_key keys[3], none = {7, 7}, next;
    int seen[3] = {0, 0, 0};
    for (int i = 0; i < 3; i++) {
        keys[i] = begun(&locks);
        CHECK(keys[i].slot < 3 && !seen[keys[i].slot]++ && keys[i].generation != 0);
    }
    GIVES(pashkure_begin(&locks, &none), PASHKURE_TRANSACTIONS_FULL);
    CHECK(none.slot == 7 && none.generation == 7);
    GIVES(pashkure_commit(&locks, keys[1]), PASHKURE_OK);
    GIVES(pashkure_commit(&locks, keys[1]), PASHKURE_NO_TRANSACTION);
    GIVES(pashkure_abort(&locks, keys[1]), PASHKURE_NO_TRANSACTION);
    next = begun(&locks);
    CHECK(next.slot == keys[1].slot && next.generation != keys[1].generation);
    GIVES(pashkure_lock(&locks, keys[1], "a", 1), PASHKURE_NO_TRANSACTION);
    pashkure_close(&locks);
}

TEST(requests)
{
    pashkure locks = opened(4, 4);
    pashkure_key a = begun(&locks), b = begun(&locks), owner = {7, 7};
    GIVES(pashkure_owner(&locks, "x", 1, &owner), PASHKURE_FREE);
    CHECK(owner.slot == 7);
    GIVES(locks_name(&locks, a, "x"), PASHKURE_OK);
    GIVES(locks_name(&locks, a, "x"), PASHKURE_HELD);
    GIVES(pashkure_try_lock(&locks, a, "x", 1), PASHKURE_HELD);
    GIVES(pashkure_try_lock(&locks, b, "x", 1), PASHKURE_BUSY);
    GIVES(pashkure_try_lock(&locks, b, "y", 1), PASHKURE_OK);
    GIVES(locks_name(&locks, b, "x"), PASHKURE_WAITS);
    GIVES(pashkure_owner(&locks, "x", 1, &owner), PASHKURE_OK);
    CHECK(is_same(owner, a) && PASHKURE_OWNS(PASHKURE_HELD) && !PASHKURE_OWNS(PASHKURE_WAITS) && PASHKURE_IS_REFUSAL(PASHKURE_REFUSED));
    GIVES(pashkure_unlock(&locks, a, "x", 1), PASHKURE_OK);
    CHECK(strcmp(woken(&locks), "1+0 ") == 0);
    CHECK(strcmp(woken(&locks), "1+0 ") == 0);
    GIVES(pashkure_owner(&locks, "x", 1, &owner), PASHKURE_OK);
    CHECK(is_same(owner, b));
    GIVES(pashkure_commit(&locks, a), PASHKURE_OK);
    CHECK(*woken(&locks) == 0);
    pashkure_close(&locks);
}

TEST(order_of_waiters)
{
    pashkure locks = opened(4, 4);
    pashkure_key t[4];
    pashkure_wake wake = {{7, 7}, 7};
    for (int i = 0; i < 4; i++)
        t[i] = begun(&locks);
    GIVES(locks_name(&locks, t[3], "x"), PASHKURE_OK);
    for (int i = 2; i >= 0; i--)
        GIVES(locks_name(&locks, t[i], "x"), PASHKURE_WAITS);
    for (int i = 3; i >= 1; i--) {
        GIVES(pashkure_commit(&locks, t[i]), PASHKURE_OK);
        CHECK(pashkure_woken(&locks, 0, &wake) && is_same(wake.key, t[i - 1]));
        CHECK(strcmp(named(&locks, wake.number), "x") == 0);
        CHECK(!pashkure_woken(&locks, 1, &wake) && !pashkure_woken(&locks, SIZE_MAX, &wake) && is_same(wake.key, t[i - 1]));
    }
    GIVES(pashkure_commit(&locks, t[3]), PASHKURE_NO_TRANSACTION);
    CHECK(*woken(&locks) == 0); /* what was told stays until the next call that is no reading one */
    pashkure_close(&locks);
}

TEST(deadlock_by_names)
{
    pashkure locks = opened(8, 8);
    pashkure_key t[4];
    pashkure_seen seen;
    const char *names[] = {"red", "green", "blue"};
    for (int i = 0; i < 4; i++)
        t[i] = begun(&locks);
    for (int i = 0; i < 3; i++)
        GIVES(locks_name(&locks, t[i], names[i]), PASHKURE_OK);
    GIVES(locks_name(&locks, t[3], "red"), PASHKURE_WAITS);
    GIVES(locks_name(&locks, t[0], "green"), PASHKURE_WAITS);
    GIVES(locks_name(&locks, t[1], "blue"), PASHKURE_WAITS);
    CHECK(strcmp(walk(&locks, 3), "3:red>0:green>1:blue>2 is 0") == 0); /* PASHKURE_OK: it works */
    CHECK(strcmp(walk(&locks, 7), "7 is 7") == 0);                      /* PASHKURE_FREE */
    CHECK(strcmp(walk(&locks, 4000000000u), "4000000000 is 7") == 0);
    GIVES(locks_name(&locks, t[2], "red"), PASHKURE_DEADLOCK);
    CHECK(*woken(&locks) == 0);
    CHECK(strcmp(cycle(&locks, "red"), "0:green>1:blue>2") == 0);
    GIVES(pashkure_look(&locks, 2, &seen), PASHKURE_OK);
    CHECK(is_same(seen.key, t[2]) && seen.holder.generation == 0 && seen.holder.slot == 0 && seen.number == 0);
    pashkure_close(&locks);
}

/* Who was told of a deadlock does not wait, keeps what it owns, and may make each call. The others wait on. */
TEST(after_a_deadlock)
{
    pashkure locks = opened(8, 8);
    pashkure_key a = begun(&locks), b = begun(&locks), owner;
    pashkure_counts counts;
    GIVES(locks_name(&locks, a, "x"), PASHKURE_OK);
    GIVES(locks_name(&locks, b, "y"), PASHKURE_OK);
    GIVES(locks_name(&locks, a, "y"), PASHKURE_WAITS);
    GIVES(locks_name(&locks, b, "x"), PASHKURE_DEADLOCK);
    GIVES(locks_name(&locks, b, "x"), PASHKURE_DEADLOCK); /* again, since it gave nothing back */
    GIVES(pashkure_cancel(&locks, b), PASHKURE_NOT_WAITING);
    GIVES(locks_name(&locks, b, "z"), PASHKURE_OK);
    GIVES(pashkure_try_lock(&locks, b, "x", 1), PASHKURE_BUSY);
    GIVES(pashkure_owner(&locks, "y", 1, &owner), PASHKURE_OK);
    CHECK(is_same(owner, b) && strcmp(walk(&locks, a.slot), "0:y>1 is 0") == 0);
    GIVES(pashkure_commit(&locks, b), PASHKURE_OK);
    CHECK(strcmp(woken(&locks), "0+1 ") == 0);
    pashkure_totals(&locks, &counts);
    CHECK(counts.deadlocks == 2 && counts.waits == 1 && counts.withdrawn == 0 && counts.committed == 1);
    pashkure_close(&locks);
}

/* One of the two gives back what it locked since its savepoint, and nothing else: both commit. */
TEST(savepoint)
{
    pashkure locks = opened(8, 8);
    pashkure_key a = begun(&locks), b = begun(&locks);
    pashkure_counts counts;
    GIVES(locks_name(&locks, a, "x"), PASHKURE_OK);
    GIVES(locks_name(&locks, b, "w"), PASHKURE_OK); /* before its savepoint */
    GIVES(locks_name(&locks, b, "y"), PASHKURE_OK);
    GIVES(locks_name(&locks, a, "y"), PASHKURE_WAITS);
    GIVES(locks_name(&locks, b, "x"), PASHKURE_DEADLOCK);
    GIVES(pashkure_unlock(&locks, b, "y", 1), PASHKURE_OK);
    CHECK(strcmp(woken(&locks), "0+2 ") == 0);
    GIVES(locks_name(&locks, b, "w"), PASHKURE_HELD);
    GIVES(locks_name(&locks, b, "x"), PASHKURE_WAITS);
    GIVES(pashkure_commit(&locks, a), PASHKURE_OK);
    CHECK(strcmp(woken(&locks), "1+0 ") == 0);
    GIVES(locks_name(&locks, b, "y"), PASHKURE_OK);
    GIVES(pashkure_commit(&locks, b), PASHKURE_OK);
    pashkure_totals(&locks, &counts);
    CHECK(counts.committed == 2 && counts.aborted == 0 && counts.deadlocks == 1);
    pashkure_close(&locks);
}

TEST(cancelled_wait)
{
    pashkure locks = opened(8, 8);
    pashkure_key a = begun(&locks), b = begun(&locks);
    pashkure_counts counts;
    GIVES(locks_name(&locks, a, "x"), PASHKURE_OK);
    GIVES(pashkure_cancel(&locks, a), PASHKURE_NOT_WAITING);
    GIVES(locks_name(&locks, b, "x"), PASHKURE_WAITS);
    GIVES(locks_name(&locks, b, "y"), PASHKURE_WAITING);
    GIVES(pashkure_unlock(&locks, b, "x", 1), PASHKURE_WAITING);
    GIVES(pashkure_commit(&locks, b), PASHKURE_WAITING);
    GIVES(pashkure_cancel(&locks, b), PASHKURE_OK);
    CHECK(*woken(&locks) == 0);
    GIVES(locks_name(&locks, b, "y"), PASHKURE_OK);
    GIVES(pashkure_commit(&locks, a), PASHKURE_OK);
    CHECK(*woken(&locks) == 0);
    GIVES(pashkure_commit(&locks, b), PASHKURE_OK);
    pashkure_totals(&locks, &counts);
    CHECK(counts.begun == 2 && counts.committed == 2 && counts.aborted == 0 && counts.deadlocks == 0);
    CHECK(counts.waits == 1 && counts.withdrawn == 1 && counts.events > 4 && counts.reserved == 0);
    pashkure_close(&locks);
}

/* The waits that lead to who was told of a deadlock are taken back at once, and those who wait there are aborted at once. */
TEST(ends_of_waiters)
{
    pashkure locks = opened(8, 8);
    pashkure_key a = begun(&locks), b = begun(&locks), c = begun(&locks), d = begun(&locks);
    pashkure_seen seen;
    GIVES(locks_name(&locks, a, "x"), PASHKURE_OK);
    GIVES(locks_name(&locks, b, "y"), PASHKURE_OK);
    GIVES(locks_name(&locks, c, "z"), PASHKURE_OK);
    GIVES(locks_name(&locks, d, "z"), PASHKURE_WAITS);
    GIVES(locks_name(&locks, c, "x"), PASHKURE_WAITS);
    GIVES(locks_name(&locks, a, "y"), PASHKURE_WAITS);
    GIVES(locks_name(&locks, b, "x"), PASHKURE_DEADLOCK);
    GIVES(pashkure_abort(&locks, c), PASHKURE_OK);
    CHECK(strcmp(woken(&locks), "3+2 ") == 0);
    GIVES(pashkure_look(&locks, c.slot, &seen), PASHKURE_FREE);
    GIVES(pashkure_cancel(&locks, a), PASHKURE_OK);
    CHECK(*woken(&locks) == 0);
    GIVES(pashkure_look(&locks, a.slot, &seen), PASHKURE_OK);
    GIVES(locks_name(&locks, b, "x"), PASHKURE_WAITS);
    pashkure_close(&locks);
}

TEST(names)
{
    pashkure locks = opened(2, 2);
    pashkure_key a = begun(&locks), owner = {7, 7};
    const unsigned char name[3] = {0, 255, 0};
    unsigned char room[8] = {1, 1, 1, 1, 1, 1, 1, 1};
    size_t length = 77;
    GIVES(pashkure_lock(&locks, a, NULL, 0), PASHKURE_NAME_EMPTY);
    GIVES(pashkure_lock(&locks, a, "123456789", 9), PASHKURE_NAME_TOO_LONG);
    GIVES(pashkure_unlock(&locks, a, "z", 1), PASHKURE_NOT_OWNER);
    GIVES(pashkure_name(&locks, 0, room, 8, &length, &owner), PASHKURE_FREE);
    CHECK(length == 77 && owner.slot == 7);
    GIVES(pashkure_lock(&locks, a, name, 3), PASHKURE_OK);
    GIVES(pashkure_name(&locks, 0, room, 2, &length, &owner), PASHKURE_OK);
    CHECK(length == 3 && room[0] == 1 && room[1] == 1 && is_same(owner, a));
    GIVES(pashkure_name(&locks, 0, room, 8, &length, &owner), PASHKURE_OK);
    CHECK(memcmp(room, name, 3) == 0 && room[3] == 1);
    GIVES(pashkure_name(&locks, 0, NULL, 0, &length, &owner), PASHKURE_OK);
    GIVES(pashkure_lock(&locks, a, name, 2), PASHKURE_OK);
    GIVES(pashkure_lock(&locks, a, name, 1), PASHKURE_NAMES_FULL);
    GIVES(pashkure_unlock(&locks, a, name, 2), PASHKURE_OK);
    GIVES(pashkure_try_lock(&locks, a, name, 1), PASHKURE_OK);
    GIVES(pashkure_name(&locks, 2, NULL, 0, &length, &owner), PASHKURE_FREE);
    pashkure_close(&locks);
}

/* One transaction owns all names that there can be, more than 65,536 of them. */
TEST(many_names)
{
    enum { MANY = 100000 };
    pashkure locks = opened(2, MANY);
    pashkure_key a = begun(&locks), b = begun(&locks), owner;
    pashkure_wake wake;
    for (uint32_t i = 0; i < MANY; i++)
        GIVES(pashkure_lock(&locks, a, &i, sizeof i), PASHKURE_OK);
    uint32_t last = MANY - 1, more = MANY;
    GIVES(pashkure_lock(&locks, a, &more, sizeof more), PASHKURE_NAMES_FULL);
    GIVES(pashkure_lock(&locks, b, &last, sizeof last), PASHKURE_WAITS);
    GIVES(pashkure_commit(&locks, a), PASHKURE_OK);
    CHECK(pashkure_woken(&locks, 0, &wake) && is_same(wake.key, b) && !pashkure_woken(&locks, 1, &wake));
    GIVES(pashkure_owner(&locks, &last, sizeof last, &owner), PASHKURE_OK);
    CHECK(is_same(owner, b));
    GIVES(pashkure_lock(&locks, b, &more, sizeof more), PASHKURE_OK);
    pashkure_close(&locks);
}

/* A transaction that owns as many names as one may is refused a further one, also one that another one owns. Its neighbour goes on. */
TEST(names_each)
{
    pashkure locks = PASHKURE_CLOSED;
    pashkure_config config = PASHKURE_CONFIG;
    pashkure_key a, b;
    config.names_each = 2;
    GIVES(pashkure_open(&locks, &config), PASHKURE_OK);
    a = begun(&locks), b = begun(&locks);
    GIVES(locks_name(&locks, b, "x"), PASHKURE_OK);
    GIVES(locks_name(&locks, a, "1"), PASHKURE_OK);
    GIVES(pashkure_try_lock(&locks, a, "2", 1), PASHKURE_OK);
    GIVES(locks_name(&locks, a, "3"), PASHKURE_TOO_MANY_NAMES);
    GIVES(pashkure_try_lock(&locks, a, "3", 1), PASHKURE_TOO_MANY_NAMES);
    GIVES(locks_name(&locks, a, "x"), PASHKURE_TOO_MANY_NAMES);
    GIVES(locks_name(&locks, a, ""), PASHKURE_NAME_EMPTY);
    GIVES(locks_name(&locks, a, "2"), PASHKURE_HELD);
    GIVES(locks_name(&locks, b, "3"), PASHKURE_OK);
    GIVES(pashkure_unlock(&locks, a, "1", 1), PASHKURE_OK);
    GIVES(locks_name(&locks, a, "x"), PASHKURE_WAITS);
    GIVES(pashkure_commit(&locks, b), PASHKURE_OK);
    GIVES(locks_name(&locks, a, "3"), PASHKURE_TOO_MANY_NAMES);
    pashkure_close(&locks);
}

TEST(moved_and_opened_again)
{
    pashkure locks = opened(2, 2), there = locks;
    pashkure_key a = begun(&there), again;
    GIVES(locks_name(&there, a, "x"), PASHKURE_OK);
    pashkure_close(&there);
    CHECK(there.manager == NULL && there.state == 0);
    pashkure_close(&there);
    there = opened(2, 2);
    again = begun(&there);
    GIVES(locks_name(&there, again, "x"), PASHKURE_OK);
    pashkure_close(&there);
}

/* Every request for memory is one of an open, each can be refused, and all is given back. */
TEST(memory)
{
    pashkure_config config = PASHKURE_CONFIG;
    pashkure locks = PASHKURE_CLOSED;
    unsigned long requests;
    mallocs = frees = 0;
    GIVES(pashkure_open(&locks, &config), PASHKURE_OK);
    requests = mallocs;
    CHECK(requests > 5);
    for (int i = 0; i < 1024; i++) {
        char name[9];
        pashkure_key key = begun(&locks);
        sprintf(name, "n%d", i % 700);
        (void)!locks_name(&locks, key, name);
        if (i % 5 == 0)
            (void)!pashkure_abort(&locks, key);
    }
    CHECK(mallocs == requests && frees == 0);
    pashkure_close(&locks);
    CHECK(mallocs == requests && frees == requests);
    for (unsigned long which = 1; which <= requests; which++) {
        mallocs = frees = 0;
        refused = which;
        GIVES(pashkure_open(&locks, &config), PASHKURE_NO_MEMORY);
        CHECK(locks.manager == NULL && locks.state == 0 && frees == which - 1 && mallocs == which);
        refused = 0;
    }
    GIVES(pashkure_open(&locks, &config), PASHKURE_OK);
    pashkure_close(&locks);
}

/* What an open takes is at most what the header says, and nearly that. */
TEST(bytes_of_an_open)
{
    static const uint32_t SIZES[][3] = {
        {1, 1, 1}, {1024, 4096, 64}, {65536, 65536, 64}, {1024, 65536, 64}, {65536, 4096, 8}, {64, 1024, 1024}, {64, 1000000, 16}};
    for (size_t i = 0; i < sizeof SIZES / sizeof *SIZES; i++) {
        pashkure locks = PASHKURE_CLOSED;
        pashkure_config config = PASHKURE_CONFIG;
        unsigned long most;
        config.transactions = SIZES[i][0];
        config.names = SIZES[i][1];
        config.name_bytes = SIZES[i][2];
        most = (config.name_bytes + 71ul) * config.names + 85ul * config.transactions + 1100;
        bytes = 0;
        GIVES(pashkure_open(&locks, &config), PASHKURE_OK);
        CHECK(bytes <= most && bytes >= most - most / 50 - 200);
        pashkure_close(&locks);
    }
}

TEST(messages)
{
    for (int result = 0; result < 96; result++)
        printf("%d %s\n", result, pashkure_message((pashkure_result)result));
}

static const struct test TESTS[] = {
    ROW(version),
    ROW(closed_manager),
    ROW(refused_open),
    ROW(transactions),
    ROW(requests),
    ROW(order_of_waiters),
    ROW(deadlock_by_names),
    ROW(after_a_deadlock),
    ROW(savepoint),
    ROW(cancelled_wait),
    ROW(ends_of_waiters),
    ROW(names),
    ROW(many_names),
    ROW(names_each),
    ROW(moved_and_opened_again),
    ROW(memory),
    ROW(bytes_of_an_open),
    ROW(messages),
};

int main(int count, char **words)
{
    (void)count;
    return tested(TESTS, sizeof TESTS / sizeof *TESTS, words);
}
