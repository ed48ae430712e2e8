/* service TEST SOCKET: what the client makes of a service that was just started with 64 transactions, 2048 names and names of 64 bytes. */
#define _POSIX_C_SOURCE 200809L

#include "check.h"

#include <errno.h>
#include <limits.h>
#include <pthread.h>
#include <stdlib.h>
#include <time.h>
#include <unistd.h>

typedef pashkure_remote_transaction key;

static const char *path;
static pashkure_remote_connection one, two;

static key begun(pashkure_remote_connection *connection)
{
    key transaction;
    GIVES(OK, pashkure_remote_begin(connection, &transaction));
    return transaction;
}

static void count_wait(void *context, const pashkure_remote_wait_for *wait)
{
    *(int *)context += wait->name[0] != '\0';
}

/* Connects the operator, whose socket is at the service's path and `.admin`. */
static void open_operator(pashkure_remote_connection *operator)
{
    char admin[PATH_MAX];
    memset(operator, 0, sizeof *operator);
    snprintf(admin, sizeof admin, "%s.admin", path);
    GIVES(OK, pashkure_remote_open(operator, admin));
}

/* Rests until this many transactions wait, however long that takes. */
static void until_waiting(int wanted)
{
    pashkure_remote_connection operator;
    int waiting = -1;
    open_operator(&operator);
    while (waiting != wanted && failed == 0) {
        waiting = 0;
        nanosleep(&(struct timespec){0, 2000000}, NULL);
        GIVES(OK, pashkure_remote_graph(&operator, count_wait, &waiting));
    }
    pashkure_remote_close(&operator);
}

/* A thread that asks for a name by a connection of its own. */
struct asker {
    pthread_t thread;
    pashkure_remote_connection connection;
    key transaction;
    const char *name;
    pashkure_remote_result result;
};

static void *ask(void *argument)
{
    struct asker *asker = argument;
    asker->result = pashkure_remote_lock(&asker->connection, asker->transaction, asker->name);
    return NULL;
}

static void start(struct asker *asker, const char *name)
{
    asker->name = name;
    memset(&asker->connection, 0, sizeof asker->connection);
    GIVES(OK, pashkure_remote_open(&asker->connection, path));
    asker->transaction = begun(&asker->connection);
    CHECK(pthread_create(&asker->thread, NULL, ask, asker) == 0);
}

static pashkure_remote_result joined(struct asker *asker)
{
    pthread_join(asker->thread, NULL);
    return asker->result;
}

static void test_two(void)
{
    key first = begun(&one), second = begun(&two);
    struct asker third;
    GIVES(NO_TRANSACTION, pashkure_remote_lock(&one, second, "a")); /* it is the other connection's */
    GIVES(NO_TRANSACTION, pashkure_remote_abort(&one, second));
    GIVES(OK, pashkure_remote_lock(&one, first, "a"));
    GIVES(OK, pashkure_remote_lock(&two, second, "b"));
    GIVES(BUSY, pashkure_remote_try_lock(&two, second, "a"));
    GIVES(TIMED_OUT, pashkure_remote_lock_for(&two, second, "a", 20));
    GIVES(HELD, pashkure_remote_lock(&two, second, "b"));
    start(&third, "a");
    until_waiting(1);
    GIVES(OK, pashkure_remote_commit(&one, first));
    GIVES(OK, joined(&third));
    GIVES(OK, pashkure_remote_commit(&two, second));
    pashkure_remote_close(&third.connection);
}

/* Who is told of a deadlock may go on, also with the name that it asked for, when it has given back what the others wait for. */
static void test_deadlock(void)
{
    key first = begun(&one), second = begun(&two);
    pashkure_remote_status status;
    int waits = 0;
    pashkure_remote_on_deadlock(&two, count_wait, &waits);
    GIVES(OK, pashkure_remote_lock(&one, first, "a"));
    GIVES(OK, pashkure_remote_lock(&two, second, "b"));
    GIVES(WAITS, pashkure_remote_ask(&one, first, "b"));
    GIVES(DEADLOCK, pashkure_remote_lock(&two, second, "a"));
    GIVES(DEADLOCK, pashkure_remote_lock_for(&two, second, "a", 1));
    CHECK(waits == 4);
    GIVES(OK, pashkure_remote_status_of(&two, second, &status));
    CHECK(status.mode == PASHKURE_REMOTE_IS_ACTIVE);
    GIVES(OK, pashkure_remote_lock(&two, second, "c"));
    GIVES(NOT_WAITING, pashkure_remote_cancel(&two, second));
    GIVES(WAITING, pashkure_remote_commit(&one, first));
    GIVES(OK, pashkure_remote_unlock(&two, second, "b"));
    GIVES(OK, pashkure_remote_wait(&one, first));
    GIVES(WAITS, pashkure_remote_ask(&two, second, "a"));
    GIVES(OK, pashkure_remote_commit(&one, first));
    GIVES(OK, pashkure_remote_wait(&two, second));
    GIVES(OK, pashkure_remote_commit(&two, second));
}

/* Several transactions of one connection: what one is granted while another one asks is not lost. */
static void test_one_connection(void)
{
    key first = begun(&one), second = begun(&one), third = begun(&one);
    GIVES(OK, pashkure_remote_lock(&one, first, "a"));
    GIVES(WAITS, pashkure_remote_ask(&one, second, "a"));
    GIVES(WAITS, pashkure_remote_ask(&one, third, "a"));
    GIVES(OK, pashkure_remote_commit(&one, first));
    GIVES(OK, pashkure_remote_wait(&one, second));
    GIVES(OK, pashkure_remote_cancel(&one, third));
    GIVES(WAITS, pashkure_remote_ask(&one, third, "a"));
    GIVES(OK, pashkure_remote_abort(&one, second));
    GIVES(OK, pashkure_remote_lock(&one, third, "b"));
    GIVES(OK, pashkure_remote_wait(&one, third));
    GIVES(OK, pashkure_remote_commit(&one, third));
}

/* Who hangs up gives back what it owned. */
static void test_hang_up(void)
{
    pashkure_remote_connection third = PASHKURE_REMOTE_CLOSED;
    key transaction;
    struct asker asker;
    GIVES(OK, pashkure_remote_open(&third, path));
    transaction = begun(&third);
    GIVES(OK, pashkure_remote_lock(&third, transaction, "a"));
    start(&asker, "a");
    until_waiting(1);
    pashkure_remote_close(&third);
    GIVES(OK, joined(&asker));
    GIVES(OK, pashkure_remote_commit(&asker.connection, asker.transaction));
    pashkure_remote_close(&asker.connection);
}

/* Counts names, which come in the order of their bytes. */
struct names {
    int count;
    char last[PASHKURE_REMOTE_NAME_BYTES + 1];
    bool is_ordered;
};

static void take_name(void *context, const char *name)
{
    struct names *names = context;
    names->is_ordered = names->is_ordered && strcmp(names->last, name) < 0;
    strcpy(names->last, name);
    names->count++;
}

static void test_limits(void)
{
    key transactions[64], more;
    struct names names = {0, "", true};
    pashkure_remote_connection operator;
    char name[PASHKURE_REMOTE_NAME_BYTES + 1];
    int place;
    for (place = 0; place < 64; place++)
        transactions[place] = begun(&one);
    GIVES(TRANSACTIONS_FULL, pashkure_remote_begin(&one, &more));
    for (place = 0; place < 2048; place++) {
        snprintf(name, sizeof name, "%048d/%015d", place, place * 7 % 2048);
        GIVES(OK, pashkure_remote_lock(&one, transactions[0], name));
    }
    GIVES(NAMES_FULL, pashkure_remote_lock(&one, transactions[1], "b"));
    GIVES(NAMES_FULL, pashkure_remote_try_lock(&one, transactions[1], "b"));
    GIVES(OK, pashkure_remote_holds(&one, transactions[0], take_name, &names));
    CHECK(names.count == 2048 && names.is_ordered);
    names = (struct names){0, "", true};
    open_operator(&operator);
    GIVES(OK, pashkure_remote_holds(&operator, (key){transactions[0].slot, transactions[0].generation, operator.opening}, take_name, &names));
    pashkure_remote_close(&operator);
    CHECK(names.count == 2048 && names.is_ordered);
    for (place = 0; place < 64; place++)
        GIVES(OK, pashkure_remote_commit(&one, transactions[place]));
    more = begun(&one);
    memset(name, 'n', sizeof name);
    name[65] = '\0';
    GIVES(NAME_TOO_LONG, pashkure_remote_lock(&one, more, name));
    name[64] = '\0';
    GIVES(OK, pashkure_remote_lock(&one, more, name));
    GIVES(OK, pashkure_remote_abort(&one, more));
}

/* Several names at once: what is owned by another one is waited for, then the rest is asked for. */
static void test_several(void)
{
    static const char *const names[] = {"a", "b", "a", "c"}, *const back[] = {"c", "a"};
    key first, second, owner;
    pashkure_remote_fence early, late;
    char texts[2][PASHKURE_REMOTE_FENCE_BYTES];
    int waits = 0;
    size_t place;
    GIVES(OK, pashkure_remote_begin_with(&one, &first, names, 2, PASHKURE_REMOTE_FOREVER, &place));
    GIVES(OK, pashkure_remote_fence_of(&one, first, "a", &early));
    GIVES(OK, pashkure_remote_begin_with(&two, &second, names + 3, 1, PASHKURE_REMOTE_FOREVER, &place));
    GIVES(TIMED_OUT, pashkure_remote_lock_all(&two, second, names, 2, 1, &place));
    CHECK(place == 0);
    GIVES(OK, pashkure_remote_lock_all(&one, first, names, 3, 0, &place));
    GIVES(WAITS, pashkure_remote_ask(&two, second, "b"));
    pashkure_remote_on_deadlock(&one, count_wait, &waits);
    GIVES(DEADLOCK, pashkure_remote_lock_all(&one, first, names, 4, PASHKURE_REMOTE_FOREVER, &place));
    CHECK(place == 3 && waits == 2);
    GIVES(OK, pashkure_remote_abort(&one, first));
    GIVES(OK, pashkure_remote_wait(&two, second));
    GIVES(OK, pashkure_remote_lock_all(&two, second, back, 2, 0, &place));
    GIVES(OK, pashkure_remote_fence_of(&two, second, "a", &late));
    GIVES(NOT_OWNER, pashkure_remote_fence_of(&two, second, "d", &early));
    pashkure_remote_fence_text(early, texts[0]);
    pashkure_remote_fence_text(late, texts[1]);
    CHECK(late.epoch > 0 && strcmp(texts[0], texts[1]) < 0);
    GIVES(OK, pashkure_remote_owner(&one, "c", &owner));
    CHECK(same(owner, second));
}

static void find_refused(void *context, const pashkure_remote_wait_for *wait)
{
    key *refused = context;
    if (refused->opening == 0)
        *refused = wait->waiter;
}

static void count_live(void *context, const pashkure_remote_live *live)
{
    *(int *)context += live->connection > 0 && live->status.mode == PASHKURE_REMOTE_IS_WAITING;
}

/* The operator is told of a deadlock, and ends it for a client that does not. */
static void test_operator(void)
{
    pashkure_remote_connection operator;
    pashkure_remote_counts counts;
    key first = begun(&one), second = begun(&two), refused = {0, 0, 0};
    int live = 0;
    open_operator(&operator);
    pashkure_remote_on_deadlock(&operator, find_refused, &refused);
    GIVES(TIMED_OUT, pashkure_remote_listen(&operator, 1));
    GIVES(OK, pashkure_remote_lock(&one, first, "a"));
    GIVES(OK, pashkure_remote_lock(&two, second, "b"));
    GIVES(WAITS, pashkure_remote_ask(&one, first, "b"));
    GIVES(DEADLOCK, pashkure_remote_lock(&two, second, "a"));
    GIVES(OK, pashkure_remote_listen(&operator, PASHKURE_REMOTE_FOREVER));
    CHECK(same(refused, second));
    GIVES(OK, pashkure_remote_list(&operator, count_live, &live));
    CHECK(live == 1);
    GIVES(OK, pashkure_remote_abort(&operator, refused));
    GIVES(OK, pashkure_remote_wait(&one, first));
    GIVES(NO_TRANSACTION, pashkure_remote_abort(&two, second));
    GIVES(OK, pashkure_remote_counts_of(&operator, & counts));
    CHECK(counts.begun == 2 && counts.aborted == 1 && counts.deadlocks == 1 && counts.waits == 1 && counts.labels_left > counts.events);
    GIVES(OPERATOR, pashkure_remote_begin(&operator, & refused));
    GIVES(OPERATOR, pashkure_remote_list(&one, count_live, &live));
    GIVES(OPERATOR, pashkure_remote_graph(&one, count_wait, &live));
    GIVES(OPERATOR, pashkure_remote_counts_of(&one, &counts));
    pashkure_remote_close(&operator);
}

/* Waits for a lock for ever, and is told when the service ends, which whoever reads its line ends. Whoever writes one has started it anew. */
static void test_killed(void)
{
    key first = begun(&one), second = begun(&one), again;
    GIVES(OK, pashkure_remote_lock(&one, first, "w"));
    GIVES(WAITS, pashkure_remote_ask(&one, second, "w"));
    puts("waits");
    fflush(stdout);
    GIVES(LOST, pashkure_remote_wait(&one, second));
    GIVES(LOST, pashkure_remote_lock(&one, first, "w"));
    while (getchar() != '\n' && !feof(stdin))
        continue;
    GIVES(OK, pashkure_remote_open(&one, path));
    GIVES(IN_USE, pashkure_remote_open(&one, path));
    again = begun(&one);
    CHECK(again.slot == first.slot && again.generation == first.generation && again.opening == 2);
    GIVES(NO_TRANSACTION, pashkure_remote_abort(&one, first));
    GIVES(OK, pashkure_remote_lock(&one, again, "w"));
}

/* The service was started for two clients. */
static void test_full(void)
{
    pashkure_remote_connection third = PASHKURE_REMOTE_CLOSED;
    key transaction;
    GIVES(CONNECTIONS_FULL, pashkure_remote_open(&third, path));
    GIVES(CONNECTIONS_FULL, pashkure_remote_begin(&third, &transaction));
}

/* A program that this one starts does not have the connection. */
static void test_started_program(void)
{
    char command[64];
    snprintf(command, sizeof command, "[ ! -e /proc/self/fd/%d ]", one.socket);
    CHECK(system(command) == 0);
}

static void test_paths(void)
{
    pashkure_remote_connection none = PASHKURE_REMOTE_CLOSED;
    char long_path[200];
    memset(long_path, 'p', sizeof long_path);
    long_path[sizeof long_path - 1] = '\0';
    GIVES(CANNOT_CONNECT, pashkure_remote_open(&none, ""));
    GIVES(CANNOT_CONNECT, pashkure_remote_open(&none, long_path));
    CHECK(errno == ENAMETOOLONG);
    GIVES(CANNOT_CONNECT, pashkure_remote_open(&none, "/nowhere/at/all"));
    CHECK(errno == ENOENT);
    GIVES(NOT_OPEN, pashkure_remote_totals(&none, &(pashkure_remote_counts){0}));
}

int main(int count, char *words[])
{
    static const struct test tests[] = {TEST(two), TEST(deadlock), TEST(one_connection), TEST(hang_up), TEST(limits), TEST(several), TEST(operator),
        TEST(killed), TEST(full), TEST(started_program), TEST(paths)};
    int status;
    path = count > 2 ? words[2] : "";
    GIVES(OK, pashkure_remote_open(&one, path));
    GIVES(OK, pashkure_remote_open(&two, path));
    status = tested(tests, sizeof tests / sizeof *tests, count > 1 ? words[1] : "");
    pashkure_remote_close(&one);
    pashkure_remote_close(&two);
    return status;
}
