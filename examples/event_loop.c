/* An event loop over epoll that locks names by pashkure_threads.h and never sleeps for one: an example to copy from.
 *
 * Eight tasks on one thread move money between accounts, and a second thread does so too, which sleeps when it waits. A task asks for a name; if
 * it has to wait, the wake call puts it into a list and writes to an eventfd, for which the loop waits with all else that it waits for.
 *
 *     ./mmdetect library DIR
 *     cc -std=c99 event_loop.c $(PKG_CONFIG_PATH=DIR/lib/pkgconfig pkg-config --cflags --libs pashkure) */
#define _POSIX_C_SOURCE 200809L
#include <pashkure_threads.h>
#include <pthread.h>
#include <stdio.h>
#include <stdlib.h>
#include <sys/epoll.h>
#include <sys/eventfd.h>
#include <unistd.h>

enum { ACCOUNTS = 4, TASKS = 8, TRANSFERS = 500 };

static pashkure_locks *locks;
static long accounts[ACCOUNTS]; /* only the transaction that owns the name of an account reads or writes it */

struct task {
    pashkure_key key;
    unsigned from, to;
    int owned, left;      /* names that it owns, and transfers that it has yet to make */
    pashkure_result news; /* how its wait ended */
    struct task *next;    /* in the list of those that have news */
};

/* Those that have news. The wake calls of other threads add to it. */
static struct {
    pthread_mutex_t mutex;
    struct task *first;
    int event;
} ready = {PTHREAD_MUTEX_INITIALIZER, NULL, -1};

static void must(bool is_so, const char *text)
{
    if (!is_so) {
        fprintf(stderr, "event_loop: %s\n", text);
        exit(1);
    }
}

static void must_be_ok(pashkure_result result)
{
    must(result == PASHKURE_OK, pashkure_message(result));
}

/* The name of an account. Any bytes would do. */
static size_t name_account(unsigned account, char name[16])
{
    return (size_t)snprintf(name, 16, "accounts/%u", account);
}

/* ---- Tasks ---- */

/* Passes on that the wait of a task is over. The thread that ended it makes this call. */
static void wake(void *context, pashkure_key key, pashkure_result result)
{
    struct task *task = context;
    const uint64_t one = 1;
    (void)key;
    pthread_mutex_lock(&ready.mutex);
    task->news = result;
    task->next = ready.first;
    ready.first = task;
    pthread_mutex_unlock(&ready.mutex);
    must(write(ready.event, &one, sizeof one) == sizeof one, "eventfd");
}

/* Asks for the next name of a task. After PASHKURE_WAITS `wake` is called once. */
static pashkure_result ask(struct task *task)
{
    char name[16];
    size_t length = name_account(task->owned == 0 ? task->from : task->to, name);
    return pashkure_locks_ask(locks, task->key, name, length, wake, task);
}

/* Begins the next transfer of a task. */
static pashkure_result start(struct task *task)
{
    task->owned = 0;
    must_be_ok(pashkure_locks_begin(locks, &task->key));
    return ask(task);
}

/* Goes on with a task after an answer, until it waits or has made all its transfers. */
static void go_on(struct task *task, pashkure_result told)
{
    while (told != PASHKURE_WAITS) {
        if (told == PASHKURE_DEADLOCK) { /* nothing was moved yet, so nothing is to be undone */
            must_be_ok(pashkure_locks_abort(locks, task->key));
            told = start(task);
            continue;
        }
        must_be_ok(told);
        if (++task->owned < 2) {
            told = ask(task);
            continue;
        }
        accounts[task->from]--;
        accounts[task->to]++;
        must_be_ok(pashkure_locks_commit(locks, task->key));
        if (--task->left == 0)
            return;
        told = start(task);
    }
}

/* Takes the list of those that have news. */
static struct task *take_ready(void)
{
    uint64_t count;
    struct task *first;
    must(read(ready.event, &count, sizeof count) == sizeof count, "eventfd");
    pthread_mutex_lock(&ready.mutex);
    first = ready.first;
    ready.first = NULL;
    pthread_mutex_unlock(&ready.mutex);
    return first;
}

/* ---- The other thread, which sleeps ---- */

static void *transfers(void *given)
{
    (void)given;
    for (int left = TRANSFERS; left > 0;) {
        char first[16], second[16];
        pashkure_request names[2] = {{first, name_account(1, first), PASHKURE_OK}, {second, name_account(0, second), PASHKURE_OK}};
        pashkure_key key;
        must_be_ok(pashkure_locks_begin(locks, &key));
        if (pashkure_locks_lock_all(locks, key, names, 2, PASHKURE_FOREVER) == PASHKURE_DEADLOCK) {
            must_be_ok(pashkure_locks_abort(locks, key));
            continue;
        }
        accounts[1]--;
        accounts[0]++;
        must_be_ok(pashkure_locks_commit(locks, key));
        left--;
    }
    return NULL;
}

/* ---- The loop ---- */

static bool is_done(const struct task *tasks)
{
    for (int i = 0; i < TASKS; i++)
        if (tasks[i].left > 0)
            return false;
    return true;
}

static void loop(struct task *tasks)
{
    struct epoll_event event = {.events = EPOLLIN};
    int all = epoll_create1(0);
    must(all >= 0 && epoll_ctl(all, EPOLL_CTL_ADD, ready.event, &event) == 0, "epoll");
    for (int i = 0; i < TASKS; i++) { /* 0 to 1, 1 to 0, 2 to 3, 3 to 2 */
        tasks[i] = (struct task){.from = (unsigned)i % ACCOUNTS, .to = (unsigned)(i * 3 + 1) % ACCOUNTS, .left = TRANSFERS};
        go_on(&tasks[i], start(&tasks[i]));
    }
    while (!is_done(tasks)) {
        if (epoll_wait(all, &event, 1, -1) < 1)
            continue; /* a signal */
        for (struct task *task = take_ready(), *next; task != NULL; task = next) {
            next = task->next; /* the task may be in the list again before go_on returns */
            go_on(task, task->news);
        }
    }
    close(all);
}

int main(void)
{
    pashkure_config config = PASHKURE_CONFIG;
    struct task tasks[TASKS];
    pthread_t thread;
    long sum = 0;
    must_be_ok(pashkure_locks_open(&locks, &config));
    ready.event = eventfd(0, 0);
    must(ready.event >= 0, "eventfd");
    must(pthread_create(&thread, NULL, transfers, NULL) == 0, "no thread");
    loop(tasks);
    pthread_join(thread, NULL);
    for (int i = 0; i < ACCOUNTS; i++)
        sum += accounts[i];
    printf("%d transfers, and all accounts together have %ld\n", (TASKS + 1) * TRANSFERS, sum);
    must_be_ok(pashkure_locks_close(locks));
    return 0;
}
