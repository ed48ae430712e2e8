/* Two threads move money between two accounts, in opposite directions: one locks accounts/1 first, the other one accounts/2. If each has
 * its first account and asks for its second one, the service tells one of them of a deadlock; that one aborts and tries again.
 *
 * cc -std=c11 -O2 -pthread -o bank *.c && ./bank SOCKET */
#define _POSIX_C_SOURCE 200809L

#include "pashkure_remote.h"

#include <pthread.h>
#include <stdio.h>
#include <stdlib.h>
#include <time.h>

#define TRANSFERS 1000

struct account {
    const char *name;
    long balance; /* read and written only by who has locked the name */
};

/* What one thread does: this many transfers, of 1 each. */
struct worker {
    const char *path;
    struct account *from, *to;
    unsigned seed; /* of its pauses */
    pashkure_remote_result result;
    long deadlocks;
};

/* Locks both accounts and moves the money. Whatever is answered, the transaction has ended then. */
static pashkure_remote_result transfer(pashkure_remote_connection *connection, struct account *from, struct account *to)
{
    const char *const names[] = {from->name, to->name};
    pashkure_remote_transaction transaction;
    size_t place;
    pashkure_remote_result result = pashkure_remote_begin_with(connection, &transaction, names, 2, PASHKURE_REMOTE_FOREVER, &place);
    if (result != PASHKURE_REMOTE_OK) {
        pashkure_remote_abort(connection, transaction);
        return result;
    }
    from->balance -= 1;
    to->balance += 1;
    return pashkure_remote_commit(connection, transaction);
}

/* A pause of a random length, up to two milliseconds: without it the two may meet again and again. */
static void pause_randomly(unsigned *seed)
{
    struct timespec time = {0, 0};
    *seed = *seed * 1103515245u + 12345u;
    time.tv_nsec = (long)(*seed >> 16) % 2000 * 1000;
    nanosleep(&time, NULL);
}

static void *work(void *argument)
{
    struct worker *worker = argument;
    pashkure_remote_connection connection = PASHKURE_REMOTE_CLOSED;
    int left = TRANSFERS;
    worker->result = pashkure_remote_open(&connection, worker->path);
    while (worker->result == PASHKURE_REMOTE_OK && left > 0) {
        worker->result = transfer(&connection, worker->from, worker->to);
        if (worker->result == PASHKURE_REMOTE_OK) {
            left--;
        } else if (worker->result == PASHKURE_REMOTE_DEADLOCK) {
            worker->deadlocks++;
            worker->result = PASHKURE_REMOTE_OK;
            pause_randomly(&worker->seed);
        }
    }
    pashkure_remote_close(&connection);
    return NULL;
}

int main(int count, char *words[])
{
    struct account first = {"accounts/1", 1000}, second = {"accounts/2", 1000};
    struct worker there = {words[1], &first, &second, 1, PASHKURE_REMOTE_OK, 0};
    struct worker back = {words[1], &second, &first, 2, PASHKURE_REMOTE_OK, 0};
    pthread_t thread;
    if (count != 2) {
        fprintf(stderr, "usage: bank SOCKET\n");
        return 2;
    }
    if (pthread_create(&thread, NULL, work, &back) != 0)
        return 1;
    work(&there);
    pthread_join(thread, NULL);
    if (there.result != PASHKURE_REMOTE_OK || back.result != PASHKURE_REMOTE_OK) {
        fprintf(stderr, "bank: %s\n", pashkure_remote_message(there.result != PASHKURE_REMOTE_OK ? there.result : back.result));
        return 1;
    }
    printf("%d transfers; %ld deadlocks, each tried again\n", 2 * TRANSFERS, there.deadlocks + back.deadlocks);
    printf("%s has %ld, %s has %ld\n", first.name, first.balance, second.name, second.balance);
    return 0;
}
