/* Clients of a service at a Unix socket, which take turns on threads: each has a stack of its own, and goes on when its socket has something or its
 * pause is over. The threads wait in poll, as those of pgbench do: Linux wakes a thread that waits in recv when the server takes the request, and
 * then again when there is a reply. */
#ifndef SERVICE_CLIENTS_H
#define SERVICE_CLIENTS_H

#define _GNU_SOURCE
#include <poll.h>
#include <pthread.h>
#include <stdbool.h>
#include <stdint.h>
#include <stdio.h>
#include <stdlib.h>
#include <string.h>
#include <sys/socket.h>
#include <sys/un.h>
#include <time.h>
#include <ucontext.h>
#include <unistd.h>

enum { STACK = 65536 };

struct thread {
    pthread_t id;
    struct client *clients;
    int count;
    ucontext_t context;
};

struct client {
    struct thread *thread;
    ucontext_t context;
    bool is_done;
    double wakes; /* when its pause is over, 0 if it waits for its socket */
    const char *path;
    bool is_redis, is_any, is_joined, is_ahead;
    unsigned names;
    int socket, number;
    char input[65536];
    size_t start, end;
    uint64_t chance, done, vain;
    char kept[256]; /* the end of a transaction, which is sent with what comes next */
    int kept_length;
    char begun[32]; /* a transaction that was begun ahead */
    char replies[3][64];
    bool is_granted; /* the line that a wait has ended has come */
};

/* What a client does, until it is done. */
static void run(struct client *client);

static void must(bool is_so, const char *text)
{
    if (!is_so) {
        perror(text);
        exit(1);
    }
}

static double now(void)
{
    struct timespec time;
    clock_gettime(CLOCK_MONOTONIC, &time);
    return (double)time.tv_sec + (double)time.tv_nsec / 1e9;
}

static unsigned drawn(struct client *client, unsigned below)
{
    client->chance = client->chance * 6364136223846793005u + 1442695040888963407u;
    return (unsigned)((client->chance >> 33) % below);
}

/* Lets the other clients of the thread go on. */
static void leave(struct client *client)
{
    swapcontext(&client->context, &client->thread->context);
}

/* Lets a client go on until it leaves. */
static void enter(struct client *client)
{
    swapcontext(&client->thread->context, &client->context);
}

static void send_all(struct client *client, const char *text, size_t length)
{
    while (length > 0) {
        ssize_t count = send(client->socket, text, length, MSG_NOSIGNAL);
        must(count > 0, "send");
        text += count;
        length -= (size_t)count;
    }
}

/* Sends the text, after what was kept. */
static void send_text(struct client *client, const char *text, size_t length)
{
    char both[1024];
    int kept = client->kept_length;
    if (kept == 0) {
        send_all(client, text, length);
        return;
    }
    memcpy(both, client->kept, (size_t)kept);
    memcpy(both + kept, text, length);
    client->kept_length = 0;
    send_all(client, both, (size_t)kept + length);
}

/* The next line, without its end. It stays until the next call. */
static char *line_of(struct client *client)
{
    for (;;) {
        char *from = client->input + client->start, *end = memchr(from, '\n', client->end - client->start);
        if (end != NULL) {
            client->start = (size_t)(end - client->input) + 1;
            *end = '\0';
            return from;
        }
        memmove(client->input, from, client->end - client->start);
        client->end -= client->start;
        client->start = 0;
        leave(client);
        ssize_t count = recv(client->socket, client->input + client->end, sizeof client->input - 1 - client->end, 0);
        must(count > 0, "recv");
        client->end += (size_t)count;
    }
}

/* Pauses for so many microseconds at most, by chance. */
static void sleep_some(struct client *client, unsigned most)
{
    client->wakes = now() + drawn(client, most) / 1e6;
    leave(client);
    client->wakes = 0;
}

/* ---- threads ---- */

/* The first function on a client's stack. Its two words are the two halves of the client's address. */
static void live(unsigned low, unsigned high)
{
    struct client *client = (struct client *)((uintptr_t)high << 32 | low);
    run(client);
    client->is_done = true;
    leave(client);
}

static void begin(struct client *client)
{
    uintptr_t address = (uintptr_t)client;
    must(getcontext(&client->context) == 0, "getcontext");
    client->context.uc_stack.ss_sp = malloc(STACK);
    client->context.uc_stack.ss_size = STACK;
    must(client->context.uc_stack.ss_sp != NULL, "stack");
    makecontext(&client->context, (void (*)(void))live, 2, (unsigned)address, (unsigned)(address >> 32));
    enter(client);
}

/* Waits until a client may go on: its socket has something, or its pause is over. */
static void wait_for_any(const struct thread *thread, struct pollfd *files)
{
    double first = 0;
    for (int i = 0; i < thread->count; i++) {
        const struct client *client = &thread->clients[i];
        files[i] = (struct pollfd){.fd = client->is_done || client->wakes > 0 ? -1 : client->socket, .events = POLLIN};
        if (client->wakes > 0 && (first == 0 || client->wakes < first))
            first = client->wakes;
    }
    double left = first > 0 ? first - now() : 0;
    struct timespec rest = {0, left > 0 ? (long)(left * 1e9) : 0};
    must(ppoll(files, (nfds_t)thread->count, first > 0 ? &rest : NULL, NULL) >= 0, "ppoll");
}

static void *run_thread(void *given)
{
    struct thread *thread = given;
    struct pollfd *files = calloc((size_t)thread->count, sizeof *files);
    int living = thread->count;
    must(files != NULL, "files");
    for (int i = 0; i < thread->count; i++) {
        thread->clients[i].thread = thread;
        begin(&thread->clients[i]);
        living -= thread->clients[i].is_done;
    }
    while (living > 0) {
        wait_for_any(thread, files);
        for (int i = 0; i < thread->count; i++) {
            struct client *client = &thread->clients[i];
            if (client->is_done || (client->wakes > 0 ? now() < client->wakes : files[i].revents == 0))
                continue;
            enter(client);
            living -= client->is_done;
        }
    }
    free(files);
    return NULL;
}

/* Runs the clients on so many threads. */
static void run_all(struct client *clients, int count, int threads)
{
    struct thread *all = calloc((size_t)threads, sizeof *all);
    must(all != NULL, "threads");
    for (int i = 0; i < threads; i++) {
        int from = count * i / threads, to = count * (i + 1) / threads;
        all[i] = (struct thread){.clients = clients + from, .count = to - from};
        must(pthread_create(&all[i].id, NULL, run_thread, &all[i]) == 0, "thread");
    }
    for (int i = 0; i < threads; i++)
        pthread_join(all[i].id, NULL);
    free(all);
}

#endif
