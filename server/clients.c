#define _GNU_SOURCE
#include "front.h"

#include "clock.h"
#include "log.h"

#include <errno.h>
#include <stdio.h>
#include <stdlib.h>
#include <string.h>
#include <sys/socket.h>
#include <unistd.h>

enum {
    RETRY = 100,  /* milliseconds until it accepts again if that failed */
    AT_ONCE = 64, /* clients that are taken in before others have their turn */
    ROUNDS = 4,   /* in which the end of one that is gone is read */
};

static const char full[] = "refused connections-full\n";

/* Gives a number that is free. */
static struct client *free_client(struct front *front)
{
    if (front->free_count == 0)
        return NULL;
    unsigned number = front->numbers[front->free_count - 1];
    if (front->clients[number] == NULL)
        front->clients[number] = calloc(1, sizeof **front->clients);
    if (front->clients[number] == NULL)
        return NULL;
    front->clients[number]->number = number;
    front->free_count--;
    return front->clients[number];
}

static struct client *free_admin(struct front *front)
{
    for (unsigned place = 0; place < ADMINS; place++)
        if (front->admins[place].file < 0 && front->admins[place].unanswered == 0 && front->admins[place].again_length == 0)
            return &front->admins[place];
    return NULL;
}

/* Makes a client of a connection. What queues it is in stays. */
static void takes_in(struct front *front, struct client *client, int file)
{
    struct ucred who = {0};
    socklen_t length = sizeof who;
    getsockopt(file, SOL_SOCKET, SO_PEERCRED, &who, &length);
    client->file = file;
    client->head_length = (unsigned)snprintf(client->head, sizeof client->head, "%u ", client->number);
    client->watched = 0;
    client->skips = client->is_over = client->is_leaving = client->is_stalled = client->is_alone = false;
    client->is_tried = true;
    client->tried_until = 0;
    client->process = who.pid;
    client->user = who.uid;
    client->since = clock_seconds();
    watch_reads(front, client, true);
}

/* Takes it that an accept failed. If that was not for want of a client or by a signal, it is tried again later, whatever others do. */
static void accept_failed(struct front *front, struct place *place, int error)
{
    if (error == EAGAIN || error == EINTR || error == ECONNABORTED)
        return;
    if (!place->has_failed)
        notes("no client can come to %s for now: %s", place->path, strerror(error));
    place->has_failed = true;
    place->retry_at = clock_milliseconds(CLOCK_MONOTONIC) + RETRY;
    watch_accepts(front, place, false);
}

/* Looks for clients, also if that failed before. */
static void accepts_again(struct front *front, struct place *place)
{
    place->retry_at = 0;
    watch_accepts(front, place, true);
}

void clients_retry(struct front *front)
{
    struct place *places[] = {&front->place, &front->admin_place};
    for (int which = 0; which < 2; which++)
        if (places[which]->retry_at != 0 && clock_milliseconds(CLOCK_MONOTONIC) >= places[which]->retry_at)
            accepts_again(front, places[which]);
}

int clients_patience(const struct front *front)
{
    return front->place.retry_at != 0 || front->admin_place.retry_at != 0 ? RETRY : -1;
}

/* Says whether a client for which there is no number waits: of some that are gone the end may not be read yet, or not be answered. */
static bool may_become_free(struct front *front)
{
    if (front->leaving == 0)
        return front->full_rounds++ < ROUNDS;
    watch_accepts(front, &front->place, false); /* until a number has come back */
    return true;
}

void clients_accept(struct front *front, bool is_admin)
{
    struct place *place = is_admin ? &front->admin_place : &front->place;
    for (int count = 0; count < AT_ONCE; count++) {
        if (!is_admin && front->free_count == 0 && may_become_free(front))
            return;
        int file = accept4(place->socket, NULL, NULL, SOCK_CLOEXEC | SOCK_NONBLOCK);
        if (file < 0) {
            accept_failed(front, place, errno);
            return;
        }
        place->has_failed = false;
        struct client *client = is_admin ? free_admin(front) : free_client(front);
        front->full_rounds = 0;
        if (client != NULL) {
            takes_in(front, client, file);
            continue;
        }
        if (send(file, full, strlen(full), MSG_NOSIGNAL | MSG_DONTWAIT) < 0)
            notes("a client was not told that there is no room for it");
        close(file);
    }
}

/* Lets the program be told that a client hung up, when the client has its turn: that may be a long line. */
static void hangs_up(struct front *front, struct client *client)
{
    client->is_over = true;
    client->skips = false;
    buffer_clear(&client->in);
    if (client->number == 0 || client->is_leaving)
        return;
    client->is_leaving = client->is_tried = true;
    client->again_length = 0; /* the hang-up ends what is left of the transaction */
    front->leaving++;
    turns_add(front, client);
}

/* Closes the socket of a client, and frees its number if nothing of it is left in the program. */
static void closes(struct front *front, struct client *client)
{
    if (client->file >= 0)
        close(client->file);
    client->file = -1;
    client->watched = 0;
    client_forget(front, client);
    if (client == front->last_asked)
        front->last_asked = NULL;
    if (client->number != 0 && !client->is_leaving)
        front->numbers[front->free_count++] = client->number;
    if (front->is_open) {
        accepts_again(front, &front->place);
        accepts_again(front, &front->admin_place);
    }
}

void client_closes_if_done(struct front *front, struct client *client)
{
    bool is_answered = client->number != 0 ? !client->is_leaving : client->unanswered == 0;
    if (client->file >= 0 && client->is_over && is_answered && buffer_length(&client->out) == 0)
        closes(front, client);
}

void client_ends(struct front *front, struct client *client)
{
    hangs_up(front, client);
    watch_reads(front, client, false);
    client_closes_if_done(front, client);
}

void client_cut(struct front *front, struct client *client)
{
    if (client->file < 0)
        return;
    if (!client->is_over)
        hangs_up(front, client);
    closes(front, client);
}

void client_came_back(struct front *front, struct client *client, bool has_more)
{
    turns_answered(front, client, true);
    client->is_hanging_up = false;
    if (has_more) {
        turns_add(front, client);
        return;
    }
    client->is_leaving = false;
    front->leaving--;
    if (client->file >= 0)
        client_touch(front, client); /* it is closed when it has read what it is owed */
    else
        closes(front, client);
}
