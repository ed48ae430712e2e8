#define _GNU_SOURCE
#include "front.h"

#include "clock.h"
#include "log.h"

#include <stdio.h>
#include <string.h>

enum { RING = ADMINS + 1 };

void admin_asks(struct front *front, struct client *client, bool is_clients)
{
    unsigned place = (front->first_asker + front->asker_count++) % RING;
    front->askers[place] = (struct asker){.kind = is_clients ? CLIENTS : REQUEST, .place = (unsigned)(client - front->admins)};
}

/* Gives an operator a line. One that takes no more memory is hung up. */
static void gives(struct front *front, struct client *admin, const char *line, size_t length)
{
    if (admin == NULL || admin->file < 0)
        return;
    client_add(front, admin, line, length);
}

/* Gives an operator the list of the clients that are connected. */
static void gives_clients(struct front *front, struct client *admin)
{
    char line[96];
    unsigned count = 0;
    for (unsigned number = 1; number <= front->connections; number++)
        count += front->clients[number] != NULL && front->clients[number]->file >= 0;
    gives(front, admin, line, (size_t)snprintf(line, sizeof line, "clients %u\n", count));
    for (unsigned number = 1; number <= front->connections; number++) {
        const struct client *client = front->clients[number];
        if (client == NULL || client->file < 0)
            continue;
        int length = snprintf(line, sizeof line, "* %u %ld %lu %lld\n", number, (long)client->process, (unsigned long)client->user,
            (long long)(clock_seconds() - client->since));
        gives(front, admin, line, (size_t)length);
        if (admin->file < 0)
            return;
    }
}

/* Takes whose request is the oldest that has no reply. There has to be one. */
static struct asker takes_asker(struct front *front)
{
    struct asker asker = front->askers[front->first_asker];
    front->first_asker = (front->first_asker + 1) % RING;
    front->asker_count--;
    front->last_asked = NULL;
    return asker;
}

bool admin_asks_again(struct front *front, const struct client *client)
{
    if (front->asker_count == 0)
        return false;
    struct asker asker = takes_asker(front);
    return asker.kind == REQUEST && client == &front->admins[asker.place];
}

/* Takes a reply: it is whose request is the oldest that has none. */
static bool takes_reply(struct front *front, const char *line, size_t length)
{
    if (front->asker_count == 0)
        return false;
    struct asker asker = takes_asker(front);
    if (asker.kind == GREETING) {
        turns_begin(front);
        front->is_open = true;
        return length > 7 && memcmp(line, "totals ", 7) == 0;
    }
    struct client *admin = &front->admins[asker.place];
    if (!lines_answered(front, admin))
        return false;
    if (admin->file < 0)
        return true; /* it has left */
    front->last_asked = admin;
    if (asker.kind == CLIENTS)
        gives_clients(front, admin);
    else
        gives(front, admin, line, length);
    return true;
}

bool admin_take(struct front *front, const char *line, size_t length)
{
    static const char deadlock[] = "* deadlock ";
    size_t head = strlen(deadlock);
    if (length < 2 || memcmp(line, "* ", 2) != 0)
        return takes_reply(front, line, length);
    if (length < head || memcmp(line, deadlock, head) != 0) {
        gives(front, front->last_asked, line, length);
        return true;
    }
    notes_deadlock(line + head, length - head - 1);
    for (unsigned place = 0; place < ADMINS; place++)
        gives(front, &front->admins[place], line, length);
    return true;
}
