#define _GNU_SOURCE
#include "front.h"

#include <sys/epoll.h>

static unsigned long long word_of(enum source source, unsigned place)
{
    return (unsigned long long)source << 32 | place;
}

bool watch_file(struct front *front, int file, unsigned events, enum source source)
{
    struct epoll_event event = {.events = events, .data.u64 = word_of(source, 0)};
    return epoll_ctl(front->events, EPOLL_CTL_ADD, file, &event) == 0;
}

/* Looks for these events of a client from now on. One of which nothing is wanted is taken out, so that its hang-up is not told again and
   again. */
static void watch(struct front *front, struct client *client, unsigned wanted)
{
    unsigned place = client->number != 0 ? client->number : (unsigned)(client - front->admins);
    struct epoll_event event = {.events = wanted, .data.u64 = word_of(client->number != 0 ? OF_CLIENT : OF_ADMIN, place)};
    if (wanted == client->watched || client->file < 0)
        return;
    int what = wanted == 0 ? EPOLL_CTL_DEL : client->watched == 0 ? EPOLL_CTL_ADD : EPOLL_CTL_MOD;
    client->watched = wanted;
    if (epoll_ctl(front->events, what, client->file, &event) < 0)
        front->end = BY_MEMORY;
}

void watch_reads(struct front *front, struct client *client, bool is_wanted)
{
    watch(front, client, (client->watched & ~(unsigned)EPOLLIN) | (is_wanted ? EPOLLIN : 0));
}

void watch_writes(struct front *front, struct client *client, bool is_wanted)
{
    watch(front, client, (client->watched & ~(unsigned)EPOLLOUT) | (is_wanted ? EPOLLOUT : 0));
}

void watch_accepts(struct front *front, struct place *place, bool is_wanted)
{
    if (place->path == NULL || is_wanted == place->is_watched)
        return;
    place->is_watched = is_wanted;
    if (!is_wanted)
        epoll_ctl(front->events, EPOLL_CTL_DEL, place->socket, NULL);
    else if (!watch_file(front, place->socket, EPOLLIN, place == &front->place ? OF_PLACE : OF_ADMIN_PLACE))
        front->end = BY_MEMORY;
}
