/* Things one after another, each by a link in it. A thing is in a queue once. */
#ifndef PASHKURE_QUEUE_H
#define PASHKURE_QUEUE_H

#include <stdbool.h>
#include <stddef.h>

struct link {
    struct link *next;
    bool is_in; /* it is in a queue */
};

struct queue {
    struct link *first, *last;
};

/* The thing that has this link as its field. */
#define THING_OF(link, type, field) ((type *)((char *)(link)-offsetof(type, field)))

/* Adds a thing at the end, unless it is in a queue already. */
static inline void queue_add(struct queue *queue, struct link *link)
{
    if (link->is_in)
        return;
    *link = (struct link){.is_in = true};
    if (queue->first == NULL)
        queue->first = link;
    else
        queue->last->next = link;
    queue->last = link;
}

/* Takes the first thing out. Returns NULL if there is none. */
static inline struct link *queue_take(struct queue *queue)
{
    struct link *link = queue->first;
    if (link == NULL)
        return NULL;
    queue->first = link->next;
    link->is_in = false;
    return link;
}

#endif
