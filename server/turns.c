#define _GNU_SOURCE
#include "front.h"

#include "clock.h"

enum {
    LONG_WORK = 150,   /* microseconds of the program's work after which a line is a long one */
    SHORT_WORK = 10,   /* microseconds that a line beside a tried one is taken to need */
    LONG_FOR = 100000, /* microseconds of the program's work for which a client with a long line is tried */
};

/* Says how many lines a client may pass on in a turn. */
static unsigned most_lines(const struct front *front)
{
    return front->options.turn < SHARE ? (unsigned)front->options.turn : SHARE;
}

static bool has_room(const struct front *front)
{
    return front->turns.in_program + most_lines(front) <= PROGRAM_LINES;
}

void turns_begin(struct front *front)
{
    front->turns.in_program--;
    front->turns.work = program_work(&front->program);
}

/* Adds a client to those that it waits among. */
static void adds(struct turns *turns, struct client *client)
{
    bool is_late = turns->work < client->tried_until;
    queue_add(!client->is_tried ? &turns->ready : is_late ? &turns->late : &turns->tried, &client->turn);
}

void turns_add(struct front *front, struct client *client)
{
    adds(&front->turns, client);
}

static bool has_tried(const struct turns *turns)
{
    return turns->tried.first != NULL || turns->late.first != NULL;
}

/* Says whether a line may be tried: one at a time, and after a long one no other as long as that one took, if others have work meanwhile. */
static bool may_try(const struct turns *turns)
{
    if (!has_tried(turns) || turns->in_trial != NULL)
        return false;
    return !turns->is_shared || clock_microseconds(CLOCK_MONOTONIC) >= turns->rests_until;
}

/* Takes one that is tried: one that had a long line and one that had none in turn, so that those who come do not wait for all of the former. */
static struct client *takes_tried(struct turns *turns)
{
    bool is_late = turns->tried.first == NULL || (turns->is_late_next && turns->late.first != NULL);
    turns->is_late_next = !is_late;
    return THING_OF(queue_take(is_late ? &turns->late : &turns->tried), struct client, turn);
}

/* Takes the client that waited longest, of those that are tried if one may be. */
static struct client *takes_next(struct turns *turns)
{
    struct link *link;
    while (!may_try(turns) && (link = queue_take(&turns->ready)) != NULL) {
        struct client *client = THING_OF(link, struct client, turn);
        if (!client->is_tried)
            return client;
        adds(turns, client);
    }
    return may_try(turns) ? takes_tried(turns) : NULL;
}

unsigned turns_lines(const struct front *front, const struct client *client)
{
    return client->is_tried || client->number == 0 ? 1 : most_lines(front);
}

void turns_take(struct front *front)
{
    struct client *client;
    while (front->end == GOES_ON && has_room(front) && (client = takes_next(&front->turns)) != NULL)
        lines_turn(front, client);
}

int turns_patience(const struct front *front)
{
    const struct turns *turns = &front->turns;
    if (!has_room(front))
        return -1;
    if (turns->ready.first != NULL || may_try(turns))
        return 0;
    if (!has_tried(turns) || turns->in_trial != NULL)
        return -1;
    return (int)((turns->rests_until - clock_microseconds(CLOCK_MONOTONIC)) / 1000) + 1;
}

void turns_passed(struct front *front, struct client *client)
{
    front->turns.in_program++;
    if (!client->is_tried)
        return;
    front->turns.in_trial = client;
    front->turns.is_shared = false;
}

void turns_answered(struct front *front, struct client *client, bool is_hang_up)
{
    struct turns *turns = &front->turns;
    turns->in_program--;
    turns->answered++;
    turns->last = client;
    client->is_answered = true;
    if (client == turns->in_trial && client->is_hanging_up == is_hang_up) {
        turns->in_trial = NULL;
        turns->judged = client;
    } else {
        turns->is_shared = true;
    }
}

/* Takes it that a line of a client took so long. A client that had a long line is tried for some time from then on. */
static void judges(struct turns *turns, struct client *client, int64_t took)
{
    if (took > LONG_WORK) {
        client->tried_until = turns->work + LONG_FOR;
        turns->rests_until = clock_microseconds(CLOCK_MONOTONIC) + took;
    }
    client->is_tried = client->is_over || turns->work < client->tried_until;
}

/* Tries each client that was answered, since one of them had a line that was long. */
static void suspects(struct front *front)
{
    for (struct link *link = front->touched.first; link != NULL; link = link->next) {
        struct client *client = THING_OF(link, struct client, touched);
        client->is_tried = client->is_tried || client->is_answered;
    }
}

void turns_heard(struct front *front)
{
    struct turns *turns = &front->turns;
    int64_t work = program_work(&front->program), took = work - turns->work;
    unsigned answered = turns->answered;
    if (answered == 0)
        return;
    struct client *judged = turns->judged == NULL && answered == 1 ? turns->last : turns->judged;
    turns->work = work;
    turns->answered = 0;
    if (judged != NULL)
        judges(turns, judged, took - (int64_t)SHORT_WORK * (answered - 1));
    else if (took / answered > LONG_WORK)
        suspects(front);
    turns->judged = NULL;
}
