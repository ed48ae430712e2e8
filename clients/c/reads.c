/* What is read of a service, and what only its operator may ask. */
#include "replies.h"

#include <inttypes.h>
#include <stdio.h>
#include <string.h>

#define PROTOCOL_NUMBER 2
#define PART_NAMES 1024 /* as many names a reply to `holds` has at most. If the transaction owns more, ".." stands behind them */

static const struct verb OWNER = {"owner", {{"owner", PASHKURE_REMOTE_OK, KEY}, {"free", PASHKURE_REMOTE_FREE, NO_MORE}}};

result pashkure_remote_owner(connection *at, const char *name, transaction *owner)
{
    *owner = NOBODY;
    return remote_is_name(name) ? remote_call(at, &OWNER, NOBODY, name, owner) : remote_done(at, PASHKURE_REMOTE_BAD_NAME);
}

result pashkure_remote_status_of(connection *at, transaction of, pashkure_remote_status *status)
{
    struct line line;
    char word[WORD_BYTES];
    result is_sent = remote_sendable(at, of);
    *status = (pashkure_remote_status){.mode = PASHKURE_REMOTE_IS_ACTIVE};
    if (is_sent != PASHKURE_REMOTE_OK)
        return is_sent;
    remote_begin_line(&line, "status", of);
    remote_request(at, &line, word);
    return remote_read_state(at, word, false, status) ? remote_done(at, PASHKURE_REMOTE_OK) : remote_read_refusal(at, word);
}

/* Reads the names of a reply to `holds`, of which the last one is left in `name`. Says whether the transaction owns more. */
static bool reads_part(connection *at, pashkure_remote_each_name *each, void *context, char *name)
{
    char word[PASHKURE_REMOTE_NAME_BYTES + 1];
    int count;
    remote_read_any(at, word, sizeof word);
    for (count = 0; count < PART_NAMES && word[0] != '\0' && at->is_open; count++) {
        each(context, strcpy(name, word));
        remote_read_any(at, word, sizeof word);
    }
    if (word[0] != '\0' && strcmp(word, "..") != 0)
        remote_fail(at, PASHKURE_REMOTE_PROTOCOL);
    return word[0] != '\0';
}

result pashkure_remote_holds(connection *at, transaction of, pashkure_remote_each_name *each, void *context)
{
    char name[PASHKURE_REMOTE_NAME_BYTES + 1] = "";
    bool has_more = true;
    result told = remote_sendable(at, of);
    while (told == PASHKURE_REMOTE_OK && has_more) {
        told = remote_read_reply(at, "holds", of, name[0] == '\0' ? NULL : name);
        if (told != PASHKURE_REMOTE_OK)
            return told;
        has_more = reads_part(at, each, context, name);
        told = remote_end_reply(at);
    }
    return told;
}

result pashkure_remote_fence_of(connection *at, transaction of, const char *name, pashkure_remote_fence *fence)
{
    result told = remote_sendable(at, of);
    *fence = (pashkure_remote_fence){0, 0};
    if (told == PASHKURE_REMOTE_OK && !remote_is_name(name))
        return PASHKURE_REMOTE_BAD_NAME;
    if (told == PASHKURE_REMOTE_OK)
        told = remote_read_reply(at, "fence", of, name);
    if (told != PASHKURE_REMOTE_OK)
        return told;
    fence->epoch = remote_read_number(at, INT64_MAX);
    fence->events = remote_read_number(at, INT64_MAX);
    return remote_end_reply(at);
}

void pashkure_remote_fence_text(pashkure_remote_fence fence, char text[PASHKURE_REMOTE_FENCE_BYTES])
{
    snprintf(text, PASHKURE_REMOTE_FENCE_BYTES, "%019" PRIu64 ".%019" PRIu64, fence.epoch, fence.events);
}

result pashkure_remote_hello(connection *at, pashkure_remote_service *service)
{
    result told = remote_read_reply(at, "hello", NOBODY, NULL);
    *service = (pashkure_remote_service){0, 0, 0, 0};
    if (told != PASHKURE_REMOTE_OK)
        return told;
    if (remote_read_number(at, UINT64_MAX) != PROTOCOL_NUMBER)
        remote_fail(at, PASHKURE_REMOTE_OTHER_PROTOCOL);
    service->epoch = remote_read_number(at, INT64_MAX);
    service->transactions = remote_read_number(at, UINT64_MAX);
    service->names = remote_read_number(at, UINT64_MAX);
    service->name_bytes = remote_read_number(at, UINT64_MAX);
    remote_read_rest(at);
    return remote_done(at, PASHKURE_REMOTE_OK);
}

result pashkure_remote_totals(connection *at, pashkure_remote_counts *counts)
{
    return remote_read_counts(at, "totals", 4, counts);
}

/* ---- For the operator ---- */

result pashkure_remote_counts_of(connection *at, pashkure_remote_counts *counts)
{
    return remote_read_counts(at, "counts", 9, counts);
}

result pashkure_remote_list(connection *at, pashkure_remote_each_live *each, void *context)
{
    result told;
    uint64_t left = remote_read_length(at, "list", &told);
    for (; left > 0 && at->is_open; left--) {
        char word[WORD_BYTES];
        pashkure_remote_live live = {.transaction = remote_read_item(at)};
        live.connection = (uint32_t)remote_read_number(at, UINT32_MAX);
        remote_read_word(at, word, sizeof word);
        if (!remote_read_state(at, word, true, &live.status))
            remote_fail(at, PASHKURE_REMOTE_PROTOCOL);
        if (at->is_open)
            each(context, &live);
    }
    return remote_done(at, told);
}

result pashkure_remote_graph(connection *at, pashkure_remote_each_wait *each, void *context)
{
    result told;
    uint64_t left = remote_read_length(at, "graph", &told);
    for (; left > 0 && at->is_open; left--) {
        pashkure_remote_wait_for wait = {.waiter = remote_read_item(at)};
        remote_read_wait(at, wait.name, &wait.holder);
        remote_read_end(at);
        if (at->is_open)
            each(context, &wait);
    }
    return remote_done(at, told);
}

result pashkure_remote_listen(connection *at, unsigned milliseconds)
{
    int64_t end = remote_after(milliseconds);
    uint64_t before = at->deadlocks;
    while (at->is_open && at->deadlocks == before) {
        transaction told;
        pashkure_remote_service service;
        int64_t look_at = remote_reply_end(at);
        result news = remote_next_news(at, look_at < end ? look_at : end, &told);
        if (news == PASHKURE_REMOTE_TIMED_OUT && end <= look_at)
            return news;
        if (news == PASHKURE_REMOTE_TIMED_OUT)
            pashkure_remote_hello(at, &service);
    }
    return remote_done(at, PASHKURE_REMOTE_OK);
}
