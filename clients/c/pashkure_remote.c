#define _POSIX_C_SOURCE 200809L

#include "replies.h"

#include <errno.h>
#include <string.h>
#include <sys/socket.h>
#include <sys/un.h>
#include <unistd.h>

static const struct verb BEGIN = {"begin", {{"begun", PASHKURE_REMOTE_OK, KEY}}};
static const struct verb LOCK = {
    "lock",
    {{"granted", PASHKURE_REMOTE_OK, NO_MORE}, {"held", PASHKURE_REMOTE_HELD, NO_MORE}, {"waits", PASHKURE_REMOTE_WAITS, KEY},
        {"deadlock", PASHKURE_REMOTE_DEADLOCK, CYCLE}},
};
static const struct verb TRY = {
    "try", {{"granted", PASHKURE_REMOTE_OK, NO_MORE}, {"held", PASHKURE_REMOTE_HELD, NO_MORE}, {"busy", PASHKURE_REMOTE_BUSY, KEY}}};
static const struct verb UNLOCK = {"unlock", {{"unlocked", PASHKURE_REMOTE_OK, NO_MORE}}};
static const struct verb COMMIT = {"commit", {{"committed", PASHKURE_REMOTE_OK, NO_MORE}}};
static const struct verb ABORT = {"abort", {{"aborted", PASHKURE_REMOTE_OK, NO_MORE}}};
static const struct verb CANCEL = {"cancel", {{"cancelled", PASHKURE_REMOTE_OK, NO_MORE}}};

/* Makes a request of a transaction, for a name or without one. */
static result ask(connection *at, const struct verb *verb, transaction of, const char *name)
{
    transaction holder;
    result is_sent = remote_sendable(at, of);
    if (is_sent != PASHKURE_REMOTE_OK)
        return is_sent;
    return name == NULL || remote_is_name(name) ? remote_call(at, verb, of, name, &holder) : PASHKURE_REMOTE_BAD_NAME;
}

/* Asks the service what became of a wait: WAITING, also if the operator is aborting the transaction; OK, it was granted its name; or ABORTED. */
static result look(connection *at, transaction of)
{
    pashkure_remote_status status;
    result told = pashkure_remote_status_of(at, of, &status);
    if (told == PASHKURE_REMOTE_NO_TRANSACTION)
        return PASHKURE_REMOTE_ABORTED;
    return told == PASHKURE_REMOTE_OK && status.mode != PASHKURE_REMOTE_IS_ACTIVE ? PASHKURE_REMOTE_WAITING : told;
}

/* Waits for news of a transaction that waits: OK, it was granted its name; ABORTED; or TIMED_OUT. A service from which nothing comes has to answer now
 * and then, so that the wait ends if it hangs. */
static result await(connection *at, transaction of, int64_t end)
{
    result news = PASHKURE_REMOTE_WAITING;
    while (at->is_open && news == PASHKURE_REMOTE_WAITING) {
        transaction told = NOBODY;
        int64_t look_at = remote_reply_end(at);
        news = remote_next_news(at, look_at < end ? look_at : end, &told);
        if (news == PASHKURE_REMOTE_TIMED_OUT && end <= look_at)
            return news;
        if (news == PASHKURE_REMOTE_TIMED_OUT)
            news = look(at, of);
        else if (told.opening == 0 || told.slot != of.slot || told.generation != of.generation)
            news = PASHKURE_REMOTE_WAITING;
    }
    return remote_done(at, news);
}

/* Takes a wait back: TIMED_OUT. If it had ended before: OK, it was granted its name; or ABORTED. */
static result take_back(connection *at, transaction of)
{
    result told = pashkure_remote_cancel(at, of);
    switch (told) {
    case PASHKURE_REMOTE_OK: return PASHKURE_REMOTE_TIMED_OUT;
    case PASHKURE_REMOTE_NOT_WAITING: return PASHKURE_REMOTE_OK;
    case PASHKURE_REMOTE_NO_TRANSACTION: return PASHKURE_REMOTE_ABORTED;
    default: return told;
    }
}

/* Waits for a grant until then, and takes the wait back after that. */
static result await_or_take_back(connection *at, transaction of, int64_t end)
{
    result waited = await(at, of, end);
    return waited == PASHKURE_REMOTE_TIMED_OUT ? take_back(at, of) : waited;
}

/* ---- Opening and closing ---- */

void pashkure_remote_close(connection *at)
{
    remote_fail(at, PASHKURE_REMOTE_OK);
    at->fault = PASHKURE_REMOTE_OK;
}

void pashkure_remote_reply_within(connection *at, unsigned milliseconds)
{
    at->reply_milliseconds = milliseconds > 0 ? milliseconds : 1;
}

void pashkure_remote_on_deadlock(connection *at, pashkure_remote_each_wait *each, void *context)
{
    at->each = each;
    at->context = context;
}

/* Connects a socket. */
static bool connected(int socket, const struct sockaddr_un *address)
{
    int status;
    do
        status = connect(socket, (const struct sockaddr *)address, sizeof *address);
    while (status != 0 && errno == EINTR);
    return status == 0;
}

result pashkure_remote_open(connection *at, const char *path)
{
    struct sockaddr_un address = {.sun_family = AF_UNIX};
    pashkure_remote_service service;
    size_t length = strlen(path);
    int error;
    if (at->is_open)
        return PASHKURE_REMOTE_IN_USE;
    at->fault = PASHKURE_REMOTE_OK;
    errno = length == 0 ? ENOENT : ENAMETOOLONG;
    if (length == 0 || length >= sizeof address.sun_path)
        return PASHKURE_REMOTE_CANNOT_CONNECT;
    memcpy(address.sun_path, path, length);
    at->socket = socket(AF_UNIX, SOCK_STREAM | SOCK_CLOEXEC, 0); /* a program that this one starts does not keep the connection open */
    if (at->socket < 0)
        return PASHKURE_REMOTE_CANNOT_CONNECT;
    if (!connected(at->socket, &address)) {
        error = errno;
        close(at->socket);
        errno = error;
        return PASHKURE_REMOTE_CANNOT_CONNECT;
    }
    at->is_open = true;
    at->opening++;
    if (pashkure_remote_hello(at, &service) != PASHKURE_REMOTE_OK)
        remote_fail(at, PASHKURE_REMOTE_PROTOCOL);
    return remote_done(at, PASHKURE_REMOTE_OK);
}

/* ---- Transactions ---- */

result pashkure_remote_begin(connection *at, transaction *begun)
{
    *begun = NOBODY;
    return remote_call(at, &BEGIN, NOBODY, NULL, begun);
}

result pashkure_remote_ask(connection *at, transaction of, const char *name)
{
    return ask(at, &LOCK, of, name);
}

result pashkure_remote_lock_for(connection *at, transaction of, const char *name, unsigned milliseconds)
{
    int64_t end = at->call_end = remote_after(milliseconds);
    result asked = ask(at, &LOCK, of, name);
    if (asked == PASHKURE_REMOTE_WAITS)
        asked = await_or_take_back(at, of, end);
    at->call_end = 0;
    return asked;
}

result pashkure_remote_lock(connection *at, transaction of, const char *name)
{
    return pashkure_remote_lock_for(at, of, name, PASHKURE_REMOTE_FOREVER);
}

result pashkure_remote_try_lock(connection *at, transaction of, const char *name)
{
    return ask(at, &TRY, of, name);
}

result pashkure_remote_unlock(connection *at, transaction of, const char *name)
{
    return ask(at, &UNLOCK, of, name);
}

result pashkure_remote_commit(connection *at, transaction of)
{
    return ask(at, &COMMIT, of, NULL);
}

result pashkure_remote_abort(connection *at, transaction of)
{
    return ask(at, &ABORT, of, NULL);
}

result pashkure_remote_cancel(connection *at, transaction of)
{
    return ask(at, &CANCEL, of, NULL);
}

result pashkure_remote_wait(connection *at, transaction of)
{
    pashkure_remote_status status;
    result told = pashkure_remote_status_of(at, of, &status);
    return told == PASHKURE_REMOTE_OK && status.mode != PASHKURE_REMOTE_IS_ACTIVE ? await(at, of, FOREVER) : told;
}

/* ---- Several names ---- */

/* Waits for the name at the place if it has to, and asks for the rest, until the transaction owns all. */
static result lock_rest(connection *at, transaction of, struct names *names, result last, int64_t end)
{
    struct line line;
    char word[WORD_BYTES];
    while (last == PASHKURE_REMOTE_WAITS || (last == PASHKURE_REMOTE_OK && names->place < names->count)) {
        if (last == PASHKURE_REMOTE_WAITS) {
            last = await_or_take_back(at, of, end);
            names->place += last == PASHKURE_REMOTE_OK;
        } else {
            size_t asked;
            remote_begin_line(&line, LOCK.word, of);
            asked = remote_add_names(&line, names);
            remote_request(at, &line, word);
            last = remote_read_asked(at, of, word, asked, asked > 1, names);
        }
    }
    return last;
}

result pashkure_remote_lock_all(connection *at, transaction of, const char *const *names, size_t count, unsigned milliseconds, size_t *place)
{
    struct names wanted = {names, count, 0};
    int64_t end = at->call_end = remote_after(milliseconds);
    size_t bad = remote_first_bad(names, count);
    result last = remote_sendable(at, of);
    if (last == PASHKURE_REMOTE_OK && bad < count) {
        wanted.place = bad;
        last = PASHKURE_REMOTE_BAD_NAME;
    }
    last = lock_rest(at, of, &wanted, last, end);
    at->call_end = 0;
    *place = wanted.place;
    return last;
}

/* Begins a transaction with as many of the names as one line has. */
static result begin_some(connection *at, transaction *begun, struct names *names)
{
    struct line line;
    char word[WORD_BYTES];
    size_t asked;
    remote_begin_line(&line, BEGIN.word, NOBODY);
    asked = remote_add_names(&line, names);
    remote_request(at, &line, word);
    if (strcmp(word, "begun") != 0)
        return remote_read_refusal(at, word);
    *begun = remote_read_key(at);
    remote_read_any(at, word, sizeof word);
    if (word[0] != '\0' && asked > 0)
        return remote_read_asked(at, *begun, word, asked, true, names);
    names->place += asked;
    remote_read_end(at);
    return remote_done(at, PASHKURE_REMOTE_OK);
}

result pashkure_remote_begin_with(connection *at, transaction *begun, const char *const *names, size_t count, unsigned milliseconds, size_t *place)
{
    struct names wanted = {names, count, 0};
    int64_t end = remote_after(milliseconds);
    result last;
    *begun = NOBODY;
    *place = remote_first_bad(names, count);
    if (*place < count)
        return remote_done(at, PASHKURE_REMOTE_BAD_NAME);
    at->call_end = end;
    last = begin_some(at, begun, &wanted);
    last = lock_rest(at, *begun, &wanted, last, end);
    at->call_end = 0;
    *place = wanted.place;
    return last;
}
