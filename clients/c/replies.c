#include "replies.h"

#include <string.h>

/* Each result: what it means, and the word of a refusal. */
static const struct {
    result result;
    const char *message, *refusal;
} RESULTS[] = {
    {PASHKURE_REMOTE_OK, "done", NULL},
    {PASHKURE_REMOTE_HELD, "the transaction owned the name before", NULL},
    {PASHKURE_REMOTE_WAITS, "the transaction waits for the name", NULL},
    {PASHKURE_REMOTE_DEADLOCK, "the request would have closed a cycle of waits, and was refused", NULL},
    {PASHKURE_REMOTE_BUSY, "another transaction owns the name", NULL},
    {PASHKURE_REMOTE_FREE, "nobody owns the name", NULL},
    {PASHKURE_REMOTE_ABORTED, "the transaction was aborted while it waited", NULL},
    {PASHKURE_REMOTE_TIMED_OUT, "the name was not granted in time", NULL},
    {PASHKURE_REMOTE_NO_TRANSACTION, "the transaction has ended, or was never begun", "no-transaction"},
    {PASHKURE_REMOTE_WAITING, "the transaction waits", "waiting"},
    {PASHKURE_REMOTE_NOT_WAITING, "the transaction does not wait", "not-waiting"},
    {PASHKURE_REMOTE_NAME_TOO_LONG, "the name is longer than the service was started for", "name-too-long"},
    {PASHKURE_REMOTE_NOT_OWNER, "the transaction does not own the name", "not-owner"},
    {PASHKURE_REMOTE_TRANSACTIONS_FULL, "there are as many transactions as there can be", "transactions-full"},
    {PASHKURE_REMOTE_NAMES_FULL, "as many names are owned as can be", "names-full"},
    {PASHKURE_REMOTE_TOO_MANY_NAMES, "the transaction owns as many names as one may (--names-each of the service)", "too-many-names"},
    {PASHKURE_REMOTE_LABELS_FULL, "the service can let nobody wait any more", "labels-full"},
    {PASHKURE_REMOTE_COUNTS_FULL, "the service has counted as many events as it can", "counts-full"},
    {PASHKURE_REMOTE_NOT_OPEN, "the connection is closed", NULL},
    {PASHKURE_REMOTE_IN_USE, "the connection is open", NULL},
    {PASHKURE_REMOTE_LOST, "the connection to the service was lost", NULL},
    {PASHKURE_REMOTE_PROTOCOL, "the service answered what this client does not understand", NULL},
    {PASHKURE_REMOTE_CANNOT_CONNECT, "no connection to the service could be made", NULL},
    {PASHKURE_REMOTE_BAD_NAME, "the name is empty, too long, or has a space or a control character", NULL},
    {PASHKURE_REMOTE_OPERATOR, "the request is for the operator's socket, or not for it", "operator"},
    {PASHKURE_REMOTE_NO_EPOCH, "the service has no epoch", "no-epoch"},
    {PASHKURE_REMOTE_CONNECTIONS_FULL, "the service has as many clients as it can", "connections-full"},
    {PASHKURE_REMOTE_OTHER_PROTOCOL, "the service is of another version than this client: restart the service first, from the client's version",
        NULL},
};
#define RESULT_COUNT (sizeof RESULTS / sizeof *RESULTS)

const char *pashkure_remote_message(result of)
{
    for (size_t place = 0; place < RESULT_COUNT; place++)
        if (RESULTS[place].result == of)
            return RESULTS[place].message;
    return "no result of this client";
}

void remote_request(connection *at, struct line *line, char *word)
{
    transaction told;
    remote_send_line(at, line);
    remote_read_word(at, word, WORD_BYTES);
    while (at->is_open && strcmp(word, "*") == 0) {
        remote_read_news(at, &told);
        remote_read_word(at, word, WORD_BYTES);
    }
}

/* Reads the end of a refusal, of which this is the last word. */
static result read_reason(connection *at, const char *word)
{
    size_t place = 0;
    while (place < RESULT_COUNT && (RESULTS[place].refusal == NULL || strcmp(RESULTS[place].refusal, word) != 0))
        place++;
    remote_read_end(at);
    if (place == RESULT_COUNT || RESULTS[place].result == PASHKURE_REMOTE_CONNECTIONS_FULL)
        remote_fail(at, place == RESULT_COUNT ? PASHKURE_REMOTE_PROTOCOL : PASHKURE_REMOTE_CONNECTIONS_FULL);
    return remote_done(at, place == RESULT_COUNT ? PASHKURE_REMOTE_PROTOCOL : RESULTS[place].result);
}

result remote_read_refusal(connection *at, char *word)
{
    if (strcmp(word, "refused") != 0)
        remote_fail(at, PASHKURE_REMOTE_PROTOCOL);
    remote_read_word(at, word, WORD_BYTES);
    return read_reason(at, word);
}

/* Sends a request of a transaction unless it is nobody, and of a name unless it is NULL, and reads the first word of its reply. */
static void request(connection *at, const char *verb, transaction of, const char *name, char *word)
{
    struct line line;
    remote_begin_line(&line, verb, of);
    if (name != NULL)
        remote_add_word(&line, name);
    remote_request(at, &line, word);
}

result remote_call(connection *at, const struct verb *verb, transaction of, const char *name, transaction *other)
{
    char word[WORD_BYTES];
    const struct answer *answer = verb->answers;
    request(at, verb->word, of, name, word);
    while (answer->word != NULL && strcmp(answer->word, word) != 0)
        answer++;
    if (answer->word == NULL)
        return remote_read_refusal(at, word);
    if (answer->rest == CYCLE) {
        remote_read_cycle(at, of, name);
        return remote_done(at, answer->answer);
    }
    if (answer->rest == KEY)
        *other = remote_read_key(at);
    remote_read_end(at);
    return remote_done(at, answer->answer);
}

result remote_read_reply(connection *at, const char *verb, transaction of, const char *name)
{
    char word[WORD_BYTES];
    request(at, verb, of, name, word);
    return strcmp(word, verb) == 0 ? remote_done(at, PASHKURE_REMOTE_OK) : remote_read_refusal(at, word);
}

result remote_end_reply(connection *at)
{
    remote_read_end(at);
    return remote_done(at, PASHKURE_REMOTE_OK);
}

bool remote_read_state(connection *at, char *word, bool may_grow, pashkure_remote_status *status)
{
    static const char *const words[] = {
        [PASHKURE_REMOTE_IS_ACTIVE] = "active", [PASHKURE_REMOTE_IS_WAITING] = "waiting", [PASHKURE_REMOTE_IS_ENDING] = "ending"};
    int mode = PASHKURE_REMOTE_IS_ACTIVE;
    while (mode <= PASHKURE_REMOTE_IS_ENDING && strcmp(word, words[mode]) != 0)
        mode++;
    *status = (pashkure_remote_status){.mode = PASHKURE_REMOTE_IS_ACTIVE};
    if (mode > PASHKURE_REMOTE_IS_ENDING)
        return false;
    status->mode = (pashkure_remote_mode)mode;
    if (status->mode == PASHKURE_REMOTE_IS_WAITING)
        remote_read_wait(at, status->name, &status->holder);
    (may_grow ? remote_read_rest : remote_read_end)(at);
    return true;
}

result remote_read_counts(connection *at, const char *verb, size_t count, pashkure_remote_counts *counts)
{
    uint64_t *const members[] = {&counts->begun, &counts->committed, &counts->aborted, &counts->deadlocks, &counts->waits, &counts->withdrawn,
        &counts->events, &counts->labels_left, &counts->counts_left};
    result told = remote_read_reply(at, verb, NOBODY, NULL);
    *counts = (pashkure_remote_counts){0};
    if (told != PASHKURE_REMOTE_OK)
        return told;
    for (size_t place = 0; place < count; place++)
        *members[place] = remote_read_number(at, UINT64_MAX);
    remote_read_rest(at);
    return remote_done(at, PASHKURE_REMOTE_OK);
}

transaction remote_read_item(connection *at)
{
    char word[WORD_BYTES];
    remote_read_word(at, word, sizeof word);
    if (strcmp(word, "*") != 0)
        remote_fail(at, PASHKURE_REMOTE_PROTOCOL);
    return remote_read_key(at);
}

uint64_t remote_read_length(connection *at, const char *verb, result *told)
{
    uint64_t length = 0;
    *told = remote_read_reply(at, verb, NOBODY, NULL);
    if (*told == PASHKURE_REMOTE_OK) {
        length = remote_read_number(at, UINT64_MAX);
        remote_read_end(at);
    }
    return length;
}

size_t remote_first_bad(const char *const *names, size_t count)
{
    size_t place = 0;
    while (place < count && remote_is_name(names[place]))
        place++;
    return place;
}

size_t remote_add_names(struct line *line, const struct names *names)
{
    size_t added = 0;
    while (names->place + added < names->count && remote_add_word(line, names->names[names->place + added]))
        added++;
    return added;
}

result remote_read_asked(connection *at, transaction of, char *word, size_t asked, bool has_place, struct names *names)
{
    uint64_t place = 0;
    const char *text = word;
    result answer = PASHKURE_REMOTE_PROTOCOL;
    if (strcmp(word, "granted") == 0 || (!has_place && strcmp(word, "held") == 0)) {
        names->place += asked;
        remote_read_end(at);
        return remote_done(at, PASHKURE_REMOTE_OK);
    }
    if (strcmp(word, "refused") == 0) {
        remote_read_word(at, word, WORD_BYTES);
        if (has_place && remote_take_number(&text, asked - 1, &place) && *text == '\0')
            remote_read_word(at, word, WORD_BYTES);
        answer = read_reason(at, word);
    } else if (strcmp(word, "waits") == 0) {
        answer = PASHKURE_REMOTE_WAITS;
        place = has_place ? remote_read_number(at, asked - 1) : 0;
        remote_read_key(at);
        remote_read_end(at);
    } else if (strcmp(word, "deadlock") == 0) {
        answer = PASHKURE_REMOTE_DEADLOCK;
        place = has_place ? remote_read_number(at, asked - 1) : 0;
        remote_read_cycle(at, of, names->names[names->place + place]);
    } else {
        remote_fail(at, PASHKURE_REMOTE_PROTOCOL);
    }
    names->place += (size_t)place;
    return remote_done(at, answer);
}

result remote_sendable(const connection *at, transaction of)
{
    return remote_done(at, of.opening == at->opening ? PASHKURE_REMOTE_OK : PASHKURE_REMOTE_NO_TRANSACTION);
}

result remote_next_news(connection *at, int64_t end, transaction *told)
{
    char word[WORD_BYTES];
    if (!remote_wait_for_line(at, end))
        return PASHKURE_REMOTE_TIMED_OUT;
    remote_read_word(at, word, sizeof word);
    if (strcmp(word, "*") != 0)
        remote_fail(at, PASHKURE_REMOTE_PROTOCOL);
    return remote_read_news(at, told);
}
