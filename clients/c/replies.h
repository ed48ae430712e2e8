/* The replies to requests: their words, and the results that they are. Of the library alone. */
#ifndef PASHKURE_REPLIES_H
#define PASHKURE_REPLIES_H

#include "lines.h"

/* The first word of a reply, and what stands behind it. */
struct answer {
    const char *word;
    result answer;
    enum { NO_MORE, KEY, CYCLE } rest;
};

/* A request, and its replies that are no refusals. */
struct verb {
    const char *word;
    struct answer answers[5]; /* the last one has no word */
};

/* Names that are asked for, of which those before place are owned. */
struct names {
    const char *const *names;
    size_t count, place;
};

/* Sends a request, and reads the first word of its reply. News that come before it are dropped: pashkure_remote_wait asks the service. */
void remote_request(connection *at, struct line *line, char *word);

/* Reads the rest of a reply that has to be a refusal. */
result remote_read_refusal(connection *at, char *word);

/* Makes a request that has one of its verb's replies: of a transaction unless it is nobody, and of a name unless it is NULL. Gives the key of the
 * reply, if it has one. */
result remote_call(connection *at, const struct verb *verb, transaction of, const char *name, transaction *other);

/* Begins a call that reads: sends a verb, and a transaction unless it is nobody, and a name unless it is NULL. The reply has to begin with the verb;
 * otherwise it is refused. */
result remote_read_reply(connection *at, const char *verb, transaction of, const char *name);

/* Ends a call that reads. */
result remote_end_reply(connection *at);

/* Reads a state, of which this is the first word, and then the rest of the line, which may have words of a later version if it may grow. False if it
 * is none. */
bool remote_read_state(connection *at, char *word, bool may_grow, pashkure_remote_status *status);

/* Reads what was counted: this many numbers, in the order of the members. */
result remote_read_counts(connection *at, const char *verb, size_t count, pashkure_remote_counts *counts);

/* Reads the start of a line of a list, which has to be one. */
transaction remote_read_item(connection *at);

/* Begins a call that reads a list. Returns how many lines follow; none if it is refused. */
uint64_t remote_read_length(connection *at, const char *verb, result *told);

/* The place of the first name that can be none, or the count. */
size_t remote_first_bad(const char *const *names, size_t count);

/* Puts as many of the names behind a line as it has room for. Returns how many these are. */
size_t remote_add_names(struct line *line, const struct names *names);

/* Reads the answer to a request of a transaction for several names, of which this is the first word, and goes on to the name that it stopped at.
 * Before the rest a place stands: the number of such names from the first that was asked for; but not before a refusal that is about none of them. */
result remote_read_asked(connection *at, transaction of, char *word, size_t asked, bool has_place, struct names *names);

/* Why a request of a transaction is not sent: of one of another opening the service may know the key as another one's. Otherwise OK. */
result remote_sendable(const connection *at, transaction of);

/* Reads the next event: what it says, and of which transaction. Reads nothing if none comes in time. */
result remote_next_news(connection *at, int64_t end, transaction *told);

#endif
