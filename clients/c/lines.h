/* The lines of a connection: how they are read and sent. Of the library alone.
 *
 * A fault closes the connection and stays in it: from then on nothing is sent, and each word that is read is empty. So a call may read its
 * whole reply, and look once at its end (remote_done). */
#ifndef PASHKURE_LINES_H
#define PASHKURE_LINES_H

#include "pashkure_remote.h"

typedef pashkure_remote_result result;
typedef pashkure_remote_connection connection;
typedef pashkure_remote_transaction transaction;

#define WORD_BYTES 32   /* any word of a reply that is no name */
#define LINE_BYTES 1048 /* the longest line that a service takes, without its newline */
#define FOREVER INT64_MAX
#define NOBODY ((transaction){0, 0, 0})

/* A line that is sent. */
struct line {
    size_t length;
    char bytes[LINE_BYTES + 1];
};

/* Closes the connection for this reason, which each later call returns. */
void remote_fail(connection *at, result fault);

/* What a call returns. */
result remote_done(const connection *at, result answer);

/* When this many milliseconds have passed at the least. */
int64_t remote_after(unsigned milliseconds);

/* When the service has to have answered once, by the time that it has for a reply. */
int64_t remote_reply_end(const connection *at);

/* Waits for the first byte of a line, of which the rest is due from then on. False if none came until then. */
bool remote_wait_for_line(connection *at, int64_t end);

/* Reads the next word of the line, which has to have room. At the end of the line it is empty, and the newline is left. */
void remote_read_any(connection *at, char *word, size_t room);

/* Reads the next word of the line, which has to have one. */
void remote_read_word(connection *at, char *word, size_t room);

/* Reads the end of the line, at which no word may be left. */
void remote_read_end(connection *at);

/* Reads the rest of the line, which may have words of a later version. */
void remote_read_rest(connection *at);

/* Takes a decimal number off the front of a text. False if there is none, or if it is greater than most. */
bool remote_take_number(const char **text, uint64_t most, uint64_t *number);
uint64_t remote_read_number(connection *at, uint64_t most);

/* The transaction of a key; nobody, and the connection is closed, if the word is no key. */
transaction remote_transaction_of(connection *at, const char *word);
transaction remote_read_key(connection *at);

/* Reads what a transaction waits for, and who owns that. */
void remote_read_wait(connection *at, char *name, transaction *holder);

/* Reads the rest of a line that tells of a deadlock: the cycle behind its first wait, of this transaction for this name. Each wait is told to what
 * pashkure_remote_on_deadlock was given. */
void remote_read_cycle(connection *at, transaction first, const char *name);

/* Reads the rest of a line whose first word is "*", which nobody asked for. OK or ABORTED, by which the wait of the transaction ended; or DEADLOCK,
 * which the operator is told. */
result remote_read_news(connection *at, transaction *told);

/* Whether these bytes may be a name. A space or a newline in one would make another request of it. */
bool remote_is_name(const char *name);

/* Puts a word behind those of a line. False if the line has no room for it. */
bool remote_add_word(struct line *line, const char *word);

/* Begins a line with a verb, and with a key unless the transaction is nobody. */
void remote_begin_line(struct line *line, const char *verb, transaction of);

/* Sends a line, whose reply is due from then on. To a service that has closed the connection nothing can be sent. What it said before that is still
 * read, and then the end. */
void remote_send_line(connection *at, struct line *line);

#endif
