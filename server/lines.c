#define _GNU_SOURCE
#include "front.h"

#include <errno.h>
#include <string.h>
#include <sys/socket.h>

enum { SIZE = 4096 };

static const char malformed[] = "malformed";
static const char clients[] = "clients";
static const char holds[] = "holds", commit[] = "commit ", abort_[] = "abort ";

/* Says how many requests of a client may be in the program. */
static unsigned share_of(const struct client *client)
{
    return client->is_tried || client->number == 0 ? 1 : SHARE;
}

bool lines_may_take(const struct front *front, const struct client *client)
{
    bool is_open = client->file >= 0 && !client->is_over, is_answered = client->unanswered == 0;
    return is_open && (is_answered || !client->is_alone) && client->unanswered + turns_lines(front, client) <= share_of(client)
           && buffer_length(&client->out) <= UNREAD;
}

/* Passes on a line behind the number of its client. */
static void passes(struct front *front, struct client *client, const char *line, size_t length)
{
    struct buffer *waiting = &front->program.waiting;
    client->unanswered++;
    turns_passed(front, client);
    if (!buffer_add(waiting, client->head, client->head_length) || !buffer_add(waiting, line, length) || !buffer_add(waiting, "\n", 1))
        front->end = BY_MEMORY;
}

/* Says whether a line of an operator asks for the clients, which the front answers. */
static bool asks_for_clients(const char *line, size_t length)
{
    size_t wanted = strlen(clients);
    return length >= wanted && memcmp(line, clients, wanted) == 0 && (length == wanted || (length == wanted + 1 && line[wanted] == '\r'));
}

/* Finds the word of these that a line begins with. Returns NULL if there is none. */
static const char *word_of(const char *line, size_t length)
{
    static const char *const words[] = {holds, commit, abort_};
    const char *end = line + length;
    while (line < end && *line == ' ')
        line++;
    for (int which = 0; which < 3; which++)
        if ((size_t)(end - line) >= strlen(words[which]) && memcmp(line, words[which], strlen(words[which])) == 0)
            return words[which];
    return NULL;
}

/* Says whether a line waits until the client has no request in the program: one that asks for the names of a transaction, of which the reply may
   have a megabyte, or any line behind one, so that what a client does not read is little more than one such reply; and any line behind one that
   ends a transaction, since that may have to be passed on again. */
static bool has_to_wait(struct client *client, const char *line, size_t length)
{
    const char *word = word_of(line, length);
    if (client->unanswered > 0 && (word == holds || client->is_alone))
        return true;
    client->is_alone = word != NULL;
    client->ends = word == holds ? NULL : word;
    return false;
}

/* Passes on what a client sent as one line: unchanged, unless it is longer than a line may be. */
static void passes_line(struct front *front, struct client *client, const char *line, size_t length)
{
    size_t counted = length > 0 && line[length - 1] == '\r' ? length - 1 : length;
    bool is_long = client->skips || counted > LINE_BYTES;
    bool is_clients = client->number == 0 && !is_long && asks_for_clients(line, length);
    if (client->number == 0)
        admin_asks(front, client, is_clients);
    if (client->ends != NULL)
        queue_add(&front->ends, &client->end);
    if (is_clients)
        passes(front, client, "totals", strlen("totals")); /* its reply has the turn of this one */
    else
        passes(front, client, is_long ? malformed : line, is_long ? strlen(malformed) : length);
}

/* Tells the program that a client hung up. */
static void passes_hang_up(struct front *front, struct client *client)
{
    struct buffer *waiting = &front->program.waiting;
    client->is_hanging_up = true;
    turns_passed(front, client);
    if (!buffer_add(waiting, "- ", 2) || !buffer_add(waiting, client->head, client->head_length - 1) || !buffer_add(waiting, "\n", 1))
        front->end = BY_MEMORY;
}

/* Passes on again by what a client ends a transaction. The client has waited for its turn, as with a line that it sends. */
static void passes_again(struct front *front, struct client *client)
{
    if (client->number == 0)
        admin_asks(front, client, false);
    queue_add(&front->ends, &client->end);
    passes(front, client, client->again, client->again_length);
    client->again_length = 0;
    client->is_stalled = client->file >= 0 && !client->is_over;
    watch_reads(front, client, false);
}

bool lines_answered(struct front *front, struct client *client)
{
    client->unanswered--;
    turns_answered(front, client, false);
    return client->unanswered > 0 || !client->end.is_in || queue_take(&front->ends) == &client->end;
}

bool lines_again(struct front *front, const char *key, const char *key_end)
{
    size_t length = (size_t)(key_end - key);
    if (front->ends.first == NULL)
        return false;
    struct client *client = THING_OF(front->ends.first, struct client, end);
    size_t word = strlen(client->ends);
    if (client->unanswered != 1 || word + length > sizeof client->again || (client->number == 0 && !admin_asks_again(front, client)))
        return false;
    lines_answered(front, client);
    client_touch(front, client);
    if (client->is_leaving)
        return true; /* its hang-up ends what is left of the transaction */
    memcpy(client->again, client->ends, word);
    memcpy(client->again + word, key, length);
    client->again_length = (unsigned)(word + length);
    turns_add(front, client);
    return true;
}

bool lines_greet(struct front *front)
{
    front->turns.in_program++;
    front->askers[front->asker_count++] = (struct asker){.kind = GREETING};
    return buffer_add(&front->program.waiting, "0 totals\n", strlen("0 totals\n"));
}

/* Finds the end of the first line that a client sent. Of a line that is too long nothing is kept. */
static char *end_of_line(struct client *client)
{
    size_t length = buffer_length(&client->in);
    char *end = length == 0 ? NULL : memchr(buffer_bytes(&client->in), '\n', length);
    if (end != NULL)
        return end;
    if (length > LINE_BYTES + 1)
        client->skips = true;
    if (client->skips || length == 0)
        buffer_clear(&client->in);
    return NULL;
}

/* Reads once of a client that has no whole line left. */
static void receives(struct front *front, struct client *client)
{
    char bytes[SIZE];
    ssize_t count = recv(client->file, bytes, sizeof bytes, MSG_DONTWAIT);
    if (count > 0 && !buffer_add(&client->in, bytes, (size_t)count))
        client_cut(front, client);
    else if (count == 0)
        client_ends(front, client);
    else if (count < 0 && errno != EAGAIN && errno != EINTR)
        client_cut(front, client);
}

void lines_turn(struct front *front, struct client *client)
{
    if (client->is_leaving && !client->is_hanging_up)
        passes_hang_up(front, client);
    if (client->again_length > 0) {
        passes_again(front, client);
        return;
    }
    if (!lines_may_take(front, client)) {
        client->is_stalled = client->file >= 0 && !client->is_over;
        return;
    }
    char *end = end_of_line(client);
    if (end == NULL) {
        receives(front, client);
        if (client->file < 0 || client->is_over)
            return;
        end = end_of_line(client);
    }
    unsigned most = turns_lines(front, client);
    for (unsigned taken = 0; end != NULL && taken < most; taken++) {
        char *line = buffer_bytes(&client->in);
        if (has_to_wait(client, line, (size_t)(end - line))) {
            client->is_stalled = true;
            watch_reads(front, client, false);
            return;
        }
        passes_line(front, client, line, (size_t)(end - line));
        client->skips = false;
        buffer_drop(&client->in, (size_t)(end - line) + 1);
        end = end_of_line(client);
    }
    if (end != NULL)
        turns_add(front, client);
    else
        watch_reads(front, client, true);
}
