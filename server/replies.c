#define _GNU_SOURCE
#include "front.h"

#include "log.h"

#include <errno.h>
#include <string.h>
#include <sys/socket.h>

static const char back[] = "- ", more[] = "* more ";

void client_touch(struct front *front, struct client *client)
{
    queue_add(&front->touched, &client->touched);
}

/* Gives a client bytes. Returns false if memory is refused, and then hangs it up. */
bool client_add(struct front *front, struct client *client, const char *line, size_t length)
{
    bool is_added = buffer_add(&client->out, line, length);
    if (is_added)
        front->unread_sum += length;
    else
        client_cut(front, client);
    if (buffer_length(&client->out) > UNREAD)
        queue_add(&front->large, &client->large);
    client_touch(front, client);
    return is_added;
}

void client_forget(struct front *front, struct client *client)
{
    front->unread_sum -= buffer_length(&client->out);
    buffer_clear(&client->out);
}

/* Finds the client that has most unread, of those with more than UNREAD bytes, and of no others, so that it looks at no more than the bound
   has such parts. One look hangs one client up; before the next the program has to write as much as that one had. */
static struct client *greatest(struct front *front)
{
    struct queue large = front->large;
    struct client *greatest = NULL;
    struct link *link;
    front->large = (struct queue){0};
    while ((link = queue_take(&large)) != NULL) {
        struct client *client = THING_OF(link, struct client, large);
        if (buffer_length(&client->out) <= UNREAD)
            continue;
        queue_add(&front->large, link);
        if (greatest == NULL || buffer_length(&client->out) > buffer_length(&greatest->out))
            greatest = client;
    }
    return greatest;
}

void replies_bound(struct front *front)
{
    struct client *client;
    while (front->unread_sum > front->options.unread_total && (client = greatest(front)) != NULL) {
        notes("client %u is hung up: it left %zu bytes unread, and all clients %llu", client->number, buffer_length(&client->out),
            (unsigned long long)front->unread_sum);
        client_cut(front, client);
    }
}

/* Reads the number at the front of a line, of so many digits at most, without zeros before it. Returns what stands behind it, or NULL. */
static const char *number_of(const char *line, const char *end, int digits, unsigned *number)
{
    const char *place = line;
    *number = 0;
    while (place < end && place < line + digits && *place >= '0' && *place <= '9')
        *number = *number * 10 + (unsigned)(*place++ - '0');
    return place == line || (*line == '0' && place > line + 1) ? NULL : place;
}

/* Finds the client of a number that is in use. */
static struct client *client_of(struct front *front, unsigned number)
{
    struct client *client = number >= 1 && number <= front->connections ? front->clients[number] : NULL;
    return client != NULL && (client->file >= 0 || client->is_leaving) ? client : NULL;
}

/* Gives a client a line without its number, and its newline. */
static bool gives(struct front *front, struct client *client, const char *line, size_t length)
{
    bool is_event = length >= 2 && line[0] == '*' && line[1] == ' ';
    if (!is_event && client->unanswered == 0)
        return false;
    if (!is_event && !lines_answered(front, client))
        return false;
    if (client->file >= 0)
        client_add(front, client, line, length);
    return true;
}

static bool begins_with(const char *line, const char *end, const char *word)
{
    return (size_t)(end - line) > strlen(word) && memcmp(line, word, strlen(word)) == 0;
}

/* Takes it that a part of a transaction has ended, if this is a key, of which the first number was read, and a newline. */
static bool takes_part(struct front *front, const char *key, const char *dot, const char *end)
{
    unsigned number;
    const char *key_end = number_of(dot + 1, end, 10, &number);
    return key_end != NULL && *key_end == '\n' && lines_again(front, key, key_end);
}

/* Takes a line of the program with its newline. Returns false if it is none that a lock service writes. */
static bool takes_line(struct front *front, const char *line, const char *end)
{
    unsigned number;
    bool is_back = begins_with(line, end, back), has_more = begins_with(line, end, more), is_hang_up = is_back || has_more;
    const char *first = line + (is_back ? strlen(back) : has_more ? strlen(more) : 0), *rest = number_of(first, end, 5, &number);
    if (rest != NULL && has_more && *rest == '.')
        return takes_part(front, first, rest, end);
    if (rest == NULL || *rest != (is_hang_up ? '\n' : ' '))
        return false;
    if (number == 0 && !is_hang_up)
        return admin_take(front, rest + 1, (size_t)(end - rest - 1));
    struct client *client = client_of(front, number);
    if (client == NULL || (is_hang_up && (!client->is_hanging_up || client->unanswered > 0)))
        return false;
    if (is_hang_up)
        client_came_back(front, client, has_more);
    return is_hang_up || gives(front, client, rest + 1, (size_t)(end - rest - 1));
}

bool replies_take(struct front *front, const char *bytes, size_t count)
{
    struct buffer *begun = &front->program.line;
    const char *end = bytes + count, *newline;
    while ((newline = memchr(bytes, '\n', (size_t)(end - bytes))) != NULL) {
        const char *line = bytes, *behind = newline + 1;
        bytes = behind;
        if (buffer_length(begun) > 0) {
            if (!buffer_add(begun, line, (size_t)(behind - line))) {
                front->end = BY_MEMORY;
                return true;
            }
            line = buffer_bytes(begun);
            behind = line + buffer_length(begun);
        }
        if (!takes_line(front, line, behind))
            return false;
        if (buffer_length(begun) > 0)
            buffer_clear(begun);
        if (front->end != GOES_ON)
            return true;
    }
    if (bytes < end && !buffer_add(begun, bytes, (size_t)(end - bytes)))
        front->end = BY_MEMORY;
    return true;
}

/* Sends once, unless the heartbeat is late. Returns false if the client is gone. */
static bool sends(struct front *front, struct client *client)
{
    if (heartbeat_is_late(&front->heartbeat)) {
        front->end = BY_HEARTBEAT;
        return true;
    }
    ssize_t count = send(client->file, buffer_bytes(&client->out), buffer_length(&client->out), MSG_NOSIGNAL | MSG_DONTWAIT);
    if (count < 0)
        return errno == EAGAIN || errno == EINTR;
    buffer_drop(&client->out, (size_t)count);
    front->unread_sum -= (size_t)count;
    return true;
}

void client_send(struct front *front, struct client *client)
{
    if (client->file >= 0 && buffer_length(&client->out) > 0 && !sends(front, client))
        client_cut(front, client);
    if (client->file < 0)
        return;
    size_t left = buffer_length(&client->out);
    if (client->number != 0 && left > front->unread) {
        notes("client %u is hung up: it left %zu bytes unread", client->number, left);
        client_cut(front, client);
        return;
    }
    if (left == 0)
        buffer_clear(&client->out);
    watch_writes(front, client, left > 0);
    if (client->is_stalled && lines_may_take(front, client)) {
        client->is_stalled = false;
        turns_add(front, client);
    }
    client_closes_if_done(front, client);
}
