#define _POSIX_C_SOURCE 200809L

#include "lines.h"

#include <errno.h>
#include <inttypes.h>
#include <poll.h>
#include <stdio.h>
#include <string.h>
#include <sys/socket.h>
#include <time.h>
#include <unistd.h>

#define REPLY_SLACK 1000 /* milliseconds after the time of a call in which a reply to it is still taken */

void remote_fail(connection *at, result fault)
{
    if (!at->is_open)
        return;
    close(at->socket);
    at->is_open = false;
    at->fault = fault;
    at->start = at->end = 0;
}

result remote_done(const connection *at, result answer)
{
    if (at->is_open)
        return answer;
    return at->fault == PASHKURE_REMOTE_OK ? PASHKURE_REMOTE_NOT_OPEN : at->fault;
}

/* A time, in milliseconds. */
static int64_t now(void)
{
    struct timespec time;
    clock_gettime(CLOCK_MONOTONIC, &time);
    return (int64_t)time.tv_sec * 1000 + time.tv_nsec / 1000000;
}

int64_t remote_after(unsigned milliseconds)
{
    return milliseconds == PASHKURE_REMOTE_FOREVER ? FOREVER : now() + milliseconds + 1;
}

int64_t remote_reply_end(const connection *at)
{
    unsigned given = at->reply_milliseconds;
    return remote_after(given == 0 ? PASHKURE_REMOTE_REPLY_MILLISECONDS : given);
}

/* When the line that is read from now on has to be there: in the time that the service has for a reply, or a second after the time of the call. */
static int64_t due_of(const connection *at)
{
    int64_t reply = remote_reply_end(at), slack = remote_after(REPLY_SLACK);
    if (at->call_end == 0 || at->call_end == FOREVER)
        return reply;
    if (at->call_end + REPLY_SLACK > slack)
        slack = at->call_end + REPLY_SLACK;
    return slack < reply ? slack : reply;
}

static int milliseconds_until(int64_t end)
{
    int64_t left;
    if (end == FOREVER)
        return -1;
    left = end - now();
    return left < 0 ? 0 : left > INT_MAX ? INT_MAX : (int)left;
}

/* Waits for a byte. False if none came until then. */
static bool wait_for_byte(connection *at, int64_t end)
{
    while (at->is_open && at->start == at->end) {
        struct pollfd ready = {at->socket, POLLIN, 0};
        int count = poll(&ready, 1, milliseconds_until(end));
        if (count > 0)
            return true;
        if (count < 0 && errno != EINTR)
            remote_fail(at, PASHKURE_REMOTE_LOST);
        else if (milliseconds_until(end) == 0)
            return false;
    }
    return true;
}

bool remote_wait_for_line(connection *at, int64_t end)
{
    bool has_come = wait_for_byte(at, end);
    at->due = due_of(at);
    return has_come;
}

/* The next byte of the line, which is left. If the connection is closed, that is the end of the line. It waits in poll: Linux wakes who waits in
 * recv when the server takes the request, and then again when there is a reply. */
static char next_byte(connection *at)
{
    ssize_t count;
    if (!wait_for_byte(at, at->due))
        remote_fail(at, PASHKURE_REMOTE_LOST);
    if (at->start == at->end && at->is_open) {
        do
            count = recv(at->socket, at->input, sizeof at->input, 0);
        while (count < 0 && errno == EINTR);
        at->start = 0;
        at->end = count < 0 ? 0 : (size_t)count;
        at->due = due_of(at);
        if (count <= 0)
            remote_fail(at, PASHKURE_REMOTE_LOST);
    }
    return at->is_open ? at->input[at->start] : '\n';
}

void remote_read_any(connection *at, char *word, size_t room)
{
    size_t length = 0;
    char byte = next_byte(at);
    while (byte != '\n' && (byte != ' ' || length == 0)) {
        if (byte != ' ' && length + 1 == room)
            remote_fail(at, PASHKURE_REMOTE_PROTOCOL);
        else if (byte != ' ')
            word[length++] = byte;
        if (at->is_open)
            at->start++;
        byte = next_byte(at);
    }
    word[length] = '\0';
}

void remote_read_word(connection *at, char *word, size_t room)
{
    remote_read_any(at, word, room);
    if (word[0] == '\0')
        remote_fail(at, PASHKURE_REMOTE_PROTOCOL);
}

void remote_read_end(connection *at)
{
    char word[2];
    remote_read_any(at, word, sizeof word);
    if (word[0] != '\0')
        remote_fail(at, PASHKURE_REMOTE_PROTOCOL);
    if (at->is_open)
        at->start++;
}

void remote_read_rest(connection *at)
{
    while (next_byte(at) != '\n')
        at->start++;
    if (at->is_open)
        at->start++;
}

bool remote_take_number(const char **text, uint64_t most, uint64_t *number)
{
    const char *first = *text;
    *number = 0;
    for (; **text >= '0' && **text <= '9'; ++*text) {
        uint64_t digit = (uint64_t)(**text - '0');
        if (digit > most || *number > (most - digit) / 10)
            return false;
        *number = *number * 10 + digit;
    }
    return *text > first;
}

uint64_t remote_read_number(connection *at, uint64_t most)
{
    char word[WORD_BYTES];
    const char *text = word;
    uint64_t number;
    remote_read_word(at, word, sizeof word);
    if (!remote_take_number(&text, most, &number) || *text != '\0')
        remote_fail(at, PASHKURE_REMOTE_PROTOCOL);
    return number;
}

transaction remote_transaction_of(connection *at, const char *word)
{
    uint64_t slot, generation;
    if (remote_take_number(&word, UINT32_MAX, &slot) && *word++ == '.' && remote_take_number(&word, UINT32_MAX, &generation) && *word == '\0'
        && at->is_open)
        return (transaction){(uint32_t)slot, (uint32_t)generation, at->opening};
    remote_fail(at, PASHKURE_REMOTE_PROTOCOL);
    return NOBODY;
}

transaction remote_read_key(connection *at)
{
    char word[WORD_BYTES];
    remote_read_word(at, word, sizeof word);
    return remote_transaction_of(at, word);
}

void remote_read_wait(connection *at, char *name, transaction *holder)
{
    remote_read_word(at, name, PASHKURE_REMOTE_NAME_BYTES + 1);
    *holder = remote_read_key(at);
}

/* Calls what the user gave for a wait of a deadlock. */
static void tell_wait(connection *at, const pashkure_remote_wait_for *wait)
{
    if (at->each != NULL && at->is_open)
        at->each(at->context, wait);
}

void remote_read_cycle(connection *at, transaction first, const char *name)
{
    pashkure_remote_wait_for wait = {.waiter = first, .holder = remote_read_key(at)};
    char word[WORD_BYTES];
    bool is_last = false;
    strcpy(wait.name, name);
    tell_wait(at, &wait);
    while (!is_last && at->is_open) {
        wait.waiter = wait.holder;
        remote_read_word(at, wait.name, sizeof wait.name);
        remote_read_any(at, word, sizeof word);
        is_last = word[0] == '\0' || strcmp(word, "..") == 0;
        wait.holder = word[0] == '\0' ? first : is_last ? NOBODY : remote_transaction_of(at, word);
        tell_wait(at, &wait);
    }
    remote_read_end(at);
}

result remote_read_news(connection *at, transaction *told)
{
    char word[WORD_BYTES], name[PASHKURE_REMOTE_NAME_BYTES + 1];
    bool is_grant;
    *told = NOBODY;
    remote_read_word(at, word, sizeof word);
    if (strcmp(word, "deadlock") == 0) {
        transaction first = remote_read_key(at);
        remote_read_word(at, name, sizeof name);
        remote_read_cycle(at, first, name);
        at->deadlocks++;
        return PASHKURE_REMOTE_DEADLOCK;
    }
    is_grant = strcmp(word, "granted") == 0;
    if (!is_grant && strcmp(word, "aborted") != 0)
        remote_fail(at, PASHKURE_REMOTE_PROTOCOL);
    *told = remote_read_key(at);
    if (is_grant)
        remote_read_word(at, name, sizeof name);
    remote_read_end(at);
    return is_grant ? PASHKURE_REMOTE_OK : PASHKURE_REMOTE_ABORTED;
}

bool remote_is_name(const char *name)
{
    size_t length = 0;
    for (; name[length] != '\0'; length++) {
        unsigned char byte = (unsigned char)name[length];
        if (length == PASHKURE_REMOTE_NAME_BYTES || byte <= ' ' || byte == 0x7f)
            return false;
    }
    return length > 0;
}

bool remote_add_word(struct line *line, const char *word)
{
    size_t length = strlen(word), space = line->length > 0;
    if (line->length + space + length > LINE_BYTES)
        return false;
    if (space)
        line->bytes[line->length++] = ' ';
    memcpy(line->bytes + line->length, word, length);
    line->length += length;
    return true;
}

void remote_begin_line(struct line *line, const char *verb, transaction of)
{
    char key[WORD_BYTES];
    line->length = 0;
    remote_add_word(line, verb);
    snprintf(key, sizeof key, "%" PRIu32 ".%" PRIu32, of.slot, of.generation);
    if (of.opening != 0)
        remote_add_word(line, key);
}

void remote_send_line(connection *at, struct line *line)
{
    size_t sent = 0;
    line->bytes[line->length++] = '\n';
    at->due = due_of(at);
    while (at->is_open && sent < line->length) {
        ssize_t count = send(at->socket, line->bytes + sent, line->length - sent, MSG_NOSIGNAL);
        if (count >= 0) {
            sent += (size_t)count;
        } else if (errno == EPIPE || errno == ECONNRESET) {
            shutdown(at->socket, SHUT_RD);
            sent = line->length;
        } else if (errno != EINTR) {
            remote_fail(at, PASHKURE_REMOTE_LOST);
        }
    }
}
