/* service_load WHAT PATH CLIENTS THREADS SECONDS KIND NAMES: clients of a service at a Unix socket, a connection each, for this many seconds.
 * service_load echo-server PATH: a server of one thread that sends back what it gets.
 *
 * WHAT is service (mmdetect serve), redis or echo; service-joined and redis-joined send the end of a transaction together with the begin of the
 * next one, and after a wait with the lock of the rest; service-ahead sends a whole transaction in one message, since it was begun ahead. KIND is
 * requests, which locks and unlocks a name of the client's own; ordered, transactions of four names out of NAMES in rising order; or any, the same
 * in any order. It prints how many requests, or transactions that committed, and how many deadlocks or tries in vain, there were a second. */
#include "service_clients.h"

#include <sys/epoll.h>

#define OWNED 4

/* How a transaction ended: IN_VAIN, it was told of a deadlock. */
enum ended { DONE, IN_VAIN, TOO_EARLY };

static double seconds_for;
static const char *what, *kind;

/* Four different numbers. */
static void draw(struct client *client, unsigned *names)
{
    for (int i = 0; i < OWNED; i++) {
        bool is_new;
        do {
            is_new = true;
            names[i] = drawn(client, client->names);
            for (int j = 0; j < i; j++)
                is_new = is_new && names[j] != names[i];
        } while (!is_new);
    }
    for (int i = 1; i < OWNED && !client->is_any; i++)
        for (int j = i; j > 0 && names[j - 1] > names[j]; j--) {
            unsigned other = names[j];
            names[j] = names[j - 1];
            names[j - 1] = other;
        }
}

/* ---- the service ---- */

/* Reads so many replies. The line that a wait has ended may stand between them. */
static void read_replies(struct client *client, int count)
{
    for (int i = 0; i < count;) {
        char *line = line_of(client);
        if (strncmp(line, "* granted ", 10) == 0)
            client->is_granted = true;
        else
            snprintf(client->replies[i++], sizeof client->replies[0], "%s", line);
    }
}

static void await_grant(struct client *client)
{
    if (!client->is_granted)
        must(strncmp(line_of(client), "* granted ", 10) == 0, "grant");
    client->is_granted = false;
}

/* Begins a transaction. Its names are asked for with the begin; or, if it was begun ahead, by a lock, with the commit and the begin of the next one
 * in the same message. Returns the reply to that. */
static const char *start(struct client *client, const unsigned *names, char *key)
{
    char text[256];
    int ended = client->kept_length > 0, length;
    if (client->is_ahead) {
        strcpy(key, client->begun);
        length = snprintf(text, sizeof text, "lock %s %u %u %u %u\ncommit %s\nbegin\n", key, names[0], names[1], names[2], names[3], key);
    } else {
        length = snprintf(text, sizeof text, "begin %u %u %u %u\n", names[0], names[1], names[2], names[3]);
    }
    send_text(client, text, (size_t)length);
    read_replies(client, ended);
    must(!ended || strcmp(client->replies[0], "committed") == 0, "commit");
    read_replies(client, client->is_ahead ? 3 : 1);
    if (client->is_ahead) {
        must(sscanf(client->replies[2], "begun %31s", client->begun) == 1, client->replies[2]);
        return client->replies[0];
    }
    must(sscanf(client->replies[0], "begun %31s", key) == 1, client->replies[0]);
    return client->replies[0][6 + strlen(key)] == ' ' ? client->replies[0] + 7 + strlen(key) : "granted";
}

/* Asks for the rest of the names, with the commit in the same message if the end is joined to what comes next. */
static const char *ask_rest(struct client *client, const unsigned *names, int next, const char *key)
{
    char text[256];
    int length = snprintf(text, sizeof text, "lock %s", key);
    for (int i = next; i < OWNED; i++)
        length += snprintf(text + length, sizeof text - (size_t)length, " %u", names[i]);
    length += snprintf(text + length, sizeof text - (size_t)length, "\n");
    if (client->is_joined)
        length += snprintf(text + length, sizeof text - (size_t)length, "commit %s\n", key);
    send_text(client, text, (size_t)length);
    read_replies(client, client->is_joined ? 2 : 1);
    return client->replies[0];
}

/* Commits a transaction that owns all of its names, or keeps the commit for the next message. */
static void commit(struct client *client, const char *key)
{
    char text[64];
    int length = snprintf(text, sizeof text, "commit %s\n", key);
    if (client->is_joined) {
        memcpy(client->kept, text, (size_t)length);
        client->kept_length = length;
        return;
    }
    send_text(client, text, (size_t)length);
    must(strcmp(line_of(client), "committed") == 0, "commit");
}

/* One transaction. A commit that was sent with a lock is refused if the lock waits; if the wait ended before the commit had its turn, the transaction
 * has ended without the rest of its names, and does not count. So has one whose lock was refused as a deadlock. */
static enum ended transaction(struct client *client, const unsigned *names)
{
    char key[32], text[64];
    const char *reply = start(client, names, key);
    bool has_commit = client->is_ahead;
    int next = 0, place = 0;
    while (strcmp(reply, "granted") != 0) {
        if (strncmp(reply, "deadlock ", 9) == 0 && has_commit) {
            must(strcmp(client->replies[1], "committed") == 0, client->replies[1]);
            return IN_VAIN;
        }
        if (strncmp(reply, "deadlock ", 9) == 0) {
            send_text(client, text, (size_t)snprintf(text, sizeof text, "abort %s\n", key));
            must(strcmp(line_of(client), "aborted") == 0, "abort");
            return IN_VAIN;
        }
        must(strncmp(reply, "waits ", 6) == 0, reply);
        must(next == OWNED - 1 || sscanf(reply, "waits %d ", &place) == 1, reply);
        next += next == OWNED - 1 ? 1 : place + 1;
        await_grant(client);
        if (has_commit && strcmp(client->replies[1], "committed") == 0)
            return TOO_EARLY;
        has_commit = client->is_joined && next < OWNED;
        if (next == OWNED)
            break;
        reply = ask_rest(client, names, next, key);
    }
    if (has_commit)
        must(strcmp(client->replies[1], "committed") == 0, client->replies[1]);
    else
        commit(client, key);
    return DONE;
}

/* ---- Redis: a script sets four keys that are not there, or none ---- */

static const char SCRIPT[] =
    "for i=1,4 do if redis.call('EXISTS',KEYS[i])==1 then return 0 end end for i=1,4 do redis.call('SET',KEYS[i],ARGV[1]) end return 1";
static char script_sum[64];

static void load_script(struct client *client)
{
    char text[512];
    send_text(client, text, (size_t)snprintf(text, sizeof text, "*3\r\n$6\r\nSCRIPT\r\n$4\r\nLOAD\r\n$%zu\r\n%s\r\n", strlen(SCRIPT), SCRIPT));
    line_of(client);
    must(sscanf(line_of(client), "%63s", script_sum) == 1, "script");
}

static int with_keys(char *text, size_t room, const unsigned *names)
{
    int length = 0;
    for (int i = 0; i < OWNED; i++) {
        char key[16];
        int size = snprintf(key, sizeof key, "%u", names[i]);
        length += snprintf(text + length, room - (size_t)length, "$%d\r\n%s\r\n", size, key);
    }
    return length;
}

static enum ended redis_transaction(struct client *client, const unsigned *names)
{
    char text[512];
    int length = snprintf(text, sizeof text, "*8\r\n$7\r\nEVALSHA\r\n$40\r\n%s\r\n$1\r\n4\r\n", script_sum);
    length += with_keys(text + length, sizeof text - (size_t)length, names);
    length += snprintf(text + length, sizeof text - (size_t)length, "$1\r\nx\r\n");
    for (;;) {
        bool ends_another = client->kept_length > 0;
        send_text(client, text, (size_t)length);
        if (ends_another)
            line_of(client);
        if (line_of(client)[1] == '1')
            break;
        client->vain++;
        sleep_some(client, 100);
    }
    length = snprintf(text, sizeof text, "*5\r\n$3\r\nDEL\r\n");
    length += with_keys(text + length, sizeof text - (size_t)length, names);
    if (client->is_joined) {
        memcpy(client->kept, text, (size_t)length);
        client->kept_length = length;
        return DONE;
    }
    send_text(client, text, (size_t)length);
    line_of(client);
    return DONE;
}

/* ---- clients ---- */

static void requests(struct client *client, double end)
{
    char key[32] = "", lock[64], unlock[64];
    bool is_echo = strcmp(what, "echo") == 0;
    if (!is_echo) {
        send_text(client, "begin\n", 6);
        must(sscanf(line_of(client), "begun %31s", key) == 1, "begin");
    }
    int locks = snprintf(lock, sizeof lock, "lock %s own%d\n", key, client->number);
    int unlocks = snprintf(unlock, sizeof unlock, "unlock %s own%d\n", key, client->number);
    while (now() < end)
        for (int i = 0; i < 50; i++) {
            send_text(client, lock, (size_t)locks);
            line_of(client);
            send_text(client, unlock, (size_t)unlocks);
            line_of(client);
            client->done += 2;
        }
}

static void run(struct client *client)
{
    struct sockaddr_un address = {.sun_family = AF_UNIX};
    double end = now() + seconds_for;
    unsigned names[OWNED];
    strncpy(address.sun_path, client->path, sizeof address.sun_path - 1);
    client->socket = socket(AF_UNIX, SOCK_STREAM, 0);
    must(connect(client->socket, (struct sockaddr *)&address, sizeof address) == 0, "connect");
    if (strcmp(kind, "requests") == 0) {
        requests(client, end);
        return;
    }
    if (client->is_redis && client->number == 0)
        load_script(client);
    while (client->is_redis && script_sum[39] == '\0')
        sleep_some(client, 1000);
    if (client->is_ahead) {
        send_text(client, "begin\n", 6);
        must(sscanf(line_of(client), "begun %31s", client->begun) == 1, "begin");
    }
    while (now() < end) {
        draw(client, names);
        enum ended ended = client->is_redis ? redis_transaction(client, names) : transaction(client, names);
        client->done += ended == DONE;
        client->vain += ended == IN_VAIN;
        if (ended == IN_VAIN)
            sleep_some(client, 200);
    }
    if (client->kept_length > 0) {
        send_text(client, "", 0);
        line_of(client);
    }
}

/* Sends back what comes, of all clients. */
static void echo_server(const char *path)
{
    struct sockaddr_un address = {.sun_family = AF_UNIX};
    static char bytes[65536];
    struct epoll_event event = {.events = EPOLLIN}, ready[64];
    int listener = socket(AF_UNIX, SOCK_STREAM, 0), all = epoll_create1(0);
    strncpy(address.sun_path, path, sizeof address.sun_path - 1);
    must(bind(listener, (struct sockaddr *)&address, sizeof address) == 0 && listen(listener, 64) == 0, path);
    event.data.fd = listener;
    epoll_ctl(all, EPOLL_CTL_ADD, listener, &event);
    for (;;) {
        int count = epoll_wait(all, ready, 64, -1);
        for (int i = 0; i < count; i++) {
            int one = ready[i].data.fd;
            if (one == listener) {
                event.data.fd = accept(listener, NULL, NULL);
                epoll_ctl(all, EPOLL_CTL_ADD, event.data.fd, &event);
                continue;
            }
            ssize_t length = recv(one, bytes, sizeof bytes, 0);
            if (length <= 0 || send(one, bytes, (size_t)length, MSG_NOSIGNAL) < length)
                close(one);
        }
    }
}

int main(int count, char **words)
{
    if (count == 3 && strcmp(words[1], "echo-server") == 0)
        echo_server(words[2]);
    int clients = count == 8 ? atoi(words[3]) : 0, threads = count == 8 ? atoi(words[4]) : 0;
    uint64_t done = 0, vain = 0;
    if (clients < 1 || clients > 4096 || threads < 1 || threads > clients) {
        fprintf(stderr, "usage: service_load WHAT PATH CLIENTS THREADS SECONDS KIND NAMES\n");
        return 2;
    }
    what = words[1];
    kind = words[6];
    seconds_for = atof(words[5]);
    struct client *all = calloc((size_t)clients, sizeof *all);
    must(all != NULL, "clients");
    for (int i = 0; i < clients; i++) {
        all[i] = (struct client){.path = words[2], .number = i, .names = (unsigned)atoi(words[7]), .chance = (uint64_t)i * 977 + 1};
        all[i].is_redis = strncmp(what, "redis", 5) == 0;
        all[i].is_ahead = strcmp(what, "service-ahead") == 0;
        all[i].is_joined = strstr(what, "-joined") != NULL || all[i].is_ahead;
        all[i].is_any = strcmp(kind, "any") == 0;
    }
    run_all(all, clients, threads);
    for (int i = 0; i < clients; i++) {
        done += all[i].done;
        vain += all[i].vain;
    }
    printf("%.0f %.0f\n", (double)done / seconds_for, (double)vain / seconds_for);
    return 0;
}
