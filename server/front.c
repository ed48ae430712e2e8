#define _GNU_SOURCE
#include "front.h"

#include "epoch.h"
#include "log.h"
#include "systemd.h"

#include <errno.h>
#include <sched.h>
#include <signal.h>
#include <stdlib.h>
#include <string.h>
#include <sys/epoll.h>
#include <sys/resource.h>
#include <sys/signalfd.h>
#include <sys/socket.h>
#include <unistd.h>

enum {
    LOOKS = 100,
    EVENTS = 512,
    SIZE = 262144,
};

/* Finds how many clients there may be, by the descriptors that the system gives. */
static unsigned most_connections(const struct options *options)
{
    struct rlimit limit;
    uint64_t wanted = options->connections, most = wanted;
    if (getrlimit(RLIMIT_NOFILE, &limit) == 0) {
        limit.rlim_cur = limit.rlim_max;
        setrlimit(RLIMIT_NOFILE, &limit);
        most = limit.rlim_max <= SPARE ? 1 : limit.rlim_max - SPARE;
    }
    if (most >= wanted)
        return (unsigned)wanted;
    notes("the system gives %llu descriptors, so at most %llu clients are served", (unsigned long long)limit.rlim_max, (unsigned long long)most);
    return (unsigned)most;
}

/* Makes the tables of the clients. */
static bool makes_tables(struct front *front)
{
    const struct options *options = &front->options;
    uint64_t each = IS_GIVEN(options, each) ? options->each : (options->transactions + 3) / 4;
    uint64_t most = each * (options->name_bytes + 64), least = (uint64_t)8 << 20;
    front->unread = IS_GIVEN(options, unread) ? options->unread : most > least ? most : least;
    front->connections = most_connections(options);
    front->clients = calloc(front->connections + 1, sizeof *front->clients);
    front->numbers = calloc(front->connections, sizeof *front->numbers);
    if (front->clients == NULL || front->numbers == NULL) {
        says("memory was refused");
        return false;
    }
    for (unsigned number = front->connections; number >= 1; number--)
        front->numbers[front->free_count++] = number;
    for (unsigned place = 0; place < ADMINS; place++)
        front->admins[place].file = NO_FD;
    return true;
}

/* Makes what tells of signals and of descriptors. */
static bool makes_events(struct front *front)
{
    sigset_t ends;
    sigemptyset(&ends);
    sigaddset(&ends, SIGTERM);
    sigaddset(&ends, SIGINT);
    signal(SIGPIPE, SIG_IGN);
    signal(SIGHUP, SIG_IGN);
    sigprocmask(SIG_BLOCK, &ends, NULL);
    front->events = epoll_create1(EPOLL_CLOEXEC);
    front->signals = signalfd(-1, &ends, SFD_CLOEXEC | SFD_NONBLOCK);
    if (front->events < 0 || front->signals < 0 || !watch_file(front, front->signals, EPOLLIN, OF_SIGNALS)) {
        says("the system gives no events: %s", strerror(errno));
        return false;
    }
    return true;
}

static void is_told_to_end(struct front *front)
{
    struct signalfd_siginfo told;
    if (read(front->signals, &told, sizeof told) != sizeof told)
        return;
    front->signal = (int)told.ssi_signo;
    front->end = BY_SIGNAL;
}

/* Starts the program, and greets it. */
static bool starts_program(struct front *front)
{
    if (!program_start(&front->program, &front->options, front->epoch, (uint64_t)front->connections + 1))
        return false;
    if (lines_greet(front) && watch_file(front, front->program.out, EPOLLIN, FROM_PROGRAM))
        return true;
    says("memory was refused");
    program_end(&front->program);
    return false;
}

/* Begins as far as no client is concerned: the sockets are opened when the program has answered. Without a heartbeat nothing is begun, and
   the server has its end. */
bool front_begin(struct front *front, int socket)
{
    const struct options *options = &front->options;
    heartbeat_begin(&front->heartbeat, options);
    front->program.name = options->program;
    if (!place_lock(&front->place, options->socket) || (options->admin != NULL && !place_lock(&front->admin_place, options->admin)))
        return false;
    front->place.socket = socket;
    if ((socket < 0 && !place_is_free(&front->place)) || (options->admin != NULL && !place_is_free(&front->admin_place)))
        return false;
    if (!makes_tables(front) || !makes_events(front))
        return false;
    if (!heartbeat_wait(&front->heartbeat, front->signals)) {
        front->end = BY_HEARTBEAT;
        is_told_to_end(front);
        return true;
    }
    if (!epoch_take(options, &front->epoch))
        return false;
    return starts_program(front);
}

/* Opens the sockets once the program has answered. */
static void opens(struct front *front)
{
    const struct options *options = &front->options;
    bool is_passed = front->place.socket >= 0;
    if (options->admin != NULL && !place_open(&front->admin_place, 0600, (gid_t)-1))
        front->end = BY_START;
    else if (!is_passed && !place_open(&front->place, options->mode, options->group_id))
        front->end = BY_START;
    if (front->end != GOES_ON)
        return;
    watch_accepts(front, &front->admin_place, true);
    watch_accepts(front, &front->place, true);
    notes("serves at %s, for %u clients, of epoch %llu", options->socket, front->connections, (unsigned long long)front->epoch);
    systemd_tell("READY=1");
}

/* Reads what the program wrote. */
static void hears(struct front *front)
{
    static char bytes[SIZE];
    bool was_open = front->is_open;
    ssize_t count = read(front->program.out, bytes, sizeof bytes);
    if (count == 0 || (count < 0 && errno != EAGAIN && errno != EINTR))
        front->end = BY_PROGRAM;
    else if (count > 0 && !replies_take(front, bytes, (size_t)count))
        front->end = BY_NONSENSE;
    else if (front->is_open && !was_open)
        opens(front);
    turns_heard(front);
}

/* A client sent something, reads on, or is gone. */
static void serves(struct front *front, struct client *client, unsigned events)
{
    if (client == NULL || client->file < 0)
        return;
    if ((events & ~(unsigned)EPOLLIN) != 0 && buffer_length(&client->out) > 0)
        client_send(front, client);
    if (client->file < 0 || (events & ~(unsigned)EPOLLOUT) == 0)
        return;
    if (!client->turn.is_in && lines_may_take(front, client)) {
        turns_add(front, client);
        return;
    }
    client->is_stalled = !client->turn.is_in && !client->is_over;
    watch_reads(front, client, false); /* it has its turn later */
}

/* Takes an event. Those of the listeners come last, when the numbers of those that left are free. */
static void takes_event(struct front *front, const struct epoll_event *event, bool of_listeners)
{
    unsigned place = (unsigned)event->data.u64;
    enum source source = (enum source)(event->data.u64 >> 32);
    if ((source == OF_PLACE || source == OF_ADMIN_PLACE) != of_listeners)
        return;
    switch (source) {
    case OF_CLIENT: serves(front, front->clients[place], event->events); break;
    case OF_ADMIN: serves(front, &front->admins[place], event->events); break;
    case OF_PLACE: clients_accept(front, false); break;
    case OF_ADMIN_PLACE: clients_accept(front, true); break;
    case FROM_PROGRAM: hears(front); break;
    case OF_SIGNALS: is_told_to_end(front); break;
    case TO_PROGRAM: break; /* what waits is written in each round */
    }
}

/* Says for how many milliseconds nothing needs to be done unless something comes. */
static int patience(const struct front *front)
{
    int most = heartbeat_patience(&front->heartbeat), turn = turns_patience(front);
    if (turn >= 0 && (most < 0 || most > turn))
        most = turn;
    int retry = clients_patience(front);
    return retry >= 0 && (most < 0 || most > retry) ? retry : most;
}

/* Waits until something has come. That is so after some microseconds mostly, and to be woken takes longer: so it looks some times before it sleeps. */
static int waits(const struct front *front, struct epoll_event *events)
{
    int most = patience(front), count = epoll_wait(front->events, events, EVENTS, 0);
    for (int look = 0; look < LOOKS && count == 0 && most != 0; look++) {
        sched_yield();
        count = epoll_wait(front->events, events, EVENTS, 0);
    }
    return count == 0 && most != 0 ? epoll_wait(front->events, events, EVENTS, most) : count;
}

/* Waits until something has come, and takes it. */
static void listens(struct front *front)
{
    struct epoll_event events[EVENTS];
    int count = waits(front, events);
    for (int place = 0; place < count && front->end == GOES_ON; place++)
        takes_event(front, &events[place], false);
    for (int place = 0; place < count && front->end == GOES_ON; place++)
        takes_event(front, &events[place], true);
    clients_retry(front);
}

/* Gives the program what waits for it, and looks whether it takes more if it does not take all. */
static void tells_program(struct front *front)
{
    bool was_full = front->program.is_full;
    if (!program_flush(&front->program))
        front->end = BY_PROGRAM;
    else if (front->program.is_full && !was_full && !watch_file(front, front->program.in, EPOLLOUT, TO_PROGRAM))
        front->end = BY_MEMORY;
    else if (!front->program.is_full && was_full)
        epoll_ctl(front->events, EPOLL_CTL_DEL, front->program.in, NULL);
}

/* Sends what came for clients, and looks at each that had a reply. */
static void tells_clients(struct front *front)
{
    struct link *link;
    while (front->end == GOES_ON && (link = queue_take(&front->touched)) != NULL) {
        struct client *client = THING_OF(link, struct client, touched);
        client->is_answered = false;
        client_send(front, client);
    }
    replies_bound(front);
}

/* Serves until something ends it. It writes to the program before it sends to clients, so that the program works in the meantime. */
void front_run(struct front *front)
{
    while (front->end == GOES_ON) {
        heartbeat_look(&front->heartbeat);
        if (heartbeat_is_late(&front->heartbeat)) {
            front->end = BY_HEARTBEAT;
            return;
        }
        turns_take(front);
        if (front->end == GOES_ON)
            tells_program(front);
        tells_clients(front);
        if (front->end == GOES_ON)
            listens(front);
    }
}

/* Closes a client, after one more send of what it is owed, unless the heartbeat is late. */
static void closes(struct front *front, struct client *client)
{
    if (client == NULL || client->file < 0)
        return;
    bool is_sent = buffer_length(&client->out) > 0 && front->end != BY_HEARTBEAT && !heartbeat_is_late(&front->heartbeat);
    if (is_sent)
        send(client->file, buffer_bytes(&client->out), buffer_length(&client->out), MSG_NOSIGNAL | MSG_DONTWAIT);
    close(client->file);
    buffer_clear(&client->in);
    buffer_clear(&client->out);
}

/* Says why the server ends. Returns its status. */
static int says_why(const struct front *front, int status)
{
    const char *name = front->program.name;
    if (front->end == BY_SIGNAL)
        notes("ends by signal %d", front->signal);
    else if (front->end == BY_PROGRAM && front->is_open)
        says("%s ended with status %d", name, status);
    else if (front->end == BY_PROGRAM)
        says("%s did not start: it ended with status %d", name, status);
    else if (front->end == BY_NONSENSE)
        says("%s wrote what is no reply", name);
    else if (front->end == BY_HEARTBEAT)
        says("no line that counts came on descriptor %d for %lld milliseconds", front->heartbeat.file, (long long)front->heartbeat.limit);
    else if (front->end == BY_MEMORY)
        says("memory was refused");
    return front->end == BY_SIGNAL ? 0 : 1;
}

int front_end(struct front *front)
{
    for (unsigned number = 1; number <= front->connections; number++) {
        closes(front, front->clients[number]);
        free(front->clients[number]);
    }
    for (unsigned place = 0; place < ADMINS; place++)
        closes(front, &front->admins[place]);
    place_close(&front->place);
    if (front->options.admin != NULL)
        place_close(&front->admin_place);
    if (front->is_open)
        systemd_tell("STOPPING=1");
    int status = program_end(&front->program);
    notes_counted();
    free(front->clients);
    free(front->numbers);
    close(front->events);
    close(front->signals);
    return says_why(front, status);
}
