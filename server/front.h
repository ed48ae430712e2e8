/* The front: it knows connections, lines and numbers, and decides nothing. A line of client C goes to the program as `C LINE`, and a line
   `C REPLY` of the program to client C. */
#ifndef PASHKURE_FRONT_H
#define PASHKURE_FRONT_H

#include "heartbeat.h"
#include "place.h"
#include "program.h"
#include "queue.h"

enum {
    LINE_BYTES = 1048,  /* of the longest request: `unlock`, a key of 16 bytes, a name of 1,024, and two spaces */
    PROGRAM_LINES = 64, /* lines that are in the program at a time */
    SHARE = 16,         /* of these, those of a client */
    UNREAD = 65536,     /* bytes that a client may leave unread before no more of it is read */
    ADMINS = 16,        /* operators that can be connected at once */
    SPARE = 32,         /* descriptors beside those of clients */
    END_BYTES = 24,     /* room for `commit`, a space and a key of 16 bytes */
};

struct client {
    int file;        /* of the socket; -1: closed */
    unsigned number; /* 0: an operator */
    char head[8];    /* the number and a space */
    unsigned head_length;
    struct buffer in;    /* what it sent and was not passed on yet */
    struct buffer out;   /* what it has not read yet */
    unsigned unanswered; /* requests in the program; a place of an operator is not given again while there are any */
    unsigned watched;    /* the events that are looked for */
    bool skips;          /* the beginning of a line that is too long was dropped */
    bool is_over;        /* it ended: nothing more is read of it */
    bool is_leaving;     /* it hung up, and the program has not answered so yet */
    bool is_hanging_up;  /* `- C` is in the program */
    bool is_stalled;     /* it has too much unanswered or unread, so it is read no further for now */
    bool is_alone;       /* no other line is passed on before its last one is answered: that has a long reply, or ends a transaction */
    bool is_answered;    /* the program has answered a line of it in this round */
    bool is_tried;       /* its lines take long, or nothing is known of them yet: so one of all such clients is in the program at a time */
    int64_t tried_until; /* by the program's work, in microseconds */
    const char *ends;    /* the word of its last line that ends a transaction */
    char again[END_BYTES];
    unsigned again_length; /* of the line that it ends by, which is to be passed on again; 0: there is none */
    struct link end;       /* among those that have such a line in the program */
    struct link turn;      /* among those that wait for their turn */
    struct link touched;
    struct link large; /* among those that have more than UNREAD bytes unread, or had */
    pid_t process;
    uid_t user;
    int64_t since; /* seconds */
};

/* Who is next. Nobody's lines keep the program long from those of others: each client has its turn in the order in which they came, and of
   those whose lines take long one line at all is in the program. */
struct turns {
    struct queue ready, tried, late; /* with lines to be passed on, or a hang-up; of clients that are tried; of those that had a long line */
    bool is_late_next;               /* of the two last ones that one has its turn */
    unsigned in_program;             /* lines that were passed on and are not answered */
    struct client *in_trial;         /* whose line in the program is tried */
    unsigned answered;               /* lines, since the program's work was measured */
    struct client *judged, *last;    /* whose line among these was tried, NULL: nobody's; whose the last one was */
    bool is_shared;                  /* others had lines answered since the last one was tried */
    int64_t work;                    /* processor time of the program when it was heard last, in microseconds */
    int64_t rests_until;             /* no line is tried before, if others have work; by CLOCK_MONOTONIC, in microseconds */
};

/* Whose the next reply to connection 0 is. */
struct asker {
    enum { GREETING, REQUEST, CLIENTS } kind;
    unsigned place; /* of an operator */
};

enum end { GOES_ON, BY_SIGNAL, BY_PROGRAM, BY_NONSENSE, BY_HEARTBEAT, BY_MEMORY, BY_START };

struct front {
    struct options options;
    uint64_t epoch, unread; /* unread: what a client may leave unread */
    uint64_t unread_sum;    /* bytes that all clients have not read yet */
    struct queue large;     /* the clients of which the greatest is hung up when that is too much */
    struct place place, admin_place;
    struct program program;
    struct heartbeat heartbeat;
    struct client **clients;      /* by number, from 1 on; NULL: never used */
    unsigned connections;         /* the greatest number */
    unsigned *numbers;            /* those that are free, of which the last one is given next */
    unsigned free_count, leaving; /* how many are free, and of how many `- C` has to come back */
    unsigned full_rounds;         /* for how many rounds a client has waited for which there is no number */
    struct client admins[ADMINS];
    struct asker askers[ADMINS + 1]; /* a ring: each operator has one request in the program, and there is the greeting */
    unsigned first_asker, asker_count;
    struct client *last_asked; /* the operator that was sent the last reply, if it is still there */
    struct turns turns;
    struct queue ends;    /* with a line in the program that ends a transaction, in the order of these */
    struct queue touched; /* with lines to be sent, or a reply less to come */
    int events;           /* of epoll */
    int signals;
    int signal;   /* that ended it */
    bool is_open; /* the program has answered, and clients may come */
    enum end end;
};

/* front.c: the loop. */
bool front_begin(struct front *front, int socket);
void front_run(struct front *front);
int front_end(struct front *front);

/* clients.c: those that come and go. */
void clients_accept(struct front *front, bool is_admin);
void clients_retry(struct front *front);                                          /* accepts again after a failure, when its time has come */
int clients_patience(const struct front *front);                                  /* milliseconds until then; -1: nothing has failed */
void client_ends(struct front *front, struct client *client);                     /* in good order */
void client_cut(struct front *front, struct client *client);                      /* at once */
void client_came_back(struct front *front, struct client *client, bool has_more); /* `- C`, or `* more C`: it has to hang up again */
void client_closes_if_done(struct front *front, struct client *client);

/* lines.c: from a client to the program. */
void lines_turn(struct front *front, struct client *client);
bool lines_may_take(const struct front *front, const struct client *client);
bool lines_answered(struct front *front, struct client *client);             /* the oldest line of it that is not. False: another one had to be */
bool lines_again(struct front *front, const char *key, const char *key_end); /* `* more K`: whose line it is has to pass it on again */
bool lines_greet(struct front *front);

/* turns.c: who is next. */
void turns_begin(struct front *front); /* when the greeting is answered */
void turns_add(struct front *front, struct client *client);
void turns_take(struct front *front);
unsigned turns_lines(const struct front *front, const struct client *client); /* that it may pass on in its turn */
void turns_passed(struct front *front, struct client *client);                /* a line of it */
void turns_answered(struct front *front, struct client *client, bool is_hang_up);
void turns_heard(struct front *front);         /* what the program wrote */
int turns_patience(const struct front *front); /* for how many milliseconds nobody has a turn; -1: until the program has answered */

/* replies.c: from the program to a client. */
bool client_add(struct front *front, struct client *client, const char *line, size_t length);
bool replies_take(struct front *front, const char *bytes, size_t count);
void client_send(struct front *front, struct client *client);
void client_forget(struct front *front, struct client *client); /* what it has not read */
void replies_bound(struct front *front);                        /* hangs clients up while too much is unread */
void client_touch(struct front *front, struct client *client);

/* admin.c: connection 0. */
void admin_asks(struct front *front, struct client *client, bool is_clients);
bool admin_asks_again(struct front *front, const struct client *client); /* whose request has to be passed on again. False: another one is asked */
bool admin_take(struct front *front, const char *line, size_t length);

/* watch.c: what epoll looks for. */
enum source { OF_CLIENT, OF_ADMIN, OF_PLACE, OF_ADMIN_PLACE, TO_PROGRAM, FROM_PROGRAM, OF_SIGNALS };
bool watch_file(struct front *front, int file, unsigned events, enum source source);
void watch_reads(struct front *front, struct client *client, bool is_wanted);
void watch_writes(struct front *front, struct client *client, bool is_wanted);
void watch_accepts(struct front *front, struct place *place, bool is_wanted);

#endif
