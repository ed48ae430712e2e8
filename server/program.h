/* The program behind the front, between two pipes. */
#ifndef PASHKURE_PROGRAM_H
#define PASHKURE_PROGRAM_H

#include "buffer.h"
#include "options.h"

#include <time.h>

struct program {
    const char *name;
    pid_t pid;             /* 0: it was not started, or has ended */
    int in, out;           /* where it reads, and what it writes; neither waits */
    struct buffer waiting; /* lines that it has not taken yet */
    struct buffer line;    /* the beginning of a line of it */
    clockid_t clock;       /* of the processor time that it has used */
    bool is_full;          /* it takes no more for now, so the front waits until it does */
};

/* Starts the program for this many connections. Says why it cannot, and returns false. */
bool program_start(struct program *program, const struct options *options, uint64_t epoch, uint64_t connections);

/* Says how much processor time it has used, in microseconds, which no other process makes longer. */
int64_t program_work(const struct program *program);

/* Gives it the lines that wait, as far as it takes them. Returns false if it takes none any more. */
bool program_flush(struct program *program);

/* Ends the program, and waits for its end, for two seconds and then by force. Returns its status, below 0 that of a signal. */
int program_end(struct program *program);

#endif
