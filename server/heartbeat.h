/* Lines on a descriptor, without which the server stops. A line is a number: the time by CLOCK_BOOTTIME, in milliseconds, from which it counts,
   whenever it is read. */
#ifndef PASHKURE_HEARTBEAT_H
#define PASHKURE_HEARTBEAT_H

#include "options.h"

struct heartbeat {
    int file;                 /* -1: none is needed */
    int64_t limit;            /* milliseconds */
    int64_t beat;             /* the greatest number of a line that was not of the future; -1: none has come */
    int64_t looked;           /* when the descriptor was read last */
    int64_t number;           /* of the line that has begun */
    bool has_digits, is_text; /* that line has digits; it can be no number any more */
    bool is_over;             /* no further line can come */
};

void heartbeat_begin(struct heartbeat *heartbeat, const struct options *options);

/* Reads what has come, if it has not done so just now. */
void heartbeat_look(struct heartbeat *heartbeat);

/* Says whether no line came in time. Reads what has come before it says so. */
bool heartbeat_is_late(struct heartbeat *heartbeat);

/* Waits for a line that is not late, or until `stops` has something to read, for as long as a line may take. Says whether such a line came. */
bool heartbeat_wait(struct heartbeat *heartbeat, int stops);

/* Says for how many milliseconds the server may sleep before it has to look, -1 for any number. */
int heartbeat_patience(const struct heartbeat *heartbeat);

#endif
