/* The words of the command line. */
#ifndef PASHKURE_OPTIONS_H
#define PASHKURE_OPTIONS_H

#include <stdbool.h>
#include <stdint.h>
#include <sys/types.h>

#define PASHKURE_VERSION "0.2.0"

struct options {
    const char *socket, *admin, *program, *group, *epoch_file, *mode_text; /* NULL: not given */
    uint64_t transactions, names, name_bytes, names_each, each, connections, epoch, unread, unread_total, turn, heartbeat_fd, heartbeat_ms;
    uint64_t given; /* a bit for each number that was given, by its place in the table of options.c */
    mode_t mode;
    gid_t group_id; /* (gid_t)-1: that of the user */
    bool is_quiet;
};

enum { NO_FD = -1 };

/* Reads the words. Returns true if the server is to start, or else *status is that of the program. */
bool options_read(struct options *options, int count, char **words, int *status);

/* Says whether a number of the command line was given, by its field. */
#define IS_GIVEN(options, field) options_is_given(options, &(options)->field)
bool options_is_given(const struct options *options, const uint64_t *field);

#endif
