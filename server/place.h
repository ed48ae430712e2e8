/* The file of a socket, and the file that keeps a second server from it. */
#ifndef PASHKURE_PLACE_H
#define PASHKURE_PLACE_H

#include <stdbool.h>
#include <stdint.h>
#include <sys/types.h>

struct place {
    const char *path; /* NULL: there is none */
    int lock;         /* PATH.lock, which is held as long as the server lives, and stays */
    int socket;       /* -1: not open */
    bool is_watched;  /* for those that connect */
    bool has_failed;  /* the last accept did, for want of room */
    int64_t retry_at; /* when it is watched again, by CLOCK_MONOTONIC in milliseconds; 0: it need not be */
    bool is_made;     /* the file is the server's own, to be removed */
    dev_t device;
    ino_t file;
};

/* Takes PATH.lock. Says why it cannot, and returns false. */
bool place_lock(struct place *place, const char *path);

/* Removes the socket of a server that is gone. Says why it cannot, and returns false. */
bool place_is_free(const struct place *place);

/* Opens the socket. Says why it cannot, and returns false. */
bool place_open(struct place *place, mode_t mode, gid_t group);

/* Closes the socket, and removes its file unless it is another one by now. */
void place_close(struct place *place);

#endif
