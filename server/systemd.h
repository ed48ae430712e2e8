/* What a service manager passes and is told, by the variables NOTIFY_SOCKET and LISTEN_FDS. */
#ifndef PASHKURE_SYSTEMD_H
#define PASHKURE_SYSTEMD_H

#include <stdbool.h>

/* Finds the socket that was passed: *socket is -1 if there is none. Says what is wrong with it, and returns false. */
bool systemd_socket(int *socket);

/* Tells the service manager a state, if there is one. */
void systemd_tell(const char *state);

#endif
