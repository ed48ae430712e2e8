#define _GNU_SOURCE
#include "systemd.h"

#include "log.h"

#include <fcntl.h>
#include <stddef.h>
#include <stdlib.h>
#include <string.h>
#include <sys/socket.h>
#include <sys/un.h>
#include <unistd.h>

enum { FIRST = 3 };

/* Says whether a descriptor is of a socket of this machine that listens for streams, in which a line may come in pieces. */
static bool listens(int file)
{
    int value = 0;
    socklen_t length = sizeof value;
    if (getsockopt(file, SOL_SOCKET, SO_ACCEPTCONN, &value, &length) < 0 || value == 0)
        return false;
    length = sizeof value;
    if (getsockopt(file, SOL_SOCKET, SO_DOMAIN, &value, &length) < 0 || value != AF_UNIX)
        return false;
    length = sizeof value;
    return getsockopt(file, SOL_SOCKET, SO_TYPE, &value, &length) == 0 && value == SOCK_STREAM;
}

bool systemd_socket(int *socket)
{
    const char *pid = getenv("LISTEN_PID"), *count = getenv("LISTEN_FDS");
    bool is_meant = pid != NULL && count != NULL && strtoll(pid, NULL, 10) == getpid() && strcmp(count, "0") != 0;
    bool is_one = is_meant && strcmp(count, "1") == 0;
    unsetenv("LISTEN_PID");
    unsetenv("LISTEN_FDS");
    unsetenv("LISTEN_FDNAMES");
    *socket = -1;
    if (!is_meant)
        return true;
    if (!is_one || !listens(FIRST) || fcntl(FIRST, F_SETFD, FD_CLOEXEC) < 0 || fcntl(FIRST, F_SETFL, O_NONBLOCK) < 0) {
        says("LISTEN_FDS: it has to pass one Unix socket that listens, of type SOCK_STREAM");
        return false;
    }
    *socket = FIRST;
    return true;
}

void systemd_tell(const char *state)
{
    const char *path = getenv("NOTIFY_SOCKET");
    struct sockaddr_un address = {.sun_family = AF_UNIX};
    if (path == NULL || (*path != '/' && *path != '@') || strlen(path) >= sizeof address.sun_path)
        return;
    strcpy(address.sun_path, path);
    if (*path == '@')
        address.sun_path[0] = '\0';
    int file = socket(AF_UNIX, SOCK_DGRAM | SOCK_CLOEXEC, 0);
    if (file < 0)
        return;
    socklen_t length = (socklen_t)(offsetof(struct sockaddr_un, sun_path) + strlen(path));
    if (sendto(file, state, strlen(state), MSG_NOSIGNAL, (struct sockaddr *)&address, length) < 0)
        says("%s: it was not told %s", path, state);
    close(file);
}
