#define _GNU_SOURCE
#include "place.h"

#include "log.h"

#include <errno.h>
#include <fcntl.h>
#include <stddef.h>
#include <stdio.h>
#include <string.h>
#include <sys/file.h>
#include <sys/socket.h>
#include <sys/stat.h>
#include <sys/un.h>
#include <unistd.h>

enum { BACKLOG = 4096 };

bool place_lock(struct place *place, const char *path)
{
    char name[4096];
    struct stat status;
    place->path = path;
    place->socket = -1;
    if (snprintf(name, sizeof name, "%s.lock", path) >= (int)sizeof name) {
        says("%s: the path is too long", path);
        return false;
    }
    place->lock = open(name, O_RDWR | O_CREAT | O_NOFOLLOW | O_CLOEXEC, 0600);
    if (place->lock < 0 || fstat(place->lock, &status) < 0) {
        says("%s: %s", name, strerror(errno));
        return false;
    }
    if (status.st_uid != geteuid() || !S_ISREG(status.st_mode)) {
        says("%s: it is no file of this user", name);
        return false;
    }
    if (flock(place->lock, LOCK_EX | LOCK_NB) < 0) {
        if (errno == EWOULDBLOCK)
            says("%s: another server is at %s, and holds it", name, path);
        else
            says("%s: %s", name, strerror(errno));
        return false;
    }
    if (fchmod(place->lock, 0600) < 0) {
        says("%s: %s", name, strerror(errno));
        return false;
    }
    return true;
}

/* Makes the address of a path. */
static bool address_of(const char *path, struct sockaddr_un *address)
{
    *address = (struct sockaddr_un){.sun_family = AF_UNIX};
    if (strlen(path) >= sizeof address->sun_path) {
        says("%s: the path is too long for a socket", path);
        return false;
    }
    strcpy(address->sun_path, path);
    return true;
}

bool place_is_free(const struct place *place)
{
    struct sockaddr_un address;
    struct stat status;
    if (!address_of(place->path, &address))
        return false;
    if (lstat(place->path, &status) < 0) {
        if (errno != ENOENT)
            says("%s: %s", place->path, strerror(errno));
        return errno == ENOENT;
    }
    if (!S_ISSOCK(status.st_mode)) {
        says("%s is no socket", place->path);
        return false;
    }
    int trial = socket(AF_UNIX, SOCK_STREAM | SOCK_CLOEXEC | SOCK_NONBLOCK, 0);
    bool is_gone = trial >= 0 && connect(trial, (struct sockaddr *)&address, sizeof address) < 0 && errno == ECONNREFUSED;
    if (trial >= 0)
        close(trial);
    if (!is_gone) {
        says("another server answers at %s", place->path);
        return false;
    }
    if (unlink(place->path) < 0 && errno != ENOENT) {
        says("%s: %s", place->path, strerror(errno));
        return false;
    }
    return true;
}

/* Makes the file of the socket. Nobody can connect before it has its rights and its group. */
static bool makes_file(struct place *place, mode_t mode, gid_t group)
{
    struct sockaddr_un address;
    struct stat status;
    if (!address_of(place->path, &address))
        return false;
    mode_t before = umask(0177);
    int result = bind(place->socket, (struct sockaddr *)&address, sizeof address);
    umask(before);
    if (result < 0 || lstat(place->path, &status) < 0) {
        says("%s: %s", place->path, strerror(errno));
        return false;
    }
    place->is_made = true;
    place->device = status.st_dev;
    place->file = status.st_ino;
    if ((group != (gid_t)-1 && lchown(place->path, (uid_t)-1, group) < 0) || (mode != 0600 && chmod(place->path, mode) < 0)
        || listen(place->socket, BACKLOG) < 0) {
        says("%s: %s", place->path, strerror(errno));
        return false;
    }
    return true;
}

bool place_open(struct place *place, mode_t mode, gid_t group)
{
    place->socket = socket(AF_UNIX, SOCK_STREAM | SOCK_CLOEXEC | SOCK_NONBLOCK, 0);
    if (place->socket < 0) {
        says("%s: %s", place->path, strerror(errno));
        return false;
    }
    return makes_file(place, mode, group);
}

void place_close(struct place *place)
{
    struct stat status;
    if (place->is_made && lstat(place->path, &status) == 0 && status.st_dev == place->device && status.st_ino == place->file)
        unlink(place->path);
    if (place->socket >= 0)
        close(place->socket);
    place->is_made = false;
    place->socket = -1;
}
