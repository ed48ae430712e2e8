#define _GNU_SOURCE
#include "epoch.h"

#include "clock.h"
#include "log.h"

#include <errno.h>
#include <fcntl.h>
#include <libgen.h>
#include <stdio.h>
#include <stdlib.h>
#include <string.h>
#include <sys/stat.h>
#include <unistd.h>

enum { DIGITS = 19, ROOM = 4096 };

/* Says what is wrong with a file. */
static bool is_wrong(const char *path, const char *why)
{
    says("%s: %s", path, why);
    return false;
}

/* Reads the number that a text says, below the greatest one. */
static bool number_of(const char *text, uint64_t *value)
{
    size_t digits = strspn(text, "0123456789");
    if (digits == 0 || digits > DIGITS || strcmp(text + digits, text[digits] == '\n' ? "\n" : "") != 0)
        return false;
    *value = strtoull(text, NULL, 10);
    return *value < INT64_MAX;
}

/* Reads the last epoch, which is 0 if there is no file. */
static bool reads_last(const char *path, uint64_t *last)
{
    char text[DIGITS + 4];
    struct stat status;
    *last = 0;
    int file = open(path, O_RDONLY | O_NOFOLLOW | O_CLOEXEC | O_NONBLOCK);
    if (file < 0)
        return errno == ENOENT || is_wrong(path, strerror(errno));
    bool is_own = fstat(file, &status) == 0 && S_ISREG(status.st_mode) && status.st_uid == geteuid();
    ssize_t length = is_own ? read(file, text, sizeof text - 1) : 0;
    close(file);
    if (!is_own)
        return is_wrong(path, "it is no file of this user");
    if (length < 0)
        return is_wrong(path, strerror(errno));
    text[length] = '\0';
    return (strlen(text) == (size_t)length && number_of(text, last)) || is_wrong(path, "it is not one number, an epoch below the greatest");
}

/* Makes what a folder says of its files lasting. */
static bool keeps_folder(const char *path)
{
    char copy[ROOM];
    snprintf(copy, sizeof copy, "%s", path);
    int folder = open(dirname(copy), O_RDONLY | O_DIRECTORY | O_CLOEXEC);
    bool is_kept = folder >= 0 && fsync(folder) == 0;
    if (folder >= 0)
        close(folder);
    return is_kept || is_wrong(path, "its folder cannot be written to the disk");
}

/* Writes the epoch into a new file, which then takes the place of the old one. */
static bool writes(const char *path, uint64_t epoch)
{
    char name[ROOM], text[DIGITS + 2];
    if (snprintf(name, sizeof name, "%s.new", path) >= (int)sizeof name)
        return is_wrong(path, "the path is too long");
    int length = snprintf(text, sizeof text, "%llu\n", (unsigned long long)epoch);
    unlink(name);
    int file = open(name, O_WRONLY | O_CREAT | O_EXCL | O_NOFOLLOW | O_CLOEXEC, 0600);
    if (file < 0)
        return is_wrong(name, strerror(errno));
    bool is_written = write(file, text, (size_t)length) == length && fsync(file) == 0;
    is_written = close(file) == 0 && is_written;
    if (!is_written || rename(name, path) < 0)
        return is_wrong(name, strerror(errno));
    return keeps_folder(path);
}

bool epoch_take(const struct options *options, uint64_t *epoch)
{
    char made[ROOM];
    const char *path = options->epoch_file;
    uint64_t last;
    bool is_given = IS_GIVEN(options, epoch);
    *epoch = options->epoch;
    if (is_given && path == NULL)
        return true;
    if (path == NULL) {
        if (snprintf(made, sizeof made, "%s.epoch", options->socket) >= (int)sizeof made)
            return is_wrong(options->socket, "the path is too long");
        path = made;
    }
    if (!reads_last(path, &last))
        return false;
    if (is_given && *epoch <= last)
        return is_wrong(path, "the epoch of the file is not below the one that was given");
    if (!is_given) {
        int64_t now = clock_milliseconds(CLOCK_REALTIME);
        *epoch = now > (int64_t)last ? (uint64_t)now : last + 1;
    }
    return writes(path, *epoch);
}
