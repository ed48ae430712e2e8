#define _GNU_SOURCE
#include "heartbeat.h"

#include "clock.h"

#include <errno.h>
#include <fcntl.h>
#include <poll.h>
#include <unistd.h>

enum {
    LOOKS = 16,           /* how often it looks in the time that a line may take */
    LONGEST_PAUSE = 1000, /* milliseconds between two looks at most, so that the pipe does not fill */
    MOST_READS = 256,     /* of one look: whoever writes without end does not keep the server from its clients */
};

static int64_t now(void)
{
    return clock_milliseconds(CLOCK_BOOTTIME);
}

static int64_t pause_of(const struct heartbeat *heartbeat)
{
    int64_t pause = heartbeat->limit / LOOKS;
    return pause < LONGEST_PAUSE ? pause : LONGEST_PAUSE;
}

/* Says whether the last line counts from too long ago. */
static bool is_old(const struct heartbeat *heartbeat)
{
    return heartbeat->beat < 0 || now() - heartbeat->beat >= heartbeat->limit;
}

void heartbeat_begin(struct heartbeat *heartbeat, const struct options *options)
{
    *heartbeat = (struct heartbeat){.file = NO_FD, .beat = -1};
    if (!IS_GIVEN(options, heartbeat_fd))
        return;
    heartbeat->file = (int)options->heartbeat_fd;
    heartbeat->limit = (int64_t)options->heartbeat_ms;
    fcntl(heartbeat->file, F_SETFD, FD_CLOEXEC);
}

/* Takes the end of a line. One that is no number, is later than now, or is smaller than one before is no line. */
static void takes_end(struct heartbeat *heartbeat)
{
    bool is_number = heartbeat->has_digits && !heartbeat->is_text;
    if (is_number && heartbeat->number > heartbeat->beat && heartbeat->number <= now())
        heartbeat->beat = heartbeat->number;
    heartbeat->number = 0;
    heartbeat->has_digits = heartbeat->is_text = false;
}

static void takes_byte(struct heartbeat *heartbeat, char byte)
{
    bool is_digit = byte >= '0' && byte <= '9';
    if (byte == '\n') {
        takes_end(heartbeat);
    } else if (is_digit && heartbeat->number <= (INT64_MAX - 9) / 10) {
        heartbeat->number = heartbeat->number * 10 + (byte - '0');
        heartbeat->has_digits = true;
    } else {
        heartbeat->is_text = true;
    }
}

/* Reads once, if something is there. Says whether something was. */
static bool reads(struct heartbeat *heartbeat)
{
    char bytes[4096];
    struct pollfd file = {.fd = heartbeat->file, .events = POLLIN};
    if (poll(&file, 1, 0) != 1)
        return false;
    ssize_t count = read(heartbeat->file, bytes, sizeof bytes);
    if (count == 0 || (count < 0 && errno != EINTR && errno != EAGAIN))
        heartbeat->is_over = true;
    for (ssize_t place = 0; place < count; place++)
        takes_byte(heartbeat, bytes[place]);
    return count > 0;
}

static void reads_all(struct heartbeat *heartbeat)
{
    for (int count = 0; count < MOST_READS && !heartbeat->is_over && reads(heartbeat); count++)
        continue;
    heartbeat->looked = now();
}

void heartbeat_look(struct heartbeat *heartbeat)
{
    if (heartbeat->file != NO_FD && now() - heartbeat->looked >= pause_of(heartbeat))
        reads_all(heartbeat);
}

bool heartbeat_is_late(struct heartbeat *heartbeat)
{
    if (heartbeat->file == NO_FD || !is_old(heartbeat))
        return false;
    reads_all(heartbeat);
    return is_old(heartbeat);
}

bool heartbeat_wait(struct heartbeat *heartbeat, int stops)
{
    int64_t end = now() + heartbeat->limit;
    while (heartbeat_is_late(heartbeat)) {
        int64_t left = end - now();
        int next = heartbeat->is_over ? NO_FD : heartbeat->file;
        struct pollfd files[] = {{.fd = stops, .events = POLLIN}, {.fd = next, .events = POLLIN}};
        if (left <= 0 || (poll(files, 2, left < LONGEST_PAUSE ? (int)left : LONGEST_PAUSE) > 0 && files[0].revents != 0))
            return false;
    }
    return true;
}

int heartbeat_patience(const struct heartbeat *heartbeat)
{
    return heartbeat->file == NO_FD ? -1 : 1 + (int)pause_of(heartbeat);
}
