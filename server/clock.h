/* The clocks of the system. */
#ifndef PASHKURE_CLOCK_H
#define PASHKURE_CLOCK_H

#include <stdint.h>
#include <time.h>

/* Reads a clock, in milliseconds. */
static inline int64_t clock_milliseconds(clockid_t which)
{
    struct timespec now;
    clock_gettime(which, &now);
    return (int64_t)now.tv_sec * 1000 + now.tv_nsec / 1000000;
}

/* Reads a clock, in microseconds. Returns 0 if there is no such clock. */
static inline int64_t clock_microseconds(clockid_t which)
{
    struct timespec now = {0};
    return clock_gettime(which, &now) == 0 ? (int64_t)now.tv_sec * 1000000 + now.tv_nsec / 1000 : 0;
}

/* Reads the clock that nobody sets, in seconds. */
static inline int64_t clock_seconds(void)
{
    return clock_milliseconds(CLOCK_MONOTONIC) / 1000;
}

#endif
