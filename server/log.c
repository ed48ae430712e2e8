#define _GNU_SOURCE
#include "log.h"

#include "clock.h"

#include <poll.h>
#include <stdarg.h>
#include <stdio.h>
#include <string.h>
#include <unistd.h>

enum {
    LONGEST = 4000, /* bytes of a line: a pipe takes this many at once */
    PER_SECOND = 100,
};

static bool is_quiet;
static int64_t second; /* the one that `told` and `counted` are of */
static unsigned told;
static unsigned long counted;

void log_is_quiet(void)
{
    is_quiet = true;
}

/* Writes a line, if there is room for it at once. */
static void write_line(const char *text, size_t length)
{
    static const char digits[] = "0123456789abcdef";
    char line[LONGEST + 8] = "pashkure: ";
    size_t end = strlen(line);
    for (size_t place = 0; place < length; place++) {
        unsigned char byte = (unsigned char)text[place];
        if (end + 4 > LONGEST) {
            line[end++] = '.';
            line[end++] = '.';
            break;
        }
        if (byte < ' ' || byte > '~') {
            line[end++] = '\\';
            line[end++] = 'x';
            line[end++] = digits[byte >> 4];
            line[end++] = digits[byte & 15];
        } else {
            line[end++] = (char)byte;
        }
    }
    line[end++] = '\n';
    struct pollfd file = {.fd = STDERR_FILENO, .events = POLLOUT};
    if (poll(&file, 1, 0) == 1 && (file.revents & POLLOUT) && write(STDERR_FILENO, line, end) < 0)
        return;
}

static void write_formatted(const char *format, va_list values)
{
    char text[LONGEST];
    int length = vsnprintf(text, sizeof text, format, values);
    if (length >= 0)
        write_line(text, (size_t)length < sizeof text ? (size_t)length : sizeof text - 1);
}

void says(const char *format, ...)
{
    va_list values;
    va_start(values, format);
    write_formatted(format, values);
    va_end(values);
}

void notes(const char *format, ...)
{
    va_list values;
    if (is_quiet)
        return;
    va_start(values, format);
    write_formatted(format, values);
    va_end(values);
}

void notes_counted(void)
{
    if (counted > 0)
        notes("%lu more deadlocks", counted);
    counted = 0;
}

void notes_deadlock(const char *cycle, size_t length)
{
    char text[LONGEST] = "deadlock ";
    size_t head = strlen(text);
    int64_t now = clock_seconds();
    if (is_quiet)
        return;
    if (now != second) {
        notes_counted();
        second = now;
        told = 0;
    }
    if (told == PER_SECOND) {
        counted++;
        return;
    }
    told++;
    length = length < sizeof text - head ? length : sizeof text - head;
    memcpy(text + head, cycle, length);
    write_line(text, head + length);
}
