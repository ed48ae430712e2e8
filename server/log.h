/* What is written to standard error: one line for each thing, bytes that are no text as \xNN. A line that standard error has no room for is
   dropped, so that nobody waits for it. */
#ifndef PASHKURE_LOG_H
#define PASHKURE_LOG_H

#include <stdbool.h>
#include <stddef.h>

/* Drops what `notes` and `notes_deadlock` are told from now on. */
void log_is_quiet(void);

/* Says what went wrong. */
void says(const char *format, ...) __attribute__((format(printf, 1, 2)));

/* Says what happened. */
void notes(const char *format, ...) __attribute__((format(printf, 1, 2)));

/* Says a deadlock with its cycle, `K NAME K NAME ..`. Of more than a hundred in a second the others are counted. */
void notes_deadlock(const char *cycle, size_t length);

/* Says how many deadlocks were only counted, if any were. */
void notes_counted(void);

#endif
