/* Bytes that wait: added at the end, and taken off at the front. */
#ifndef PASHKURE_BUFFER_H
#define PASHKURE_BUFFER_H

#include <stdbool.h>
#include <stddef.h>

struct buffer {
    char *data;
    size_t start, end, room; /* what waits is data[start] to data[end - 1] */
};

/* Says how many bytes wait. */
static inline size_t buffer_length(const struct buffer *buffer)
{
    return buffer->end - buffer->start;
}

/* Gives the first of them. */
static inline char *buffer_bytes(const struct buffer *buffer)
{
    return buffer->data + buffer->start;
}

/* Adds bytes. Returns false if memory is refused, and then has added nothing. */
bool buffer_add(struct buffer *buffer, const void *bytes, size_t count);

/* Takes the first bytes off. Gives memory back if there is much and most of it is not needed any more. */
void buffer_drop(struct buffer *buffer, size_t count);

/* Takes all off, and gives the memory back. */
void buffer_clear(struct buffer *buffer);

#endif
