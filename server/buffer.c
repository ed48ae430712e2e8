#include "buffer.h"

#include <stdlib.h>
#include <string.h>

enum {
    LEAST = 64,
    MUCH = 65536, /* bytes of memory of which none is given back before all are taken off */
};

/* Makes room for this many more bytes: by a move to the front if that costs less than it frees, or else by more memory. */
static bool makes_room(struct buffer *buffer, size_t count)
{
    size_t length = buffer_length(buffer), room = buffer->room;
    if (buffer->start >= length && length + count <= room) {
        memmove(buffer->data, buffer_bytes(buffer), length);
        buffer->start = 0;
        buffer->end = length;
        return true;
    }
    room = room < LEAST ? LEAST : room;
    while (room < buffer->end + count)
        room *= 2;
    char *data = realloc(buffer->data, room);
    if (data == NULL)
        return false;
    buffer->data = data;
    buffer->room = room;
    return true;
}

bool buffer_add(struct buffer *buffer, const void *bytes, size_t count)
{
    if (count > buffer->room - buffer->end && !makes_room(buffer, count))
        return false;
    if (count > 0)
        memcpy(buffer->data + buffer->end, bytes, count);
    buffer->end += count;
    return true;
}

/* Gives half of the memory back. */
static void shrinks(struct buffer *buffer)
{
    size_t length = buffer_length(buffer);
    memmove(buffer->data, buffer_bytes(buffer), length);
    buffer->start = 0;
    buffer->end = length;
    char *data = realloc(buffer->data, buffer->room / 2);
    if (data == NULL)
        return;
    buffer->data = data;
    buffer->room /= 2;
}

void buffer_drop(struct buffer *buffer, size_t count)
{
    buffer->start += count;
    if (buffer->start == buffer->end)
        buffer->start = buffer->end = 0;
    else if (buffer->room > MUCH && buffer_length(buffer) <= buffer->room / 4)
        shrinks(buffer);
}

void buffer_clear(struct buffer *buffer)
{
    free(buffer->data);
    *buffer = (struct buffer){0};
}
