#include "buffer.h"

#include <stdlib.h>
#include <string.h>

bool buffer_make(struct buffer *buffer, size_t room)
{
    *buffer = (struct buffer){.bytes = malloc(room), .room = room};
    return buffer->bytes != NULL;
}

void buffer_free(struct buffer *buffer)
{
    free(buffer->bytes);
    *buffer = (struct buffer){0};
}

static void move_to_front(struct buffer *buffer)
{
    memmove(buffer->bytes, buffer->bytes + buffer->start, buffer->end - buffer->start);
    buffer->end -= buffer->start;
    buffer->start = 0;
}

bool buffer_reserve(struct buffer *buffer, size_t more)
{
    size_t used = buffer->end - buffer->start;
    if (buffer->room - buffer->end >= more)
        return true;
    if (more > SIZE_MAX / 2 - used)
        return false;
    if (used + more > buffer->room) {
        size_t room = buffer->room > SIZE_MAX / 2 ? SIZE_MAX : 2 * buffer->room;
        if (room < used + more)
            room = used + more;
        uint8_t *bytes = realloc(buffer->bytes, room);
        if (bytes == NULL)
            return false;
        buffer->bytes = bytes;
        buffer->room = room;
    }
    move_to_front(buffer);
    return true;
}

bool buffer_add(struct buffer *buffer, const void *bytes, size_t len)
{
    if (!buffer_reserve(buffer, len))
        return false;
    memcpy(buffer->bytes + buffer->end, bytes, len);
    buffer->end += len;
    return true;
}

bool buffer_add_text(struct buffer *buffer, const char *text)
{
    return buffer_add(buffer, text, strlen(text));
}

bool buffer_add_identifier(struct buffer *buffer, const char *text, size_t len)
{
    if (!buffer_add_text(buffer, "\""))
        return false;
    for (size_t i = 0; i < len; i++) {
        if (text[i] == '"' && !buffer_add_text(buffer, "\""))
            return false;
        if (!buffer_add(buffer, &text[i], 1))
            return false;
    }
    return buffer_add_text(buffer, "\"");
}
