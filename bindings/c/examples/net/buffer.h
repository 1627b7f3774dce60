/* Bytes in memory that grows. */
#ifndef BUFFER_H
#define BUFFER_H

#include <stdbool.h>
#include <stddef.h>
#include <stdint.h>

/* The bytes from `start` to `end`, in memory for `room` of them. `bytes` is never NULL. */
struct buffer {
    uint8_t *bytes;
    size_t start;
    size_t end;
    size_t room;
};

/* An empty buffer with room for so many bytes, at least one. False where there is no memory. */
bool buffer_make(struct buffer *buffer, size_t room);
void buffer_free(struct buffer *buffer);

/* Makes room for so many bytes more after the end, and may move the bytes to the front for it. False
 * where there is no memory; the buffer is as it was then. */
bool buffer_reserve(struct buffer *buffer, size_t more);

/* Adds bytes at the end. False as above. */
bool buffer_add(struct buffer *buffer, const void *bytes, size_t len);

/* Adds a text at the end, without its NUL. False as above. */
bool buffer_add_text(struct buffer *buffer, const char *text);

/* Adds the first `len` bytes of a text as an identifier of SQL: quoted, with each quote in it twice. */
bool buffer_add_identifier(struct buffer *buffer, const char *text, size_t len);

#endif
