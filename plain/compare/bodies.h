/* Bodies to be read: random ones, those that were recorded or written, and those with changes. */
#ifndef BODIES_H
#define BODIES_H

#include <stddef.h>
#include <stdint.h>
#include <stdio.h>

struct body_bytes {
    const uint8_t *bytes;
    size_t len;
};

/* Keeps the bodies of a file, of which each is a line of hexadecimal digits. */
void read_recorded(FILE *file);

/* Keeps a message that was written, in place of an older one, if it isn't long. */
void keep_written(const struct body_bytes *message);

/* A body that stays until the next. */
struct body_bytes next_body(void);

#endif
