/* The calls of a library, of which there are two: each is linked with a copy of side.c. */
#ifndef SIDE_H
#define SIDE_H

#include "pg_message.h"

struct inputs;

/* Where the fields of a type are. */
struct layout {
    size_t count;
    struct {
        size_t at, size;
    } places[40];
};

struct read_call {
    const char *name;
    ptrdiff_t (*read)(const uint8_t *body, size_t len, pgmsg_fault *fault);
};

struct write_call {
    const char *name;
    ptrdiff_t (*put)(const struct inputs *in, uint8_t *out, size_t out_len);
};

struct side {
    const struct read_call *reads;
    size_t reads_len;
    const struct write_call *writes;
    size_t writes_len;
};

extern const struct side proved_side, plain_side;

/* Room for what a call gives, which is compared after it. */
void *room_of(size_t size, size_t count, const struct layout *layout);

#endif
