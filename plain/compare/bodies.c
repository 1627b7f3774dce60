/* Bodies to be read. */
#include "bodies.h"

#include "random.h"

#include <string.h>

enum { LONGEST = 4096, MOST_RECORDED = 4096, MOST_WRITTEN = 512, HEAD = 5 };

struct kept {
    size_t len;
    uint8_t bytes[LONGEST];
};

static struct kept recorded[MOST_RECORDED], written[MOST_WRITTEN];
static size_t recorded_len, written_len;

static uint8_t body[2 * LONGEST];

void read_recorded(FILE *file)
{
    static char line[2 * LONGEST + 2];
    while (recorded_len < MOST_RECORDED && fgets(line, sizeof line, file)) {
        struct kept *to = &recorded[recorded_len++];
        unsigned byte;
        for (const char *from = line; to->len < LONGEST && sscanf(from, "%2x", &byte) == 1; from += 2)
            to->bytes[to->len++] = (uint8_t)byte;
    }
}

void keep_written(const struct body_bytes *message)
{
    if (message->len == 0 || message->len > LONGEST)
        return;
    struct kept *to = &written[written_len < MOST_WRITTEN ? written_len++ : below(MOST_WRITTEN)];
    memcpy(to->bytes, message->bytes, message->len);
    to->len = message->len;
}

/* Adds bytes to the body, as far as there is room. */
static size_t added(size_t len, const uint8_t *bytes, size_t count)
{
    count = count < LONGEST - len ? count : LONGEST - len;
    memcpy(body + len, bytes, count);
    return len + count;
}

/* One message or some in a row, with the head of the first or without it. */
static size_t from_written(void)
{
    size_t len = 0, count = below(2) ? 1 : 1 + below(4), head = below(2) ? HEAD : 0;
    for (size_t i = 0; i < count && written_len; i++) {
        const struct kept *from = &written[below(written_len)];
        size_t left_out = head < from->len ? head : from->len;
        len = added(len, from->bytes + left_out, from->len - left_out);
        head = 0;
    }
    return len;
}

static size_t from_nothing(void)
{
    size_t len = below(64);
    for (size_t i = 0; i < len; i++)
        body[i] = (uint8_t)(below(2) ? below(256) : below(4));
    return len;
}

/* A number in place of as many bytes. */
static void put_number(size_t len)
{
    size_t size = below(2) ? 2 : 4;
    if (len < size)
        return;
    uint64_t number = below(2) ? any_number() : (uint64_t)0 - below(3);
    uint8_t *at = body + below(len - size + 1);
    for (size_t i = 0; i < size; i++)
        at[i] = (uint8_t)(number >> 8 * (size - 1 - i));
}

/* Changes the body in one place, and gives its length. */
static size_t changed(size_t len)
{
    size_t at = below(len + 1), count;
    switch (below(4)) {
    case 0:
        return at;
    case 1:
        put_number(len);
        return len;
    case 2:
        count = below(9) < len - at ? below(9) % (len - at + 1) : len - at;
        memmove(body + at, body + at + count, len - at - count);
        return len - count;
    default:
        if (len)
            body[below(len)] = (uint8_t)(below(2) ? below(256) : below(2) * 255);
        return len;
    }
}

struct body_bytes next_body(void)
{
    size_t len, kind = below(8);
    if (kind == 0) {
        len = from_nothing();
    } else if (kind < 3 && recorded_len) {
        const struct kept *from = &recorded[below(recorded_len)];
        len = added(0, from->bytes, from->len);
    } else {
        len = from_written();
    }
    for (size_t changes = below(4); changes > 0; changes--)
        len = changed(len);
    return (struct body_bytes){body, len};
}
