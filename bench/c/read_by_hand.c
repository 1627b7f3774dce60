/* Messages from a client, read by hand. */
#include "by_hand.h"

#include <stdbool.h>
#include <string.h>

static const size_t MOST_BODY = 2147483643;

/* A body, and how far it is read. */
struct body {
    const uint8_t *bytes;
    size_t len;
    size_t at;
};

static bool has(const struct body *body, size_t count)
{
    return body->len - body->at >= count;
}

static size_t take_u16(struct body *body)
{
    const uint8_t *at = body->bytes + body->at;
    body->at += 2;
    return (size_t)at[0] << 8 | at[1];
}

static uint32_t take_u32(struct body *body)
{
    const uint8_t *at = body->bytes + body->at;
    body->at += 4;
    return (uint32_t)at[0] << 24 | (uint32_t)at[1] << 16 | (uint32_t)at[2] << 8 | at[3];
}

/* The text up to a NUL, and past it: 0, or why there is none. */
static int32_t take_text(struct body *body, pgmsg_span *text)
{
    const uint8_t *from = body->bytes + body->at;
    const uint8_t *nul = memchr(from, 0, body->len - body->at);
    if (nul == NULL)
        return PGMSG_MISSING_NUL;
    *text = (pgmsg_span){body->at, (size_t)(nul - from)};
    body->at += text->len + 1;
    return 0;
}

/* Items of one size after their count: 0, or why they aren't there. */
static int32_t take_list(struct body *body, size_t size, pgmsg_list *list)
{
    if (!has(body, 2))
        return PGMSG_SHORT;
    size_t count = take_u16(body);
    if (!has(body, count * size))
        return PGMSG_SHORT;
    *list = (pgmsg_list){body->at, count};
    body->at += count * size;
    return 0;
}

/* Values after their count, as many into the array as there is room for: 0, or why they aren't there. */
static int32_t take_values(struct body *body, pgmsg_cell *values, size_t values_len, pgmsg_list *list)
{
    if (!has(body, 2))
        return PGMSG_SHORT;
    size_t count = take_u16(body);
    *list = (pgmsg_list){body->at, count};
    for (size_t i = 0; i < count; i++) {
        if (!has(body, 4))
            return PGMSG_SHORT;
        int32_t len = (int32_t)take_u32(body);
        if (len < -1)
            return PGMSG_BAD_VALUE_LENGTH;
        if (len >= 0 && !has(body, (size_t)len))
            return PGMSG_SHORT;
        if (i < values_len)
            values[i] = (pgmsg_cell){(uint32_t)body->at, len};
        body->at += len < 0 ? 0 : (size_t)len;
    }
    return 0;
}

static int32_t end_of(const struct body *body)
{
    return body->at < body->len ? PGMSG_TRAILING_BYTES : 0;
}

ptrdiff_t hand_read_bind(const uint8_t *bytes, size_t len, pgmsg_cell *values, size_t values_len, pgmsg_bind *bind)
{
    struct body body = {bytes, len, 0};
    pgmsg_bind read;
    int32_t refused;
    if (len > MOST_BODY)
        return PGMSG_BODY_TOO_LONG;
    if ((refused = take_text(&body, &read.portal)) < 0 || (refused = take_text(&body, &read.statement)) < 0
        || (refused = take_list(&body, 2, &read.formats)) < 0
        || (refused = take_values(&body, values, values_len, &read.values)) < 0
        || (refused = take_list(&body, 2, &read.result_formats)) < 0 || (refused = end_of(&body)) < 0)
        return refused;
    *bind = read;
    return (ptrdiff_t)read.values.count;
}

int32_t hand_read_parse(const uint8_t *bytes, size_t len, pgmsg_parse *parse)
{
    struct body body = {bytes, len, 0};
    pgmsg_parse read;
    int32_t refused;
    if (len > MOST_BODY)
        return PGMSG_BODY_TOO_LONG;
    if ((refused = take_text(&body, &read.statement)) < 0 || (refused = take_text(&body, &read.query)) < 0
        || (refused = take_list(&body, 4, &read.types)) < 0 || (refused = end_of(&body)) < 0)
        return refused;
    *parse = read;
    return 0;
}

int32_t hand_read_execute(const uint8_t *bytes, size_t len, pgmsg_execute *execute)
{
    struct body body = {bytes, len, 0};
    pgmsg_execute read;
    int32_t refused;
    if (len > MOST_BODY)
        return PGMSG_BODY_TOO_LONG;
    if ((refused = take_text(&body, &read.portal)) < 0)
        return refused;
    if (!has(&body, 4))
        return PGMSG_SHORT;
    read.max_rows = take_u32(&body);
    if ((refused = end_of(&body)) < 0)
        return refused;
    *execute = read;
    return 0;
}
