/* Messages to the server, and rows, written by hand. */
#include "by_hand.h"

#include <stdbool.h>
#include <string.h>

enum { MOST_ITEMS = 65535, HEADER = 5 };

static const size_t MOST_BYTES = 2147483647;

static uint8_t *add_u16(uint8_t *to, size_t number)
{
    to[0] = (uint8_t)(number >> 8);
    to[1] = (uint8_t)number;
    return to + 2;
}

static uint8_t *add_u32(uint8_t *to, size_t number)
{
    return add_u16(add_u16(to, number >> 16), number);
}

static uint8_t *add(uint8_t *to, struct text text)
{
    memcpy(to, text.bytes, text.len);
    return to + text.len;
}

static uint8_t *add_ended(uint8_t *to, struct text text)
{
    to = add(to, text);
    *to = 0;
    return to + 1;
}

static uint8_t *add_header(uint8_t *to, char tag, size_t len)
{
    *to = (uint8_t)tag;
    return add_u32(to + 1, len + 4);
}

static bool holds_nul(struct text text)
{
    return memchr(text.bytes, 0, text.len) != NULL;
}

ptrdiff_t hand_no_body(uint8_t tag, uint8_t *out, size_t out_len)
{
    switch (tag) {
    case '1': case '2': case '3': case 'H': case 'I': case 'S': case 'X': case 'c': case 'n': case 's': break;
    default: return PGMSG_UNKNOWN_MESSAGE_TYPE;
    }
    if (out_len >= HEADER)
        add_header(out, (char)tag, 0);
    return HEADER;
}

ptrdiff_t hand_query(struct text query, uint8_t *out, size_t out_len)
{
    size_t len = query.len + 1;
    if (len > MOST_BYTES - 4)
        return PGMSG_MESSAGE_TOO_LONG;
    if (holds_nul(query))
        return PGMSG_TEXT_HOLDS_NUL;
    if (out_len >= HEADER + len)
        add_ended(add_header(out, 'Q', len), query);
    return (ptrdiff_t)(HEADER + len);
}

ptrdiff_t hand_copy_data(struct text data, uint8_t *out, size_t out_len)
{
    if (data.len > MOST_BYTES - 4)
        return PGMSG_MESSAGE_TOO_LONG;
    if (out_len >= HEADER + data.len)
        add(add_header(out, 'd', data.len), data);
    return (ptrdiff_t)(HEADER + data.len);
}

ptrdiff_t hand_parse(struct text statement, struct text query, const uint32_t *types, size_t types_len, uint8_t *out,
                     size_t out_len)
{
    if (types_len > MOST_ITEMS)
        return PGMSG_TOO_MANY_PARAM_TYPES;
    size_t len = statement.len + 1 + query.len + 1 + 2 + 4 * types_len;
    if (len > MOST_BYTES - 4)
        return PGMSG_MESSAGE_TOO_LONG;
    if (holds_nul(statement) || holds_nul(query))
        return PGMSG_TEXT_HOLDS_NUL;
    if (out_len < HEADER + len)
        return (ptrdiff_t)(HEADER + len);
    uint8_t *to = add_u16(add_ended(add_ended(add_header(out, 'P', len), statement), query), types_len);
    for (size_t i = 0; i < types_len; i++)
        to = add_u32(to, types[i]);
    return (ptrdiff_t)(HEADER + len);
}

static uint8_t *add_codes(uint8_t *to, const uint16_t *codes, size_t len)
{
    to = add_u16(to, len);
    for (size_t i = 0; i < len; i++)
        to = add_u16(to, codes[i]);
    return to;
}

static uint8_t *add_values(uint8_t *to, const pgmsg_value *values, size_t len)
{
    to = add_u16(to, len);
    for (size_t i = 0; i < len; i++) {
        struct text value = {values[i].bytes, values[i].bytes_len};
        to = values[i].is_null ? add_u32(to, UINT32_MAX) : add(add_u32(to, value.len), value);
    }
    return to;
}

ptrdiff_t hand_bind(struct text portal, struct text statement, const uint16_t *formats, size_t formats_len,
                    const pgmsg_value *values, size_t values_len, const uint16_t *results, size_t results_len,
                    uint8_t *out, size_t out_len)
{
    if (formats_len > MOST_ITEMS)
        return PGMSG_TOO_MANY_PARAM_FORMATS;
    if (results_len > MOST_ITEMS)
        return PGMSG_TOO_MANY_RESULT_FORMATS;
    if (values_len > MOST_ITEMS)
        return PGMSG_BAD_PARAMS;
    size_t len = portal.len + 1 + statement.len + 1 + 6 + 2 * (formats_len + results_len) + 4 * values_len;
    for (size_t i = 0; i < values_len; i++) {
        if (!values[i].is_null && values[i].bytes_len > MOST_BYTES)
            return PGMSG_MESSAGE_TOO_LONG;
        len += values[i].is_null ? 0 : values[i].bytes_len;
    }
    if (len > MOST_BYTES - 4)
        return PGMSG_MESSAGE_TOO_LONG;
    if (holds_nul(portal) || holds_nul(statement))
        return PGMSG_TEXT_HOLDS_NUL;
    if (out_len < HEADER + len)
        return (ptrdiff_t)(HEADER + len);
    uint8_t *to = add_codes(add_ended(add_ended(add_header(out, 'B', len), portal), statement), formats, formats_len);
    add_codes(add_values(to, values, values_len), results, results_len);
    return (ptrdiff_t)(HEADER + len);
}

ptrdiff_t hand_execute(struct text portal, uint32_t limit, uint8_t *out, size_t out_len)
{
    size_t len = portal.len + 1 + 4;
    if (len > MOST_BYTES - 4)
        return PGMSG_MESSAGE_TOO_LONG;
    if (holds_nul(portal))
        return PGMSG_TEXT_HOLDS_NUL;
    if (out_len >= HEADER + len)
        add_u32(add_ended(add_header(out, 'E', len), portal), limit);
    return (ptrdiff_t)(HEADER + len);
}

ptrdiff_t hand_row(const pgmsg_value *values, size_t values_len, uint8_t *out, size_t out_len)
{
    if (values_len > MOST_ITEMS)
        return PGMSG_TOO_MANY;
    size_t len = 2 + 4 * values_len;
    for (size_t i = 0; i < values_len; i++) {
        if (!values[i].is_null && values[i].bytes_len > MOST_BYTES)
            return PGMSG_MESSAGE_TOO_LONG;
        len += values[i].is_null ? 0 : values[i].bytes_len;
    }
    if (len > MOST_BYTES - 4)
        return PGMSG_MESSAGE_TOO_LONG;
    if (out_len >= HEADER + len)
        add_values(add_header(out, 'D', len), values, values_len);
    return (ptrdiff_t)(HEADER + len);
}
