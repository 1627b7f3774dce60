/* Messages to the server and rows written by hand, and messages from a client read by hand: the same bytes and places as
 * the library's, refused for the same faults. */
#ifndef BY_HAND_H
#define BY_HAND_H

#include "pg_message.h"

/* A text or a name. */
struct text {
    const uint8_t *bytes;
    size_t len;
};

ptrdiff_t hand_no_body(uint8_t tag, uint8_t *out, size_t out_len);
ptrdiff_t hand_query(struct text query, uint8_t *out, size_t out_len);
ptrdiff_t hand_copy_data(struct text data, uint8_t *out, size_t out_len);
ptrdiff_t hand_parse(struct text statement, struct text query, const uint32_t *types, size_t types_len, uint8_t *out,
                     size_t out_len);
ptrdiff_t hand_bind(struct text portal, struct text statement, const uint16_t *formats, size_t formats_len,
                    const pgmsg_value *values, size_t values_len, const uint16_t *results, size_t results_len,
                    uint8_t *out, size_t out_len);
ptrdiff_t hand_execute(struct text portal, uint32_t limit, uint8_t *out, size_t out_len);
ptrdiff_t hand_row(const pgmsg_value *values, size_t values_len, uint8_t *out, size_t out_len);

ptrdiff_t hand_read_bind(const uint8_t *body, size_t body_len, pgmsg_cell *values, size_t values_len, pgmsg_bind *bind);
int32_t hand_read_parse(const uint8_t *body, size_t body_len, pgmsg_parse *parse);
int32_t hand_read_execute(const uint8_t *body, size_t body_len, pgmsg_execute *execute);

#endif
