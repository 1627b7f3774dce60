/* The calls that write, as functions of one shape: CALLS(WRITER) defines them. */
#ifndef WRITERS_H
#define WRITERS_H

#include "pg_message.h"

/* A text of n bytes, lists of n items, and a digest. */
struct inputs {
    size_t n;
    const uint8_t *text;
    const uint8_t *digest;
    const uint16_t *codes;
    const uint32_t *types;
    const pgmsg_value *values;
    const pgmsg_setting *settings;
    const pgmsg_bytes *names;
    const pgmsg_field_text *fields;
    const pgmsg_column_text *columns;
    const pgmsg_replication_text *replication;
    const pgmsg_logical_text *logical;
};

/* Each call that writes a message, by its arguments. */
#define CALLS(CALL)                                                                                                 \
    CALL(startup, ((uint16_t)number, in->settings, in->n, out, out_len))                                            \
    CALL(ssl_request, (out, out_len))                                                                               \
    CALL(gss_enc_request, (out, out_len))                                                                           \
    CALL(cancel_request, (number, in->text, in->n, out, out_len))                                                   \
    CALL(password, (in->text, in->n, out, out_len))                                                                 \
    CALL(md5_password, (in->digest, out, out_len))                                                                  \
    CALL(sasl_initial, (in->text, in->n, in->n % 2 == 1, in->text, in->n, out, out_len))                            \
    CALL(sasl_response, (in->text, in->n, out, out_len))                                                            \
    CALL(query, (in->text, in->n, out, out_len))                                                                    \
    CALL(copy_fail, (in->text, in->n, out, out_len))                                                                \
    CALL(parse, (in->text, in->n, in->text, in->n, in->types, in->n, out, out_len))                                 \
    CALL(bind, (in->text, in->n, in->text, in->n, in->codes, in->n,                                                 \
                in->values, in->n, in->codes, in->n, out, out_len))                                                 \
    CALL(describe, ("SP?"[in->n % 3], in->text, in->n, out, out_len))                                               \
    CALL(close, ("SP?"[in->n % 3], in->text, in->n, out, out_len))                                                  \
    CALL(execute, (in->text, in->n, number, out, out_len))                                                          \
    CALL(function_call, (number, in->codes, in->n, in->values, in->n, 1, out, out_len))                             \
    CALL(copy_data, (in->text, in->n, out, out_len))                                                                \
    CALL(no_body, ("123HISXcns?"[in->n % 11], out, out_len))                                                        \
    CALL(authentication, ("\0\2\3\5\6\7\10\11\13\14?"[in->n % 11], in->text, in->n, out, out_len))                 \
    CALL(authentication_sasl, (in->names, in->n, out, out_len))                                                     \
    CALL(negotiate_version, (number, in->names, in->n, out, out_len))                                               \
    CALL(backend_key_data, (number, in->text, in->n, out, out_len))                                                 \
    CALL(parameter_status, (in->text, in->n, in->text, in->n, out, out_len))                                        \
    CALL(ready, ("ITE?"[in->n % 4], out, out_len))                                                                  \
    CALL(columns, (in->columns, in->n, out, out_len))                                                               \
    CALL(row, (in->values, in->n, out, out_len))                                                                    \
    CALL(parameter_types, (in->types, in->n, out, out_len))                                                         \
    CALL(command_complete, (in->text, in->n, out, out_len))                                                         \
    CALL(copy_response, ("GHW?"[in->n % 4], -1, (const int16_t *)in->codes, in->n, out, out_len))                   \
    CALL(function_result, (in->text, in->n, in->n % 2 == 1, out, out_len))                                          \
    CALL(frame, ((uint8_t)in->n, in->text, in->n, out, out_len))                                                    \
    CALL(notice, ("EN?"[in->n % 3], in->fields, in->n, out, out_len))                                               \
    CALL(notification, (number, in->text, in->n, in->text, in->n, out, out_len))                                    \
    CALL(replication, (in->replication, out, out_len))                                                              \
    CALL(logical, (in->logical, out, out_len))

#define WRITER(name, arguments)                                                              \
    static ptrdiff_t put_##name(const struct inputs *in, uint8_t *out, size_t out_len)      \
    {                                                                                        \
        uint32_t number = (uint32_t)(in->n * in->n * in->n * 7919);                          \
        (void)number;                                                                        \
        return pgmsg_put_##name arguments;                                                   \
    }

#endif
