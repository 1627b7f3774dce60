/* The calls that read, as functions of one shape, into the room that the test beside them gives. */
#ifndef READERS_H
#define READERS_H

#include "pg_message.h"

/* Room for one thing, for as many items as there is room for now, and for as many bytes. */
#define ONE(type) (type *)room_for_one(sizeof(type))
#define ITEMS(type) (type *)room_for_items(sizeof(type)), items_room()
#define SECOND room_for_bytes(), items_room()

void *room_for_one(size_t size);
void *room_for_items(size_t size);
uint8_t *room_for_bytes(void);
size_t items_room(void);

/* Reads a body or a stream. */
typedef ptrdiff_t reader(const uint8_t *body, size_t len, pgmsg_fault *fault);

/* A body, and the call that reads it. */
struct body {
    const char *name;
    reader *read;
    const char *bytes;
    size_t len;
};

#define BODY(name, literal) {#name, read_##name, literal, sizeof(literal) - 1}

/* Each call: of messages from the server, of those from a client, and of a stream that is passed on. */
#define READS(CALL)                                                                                                \
    CALL(frame, pgmsg_next_frame(body, len, ONE(pgmsg_frame), fault))                                              \
    CALL(frames, pgmsg_next_frames(body, len, ITEMS(pgmsg_frame), fault))                                          \
    CALL(row, pgmsg_read_row(body, len, ITEMS(pgmsg_cell), fault))                                                 \
    CALL(columns, pgmsg_read_columns(body, len, ITEMS(pgmsg_column), fault))                                       \
    CALL(parameter_types, pgmsg_read_parameter_types(body, len, ITEMS(uint32_t), fault))                           \
    CALL(fields, (ptrdiff_t)pgmsg_read_fields(body, len, ITEMS(pgmsg_field)))                                      \
    CALL(severity, pgmsg_read_severity(body, len, fault))                                                          \
    CALL(notification, pgmsg_read_notification(body, len, ONE(pgmsg_notification), fault))                         \
    CALL(parameter_status, pgmsg_read_parameter_status(body, len, ONE(pgmsg_parameter_status), fault))             \
    CALL(key_data, pgmsg_read_key_data(body, len, ONE(pgmsg_key_data), fault))                                     \
    CALL(end_of_request, pgmsg_read_end('R', body, len, fault))                                                    \
    CALL(end_of_tag, pgmsg_read_end('C', body, len, fault))                                                        \
    CALL(end_of_codes, pgmsg_read_end('G', body, len, fault))                                                      \
    CALL(end_of_row, pgmsg_read_end('D', body, len, fault))                                                        \
    CALL(end_of_fields, pgmsg_read_end('E', body, len, fault))                                                     \
    CALL(end_of_notification, pgmsg_read_end('A', body, len, fault))                                               \
    CALL(end_of_types, pgmsg_read_end('t', body, len, fault))                                                      \
    CALL(end_of_columns, pgmsg_read_end('T', body, len, fault))                                                    \
    CALL(command_complete, pgmsg_read_command_complete(body, len, ONE(pgmsg_command), fault))                      \
    CALL(function_result, pgmsg_read_function_result(body, len, ONE(pgmsg_cell), fault))                           \
    CALL(negotiation, pgmsg_read_negotiate_version(body, len, ONE(pgmsg_negotiation), ITEMS(pgmsg_span), fault))   \
    CALL(ready, pgmsg_read_ready(body, len, fault))                                                                \
    CALL(replication, pgmsg_read_replication(body, len, ONE(pgmsg_replication), fault))                            \
    CALL(logical, pgmsg_read_logical(body, len, outside(), ITEMS(pgmsg_datum), ONE(pgmsg_logical), fault))         \
    CALL(logical_streamed, pgmsg_read_logical(body, len, within(), ITEMS(pgmsg_datum), ONE(pgmsg_logical), fault)) \
    CALL(tuple, pgmsg_read_tuple(body, len, three_values, ITEMS(pgmsg_datum), fault))                              \
    CALL(table_columns, pgmsg_read_table_columns(body, len, two_columns, ITEMS(pgmsg_table_column), fault))        \
    CALL(copy_response, pgmsg_read_copy_response(body, len, ONE(pgmsg_copy_response), ITEMS(int16_t), fault))      \
    CALL(authentication, pgmsg_read_authentication(body, len, ONE(pgmsg_authentication), fault))                   \
    CALL(mechanisms, (ptrdiff_t)pgmsg_read_mechanisms(body, len, ITEMS(pgmsg_span)))                               \
    CALL(challenge, pgmsg_read_challenge(body, len, ONE(pgmsg_challenge), ITEMS(uint8_t), SECOND, fault))          \
    CALL(verifier, pgmsg_read_verifier(body, len, ITEMS(uint8_t), fault))                                          \
    CALL(first_frame, pgmsg_next_first_frame(body, len, LIMIT, ONE(pgmsg_frame), fault))                           \
    CALL(frontend_frame, pgmsg_next_frontend_frame(body, len, ONE(pgmsg_frame), fault))                            \
    CALL(first, pgmsg_read_first(body, len, ONE(pgmsg_first), fault))                                              \
    CALL(parse, pgmsg_read_parse(body, len, ONE(pgmsg_parse), fault))                                              \
    CALL(target, pgmsg_read_target(body, len, ONE(pgmsg_target), fault))                                           \
    CALL(execute, pgmsg_read_execute(body, len, ONE(pgmsg_execute), fault))                                        \
    CALL(text, pgmsg_read_text(body, len, ONE(pgmsg_span), fault))                                                 \
    CALL(no_body, pgmsg_read_no_body(body, len, fault))                                                            \
    CALL(sasl_initial, pgmsg_read_sasl_initial(body, len, ONE(pgmsg_sasl_initial), fault))                         \
    CALL(bind, pgmsg_read_bind(body, len, ITEMS(pgmsg_cell), ONE(pgmsg_bind), fault))                              \
    CALL(function_call, pgmsg_read_function_call(body, len, ITEMS(pgmsg_cell), ONE(pgmsg_function_call), fault))   \
    CALL(codes, (ptrdiff_t)pgmsg_read_codes(body, len, list_of(body, len), ITEMS(uint16_t)))                       \
    CALL(types, (ptrdiff_t)pgmsg_read_types(body, len, list_of(body, len), ITEMS(uint32_t)))                       \
    CALL(settings, (ptrdiff_t)pgmsg_read_settings(body, len, ITEMS(pgmsg_parameter_status)))                       \
    CALL(relay_first, relayed(true, 0, body, len, fault))                                                          \
    CALL(relay_tagged, relayed(false, 0, body, len, fault))                                                        \
    CALL(relay_part, relayed(false, 3, body, len, fault))                                                          \
    CALL(check_first, checked(true, body, len, fault))                                                             \
    CALL(check_tagged, checked(false, body, len, fault))

#define READER(name, call) reader read_##name;

READS(READER)

#endif
