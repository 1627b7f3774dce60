/* The words of numbers; the number, the offset and the words of each fault of bytes that are read, and what a refusal
 * leaves alone. */
#include "bytes_test_read.h"
#include "readers.h"

#include <stdio.h>

/* More room than a thing needs, and for more items than any of these bodies has. */
enum { MOST_BYTES = 512, MOST_ROOM = 8 };

/* Where things and items are, each at the end, and how many items there is room for. */
static _Alignas(max_align_t) uint8_t ones[MOST_BYTES], items[MOST_BYTES], seconds[MOST_ROOM];
static size_t room;

void *room_for_one(size_t size)
{
    return ones + sizeof ones - size;
}

void *room_for_items(size_t size)
{
    return items + sizeof items - room * size;
}

uint8_t *room_for_bytes(void)
{
    return seconds + sizeof seconds - room;
}

size_t items_room(void)
{
    return room;
}

static const char notice_not_utf8[] =
    "Postgres returned a non-UTF-8 string for its error message. This is most likely due to an error that occurred "
    "during authentication and the default lc_messages locale is not binary-compatible with UTF-8. See the server logs "
    "for the error details.";

/* What a call answers of a body: with words it refuses, and has this number, place and words in its fault. */
static const struct {
    struct body body;
    ptrdiff_t answer;
    size_t at;
    const char *words;
} answers[] = {
    {BODY(frame, "Z\0\0\0\3"), PGMSG_BAD_LENGTH, 0, "bad message length: 3"},
    {BODY(frame, "1\377\377\377\377"), PGMSG_BAD_LENGTH, 0, "bad message length: -1"},
    {BODY(ready, "Q"), PGMSG_UNKNOWN_STATUS, 0, "unknown transaction status: 81"},
    {BODY(key_data, "\0\0\x27\xc6\x89\x52"), PGMSG_BAD_KEY_LENGTH, 0, "secret key length out of range for protocol: 2"},
    {BODY(command_complete, "BEGIN"), PGMSG_MISSING_NUL, 0, "expected NUL after offset 0"},
    {BODY(function_result, "\0\0\0\3ab"), PGMSG_SHORT, 4, "expected 3 bytes at offset 4, got 2"},
    {BODY(negotiation, "\0\3\0"), PGMSG_SHORT, 0, "expected 4 bytes at offset 0, got 3"},
    {BODY(negotiation, "\0\3\0\2" "\0\0\0\1" "a"), PGMSG_MISSING_NUL, 8, "expected NUL after offset 8"},
    {BODY(row, "\0\1\0\0\0\5ab"), PGMSG_SHORT, 6, "expected 5 bytes at offset 6, got 2"},
    {BODY(parameter_types, "\0\1\0\0"), PGMSG_SHORT, 2, "expected 4 bytes at offset 2, got 2"},
    {BODY(copy_response, "\0\0\1"), PGMSG_SHORT, 3, "expected 2 bytes at offset 3, got 0"},
    {BODY(columns, "\377\377"), PGMSG_SHORT, 2, "expected 1245165 bytes at offset 2, got 0"},
    {BODY(notification, "\0\0\0\1a\0b"), PGMSG_MISSING_NUL, 6, "expected NUL after offset 6"},
    {BODY(parameter_status, "a\0b"), PGMSG_MISSING_NUL, 2, "expected NUL after offset 2"},
    {BODY(severity, "VFOO\0\0"), PGMSG_UNKNOWN_SEVERITY, 0, "unknown severity"},
    {BODY(severity, "M\377\0\0"), PGMSG_NOTICE_NOT_UTF8, 0, notice_not_utf8},
    {BODY(authentication, "\0\0"), PGMSG_SHORT, 0, "expected 4 bytes at offset 0, got 2"},
    {BODY(challenge, "\0\0\0\x0cv="), PGMSG_UNKNOWN_AUTHENTICATION, 0, "unknown authentication method: 12"},
    {BODY(verifier, "\0\0\0\x0br="), PGMSG_UNKNOWN_AUTHENTICATION, 0, "unknown authentication method: 11"},
    {BODY(challenge, "\0\0\0\x0br"), PGMSG_SHORT_SASL_ITEM, 0, "SASL item of fewer than two bytes"},
    {BODY(challenge, "\0\0\0\x0bs=*"), PGMSG_BASE64, 0, "SASL value is not base64"},
    {BODY(verifier, "\0\0\0\x0cv=*"), PGMSG_BASE64, 0, "SASL value is not base64"},
    {BODY(verifier, "\0\0\0\0" "\0\0\0\0"), PGMSG_UNKNOWN_AUTHENTICATION, 0, "unknown authentication method: 0"},
    {BODY(verifier, "\0\0\0\3" "\0\0\0\0"), PGMSG_UNKNOWN_AUTHENTICATION, 0, "unknown authentication method: 3"},
    {BODY(verifier, "\0\0\0\5" "\0\0\0\0"), PGMSG_UNKNOWN_AUTHENTICATION, 0, "unknown authentication method: 5"},
    {BODY(verifier, "\0\0\0\12" "\0\0\0\0"), PGMSG_UNKNOWN_AUTHENTICATION, 0, "unknown authentication method: 10"},
    {BODY(frontend_frame, "Z\0\0\0\4"), PGMSG_UNKNOWN_MESSAGE_TYPE, 0, "unknown message type: 90"},
    {BODY(frontend_frame, "\377\0\0\0\3"), PGMSG_UNKNOWN_MESSAGE_TYPE, 0, "unknown message type: 255"},
    {BODY(frontend_frame, "S\0\0\0\3"), PGMSG_BAD_LENGTH, 0, "bad message length: 3"},
    {BODY(frontend_frame, "S\200\0\0\0"), PGMSG_BAD_LENGTH, 0, "bad message length: -2147483648"},
    {BODY(first, "\0\3\0"), PGMSG_SHORT, 0, "expected 4 bytes at offset 0, got 3"},
    {BODY(first, "\0\2\0\0"), PGMSG_UNKNOWN_CODE, 0, "unknown code: 131072"},
    {BODY(first, "\377\377\377\377"), PGMSG_UNKNOWN_CODE, 0, "unknown code: 4294967295"},
    {BODY(first, "\0\3\0\0"), PGMSG_MISSING_NUL, 4, "expected NUL after offset 4"},
    {BODY(first, "\0\3\0\0" "a\0b"), PGMSG_MISSING_NUL, 6, "expected NUL after offset 6"},
    {BODY(first, "\0\3\0\0" "a\0b\0"), PGMSG_MISSING_NUL, 8, "expected NUL after offset 8"},
    {BODY(first, "\0\3\0\0" "\0" "\0"), PGMSG_TRAILING_BYTES, 5, "expected the end of the message at offset 5"},
    {BODY(first, "\4\322\26\57" "\0"), PGMSG_TRAILING_BYTES, 4, "expected the end of the message at offset 4"},
    {BODY(first, "\4\322\26\60" "\0"), PGMSG_TRAILING_BYTES, 4, "expected the end of the message at offset 4"},
    {BODY(first, "\4\322\26\56" "\0\0\0"), PGMSG_SHORT, 4, "expected 4 bytes at offset 4, got 3"},
    {BODY(first, "\4\322\26\56" "\0\0\0\1"), PGMSG_BAD_KEY_LENGTH, 0, "bad secret key length: 0"},
    {BODY(first, "\4\322\26\56" "\0\0\0\1" "\1\2\3"), PGMSG_BAD_KEY_LENGTH, 0, "bad secret key length: 3"},
    {BODY(parse, "s\0a"), PGMSG_MISSING_NUL, 2, "expected NUL after offset 2"},
    {BODY(parse, "\0\0" "\0\2" "\0\0\0\1" "\0"), PGMSG_SHORT, 4, "expected 8 bytes at offset 4, got 5"},
    {BODY(parse, "\0\0\0"), PGMSG_SHORT, 2, "expected 2 bytes at offset 2, got 1"},
    {BODY(parse, "\0\0" "\0\0" "\0"), PGMSG_TRAILING_BYTES, 4, "expected the end of the message at offset 4"},
    {BODY(target, ""), PGMSG_SHORT, 0, "expected 1 bytes at offset 0, got 0"},
    {BODY(target, "sx\0"), PGMSG_UNKNOWN_TARGET, 0, "neither a statement nor a portal: 115"},
    {BODY(target, "Sa"), PGMSG_MISSING_NUL, 1, "expected NUL after offset 1"},
    {BODY(target, "P\0a"), PGMSG_TRAILING_BYTES, 2, "expected the end of the message at offset 2"},
    {BODY(execute, "\0" "\0\0"), PGMSG_SHORT, 1, "expected 4 bytes at offset 1, got 2"},
    {BODY(execute, "p1"), PGMSG_MISSING_NUL, 0, "expected NUL after offset 0"},
    {BODY(execute, "\0" "\0\0\0\1" "\0"), PGMSG_TRAILING_BYTES, 5, "expected the end of the message at offset 5"},
    {BODY(text, "a"), PGMSG_MISSING_NUL, 0, "expected NUL after offset 0"},
    {BODY(text, "a\0b\0"), PGMSG_TRAILING_BYTES, 2, "expected the end of the message at offset 2"},
    {BODY(no_body, "\0"), PGMSG_TRAILING_BYTES, 0, "expected the end of the message at offset 0"},
    {BODY(sasl_initial, "A\0" "\377\377\377\376"), PGMSG_BAD_VALUE_LENGTH, 2, "bad value length at offset 2: -2"},
    {BODY(sasl_initial, "A\0" "\0\0\0\4" "abc"), PGMSG_SHORT, 6, "expected 4 bytes at offset 6, got 3"},
    {BODY(sasl_initial, "A\0" "\377\377\377\377" "a"),
     PGMSG_TRAILING_BYTES, 6, "expected the end of the message at offset 6"},
    {BODY(bind, "p\0s"), PGMSG_MISSING_NUL, 2, "expected NUL after offset 2"},
    {BODY(bind, "\0\0" "\377\377"), PGMSG_SHORT, 4, "expected 131070 bytes at offset 4, got 0"},
    {BODY(bind, "\0\0" "\0\0" "\377\377"), PGMSG_SHORT, 6, "expected 4 bytes at offset 6, got 0"},
    {BODY(bind, "\0\0" "\0\0" "\0\2" "\377\377\377\377" "\0\0\0\2" "a"),
     PGMSG_SHORT, 14, "expected 2 bytes at offset 14, got 1"},
    {BODY(bind, "\0\0" "\0\0" "\0\1" "\177\377\377\377"), PGMSG_SHORT, 10, "expected 2147483647 bytes at offset 10, got 0"},
    {BODY(bind, "\0\0" "\0\0" "\0\1" "\377\377\377\376"), PGMSG_BAD_VALUE_LENGTH, 6, "bad value length at offset 6: -2"},
    {BODY(bind, "\0\0" "\0\0" "\0\1" "\377\377\377\376" "\0\0"),
     PGMSG_BAD_VALUE_LENGTH, 6, "bad value length at offset 6: -2"},
    {BODY(bind, "\0\0" "\0\0" "\0\1" "\377\377\377\377" "\0"), PGMSG_SHORT, 10, "expected 2 bytes at offset 10, got 1"},
    {BODY(bind, "\0\0" "\0\0" "\0\0" "\0\2" "\0\0"), PGMSG_SHORT, 8, "expected 4 bytes at offset 8, got 2"},
    {BODY(bind, "\0\0" "\0\0" "\0\0" "\0\0" "\0"), PGMSG_TRAILING_BYTES, 8, "expected the end of the message at offset 8"},
    {BODY(function_call, "\0\0"), PGMSG_SHORT, 0, "expected 4 bytes at offset 0, got 2"},
    {BODY(function_call, "\0\0\0\1" "\0\0" "\0\2" "\0\0\0\0" "\200\0\0\0"),
     PGMSG_BAD_VALUE_LENGTH, 12, "bad value length at offset 12: -2147483648"},
    {BODY(function_call, "\0\0\0\1" "\0\0" "\0\1" "\0\0\0\2" "a"), PGMSG_SHORT, 12, "expected 2 bytes at offset 12, got 1"},
    {BODY(function_call, "\0\0\0\1" "\0\0" "\0\0"), PGMSG_SHORT, 8, "expected 2 bytes at offset 8, got 0"},
    {BODY(function_call, "\0\0\0\1" "\0\0" "\0\0" "\0\1" "\0"),
     PGMSG_TRAILING_BYTES, 10, "expected the end of the message at offset 10"},
    {BODY(frontend_frame, "S\0\0\0\0"), PGMSG_BAD_LENGTH, 0, "bad message length: 0"},
    {BODY(parse, "s\0q\0" "\0\0" "\0"), PGMSG_TRAILING_BYTES, 6, "expected the end of the message at offset 6"},
    {BODY(target, "Ss\0" "\0"), PGMSG_TRAILING_BYTES, 3, "expected the end of the message at offset 3"},
    {BODY(execute, "p\0" "\0\0\0\1" "\0"), PGMSG_TRAILING_BYTES, 6, "expected the end of the message at offset 6"},
    {BODY(text, "q\0\0"), PGMSG_TRAILING_BYTES, 2, "expected the end of the message at offset 2"},
    {BODY(sasl_initial, "A\0" "\0\0\0\0" "\0"), PGMSG_TRAILING_BYTES, 6, "expected the end of the message at offset 6"},
    {BODY(logical, "X"), PGMSG_UNKNOWN_MESSAGE_TYPE, 0, "unknown message type: 88"},
    {BODY(logical, ""), PGMSG_SHORT, 0, "expected 1 bytes at offset 0, got 0"},
    {BODY(logical, "B\0\0\0\0\1\0\0(\0\0\0"), PGMSG_SHORT, 9, "expected 8 bytes at offset 9, got 3"},
    {BODY(logical, "O\0\0\0\0\1\0\0(far"), PGMSG_MISSING_NUL, 9, "expected NUL after offset 9"},
    {BODY(logical, "E\0"), PGMSG_TRAILING_BYTES, 1, "expected the end of the message at offset 1"},
    {BODY(logical, "D\0\0@\5N\0\0"), PGMSG_UNKNOWN_LETTER, 0, "unknown letter: 78"},
    {BODY(logical, "I\0\0@\5K\0\0"), PGMSG_UNKNOWN_LETTER, 0, "unknown letter: 75"},
    {BODY(logical, "U\0\0@\5X\0\0"), PGMSG_UNKNOWN_LETTER, 0, "unknown letter: 88"},
    {BODY(logical, "I\0\0@\5N\0\1x"), PGMSG_UNKNOWN_LETTER, 0, "unknown letter: 120"},
    {BODY(logical, "I\0\0@\5N\0\1t\0\0\0\ta"), PGMSG_SHORT, 13, "expected 9 bytes at offset 13, got 1"},
    {BODY(logical, "T\0\0\0\2\0\0\0@\5\0"), PGMSG_SHORT, 10, "expected 4 bytes at offset 10, got 1"},
    {BODY(logical_streamed, "I\0\0@\5N\0\0"), PGMSG_SHORT, 5, "expected 4 bytes at offset 5, got 3"},
    {BODY(replication, "Z"), PGMSG_UNKNOWN_MESSAGE_TYPE, 0, "unknown message type: 90"},
    {BODY(replication, ""), PGMSG_SHORT, 0, "expected 1 bytes at offset 0, got 0"},
    {BODY(replication, "w" "\0\0\0\0\0\0\0\1" "\0\0"), PGMSG_SHORT, 9, "expected 8 bytes at offset 9, got 2"},
    {BODY(replication, "n" "a\0" "b"), PGMSG_MISSING_NUL, 3, "expected NUL after offset 3"},
    {BODY(replication, "m\0"), PGMSG_TRAILING_BYTES, 1, "expected the end of the message at offset 1"},
    {BODY(ready, "I"), 'I', 0, NULL},
    {BODY(frontend_frame, "S\0\0\0\4"), 1, 0, NULL},
    {BODY(frontend_frame, "S\0\0"), 0, 0, NULL},
    {BODY(first, "\0\3\0\0" "a\0b\0" "\0"), 0, 0, NULL},
    {BODY(first, "\4\322\26\56" "\0\0\0\1" "abcd"), 0, 0, NULL},
    {BODY(first, "\4\322\26\57"), 0, 0, NULL},
    {BODY(parse, "s\0q\0" "\0\1" "\0\0\0\27"), 0, 0, NULL},
    {BODY(target, "Ss\0"), 0, 0, NULL},
    {BODY(execute, "p\0" "\0\0\0\1"), 0, 0, NULL},
    {BODY(text, "q\0"), 0, 0, NULL},
    {BODY(no_body, ""), 0, 0, NULL},
    {BODY(sasl_initial, "A\0" "\0\0\0\1" "a"), 0, 0, NULL},
    {BODY(bind, "\0\0" "\0\0" "\0\1" "\0\0\0\0" "\0\0"), 1, 0, NULL},
    {BODY(function_call, "\0\0\0\1" "\0\0" "\0\1" "\0\0\0\0" "\0\0"), 1, 0, NULL},
};

/* Has each body read into every room, one of no bytes at NULL. A refusal leaves alone what it is to fill, and a success its
 * fault. */
static void test_bodies(struct tally *tally)
{
    for (size_t i = 0; i < sizeof answers / sizeof *answers; i++) {
        const struct body *body = &answers[i].body;
        const uint8_t *bytes = body->len > 0 ? (const uint8_t *)body->bytes : NULL;
        unsigned failed = tally->failed;
        for (room = 0; room <= MOST_ROOM; room++) {
            pgmsg_fault fault;
            memset(&fault, UNTOUCHED, sizeof fault);
            memset(ones, UNTOUCHED, sizeof ones);
            if (answers[i].words == NULL) {
                CHECK(tally, body->read(bytes, body->len, &fault) == answers[i].answer);
                CHECK(tally, are_untouched(&fault, sizeof fault));
            } else {
                REFUSES(tally, answers[i].answer, answers[i].at, answers[i].words, body->read(bytes, body->len, &fault));
                CHECK(tally, are_untouched(ones, sizeof ones));
            }
        }
        if (tally->failed > failed)
            fprintf(stderr, "read of a %s of %zu bytes\n", body->name, body->len);
    }
}

/* The words of the numbers from -1 down, of what comes after them, and of what is no refusal. */
static void words_of_numbers(struct tally *tally)
{
    static const char *const words[] = {
        "out of memory", "too many parameter formats", "too many result formats", "too many parameter types",
        "message is too long", "message of another kind", "message body is too long", "unknown message type",
        "unknown authentication method", "unknown transaction status", "unknown severity", "message body is too short",
        "text has no NUL", "text is not UTF-8", "text of an error or a notice is not UTF-8",
        "SASL item of fewer than two bytes", "SASL value is not base64", "message length is too small", "text holds NUL",
        "values can't be counted", "secret key is too short or too long", "unknown code of a first message",
        "neither a statement nor a portal", "value length is below -1", "bytes follow the end of a message",
        "first message is too long", "more items than can be counted", "not a run of whole messages",
        "message is longer than is taken whole", "unknown letter of a row or a value",
        "the login doesn't wait for this message", "the session is over", "the data of a COPY are due", "no COPY takes data",
        "the data of this COPY can't be refused",
        "no request waits for an answer", "another request is being answered",
        "the message doesn't answer the request that waits", "requests were said behind a COPY that asks for data",
        "a Sync is due", "too many requests wait", "unknown error",
    };
    int32_t count = sizeof words / sizeof words[0];
    for (int32_t i = 0; i < count; i++)
        CHECK(tally, strcmp(pgmsg_strerror(-1 - i), words[i]) == 0);
    CHECK(tally, count == 1 - PGMSG_FLOW_FULL);
    CHECK(tally, strcmp(pgmsg_strerror(INT32_MIN), "unknown error") == 0);
    CHECK(tally, strcmp(pgmsg_strerror(0), "no error") == 0);
    CHECK(tally, strcmp(pgmsg_strerror(INT32_MAX), "no error") == 0);
    const char *build = pgmsg_version() + sizeof PGMSG_VERSION;
    CHECK(tally, strncmp(pgmsg_version(), PGMSG_VERSION " ", sizeof PGMSG_VERSION) == 0);
    CHECK(tally, strcmp(build, "proved build") == 0 || strcmp(build, "plain build") == 0);
}

/* What is refused by what is passed beside bytes: a limit, room for a frame, or a tag. */
static void words_of_arguments(struct tally *tally)
{
    static const struct {
        const char *bytes;
        size_t limit;
        int32_t number;
        const char *words;
    } firsts[] = {
        {"\0\0\0\7", PGMSG_MAX_FIRST_LENGTH, PGMSG_BAD_LENGTH, "bad message length: 7"},
        {"\377\377\377\377", 0, PGMSG_BAD_LENGTH, "bad message length: -1"},
        {"\0\0\0\0", 100, PGMSG_BAD_LENGTH, "bad message length: 0"},
        {"\0\0\1\0", 100, PGMSG_FIRST_TOO_LONG, "expected a first message of at most 100 bytes, got 256"},
        {"\0\0\0\12", 9, PGMSG_FIRST_TOO_LONG, "expected a first message of at most 9 bytes, got 10"},
        {"\0\0\47\25", PGMSG_MAX_FIRST_LENGTH, PGMSG_FIRST_TOO_LONG,
         "expected a first message of at most 10004 bytes, got 10005"},
        {"\177\377\377\377", 0, PGMSG_FIRST_TOO_LONG, "expected a first message of at most 0 bytes, got 2147483647"},
    };
    pgmsg_frame frame;
    memset(&frame, UNTOUCHED, sizeof frame);
    for (size_t i = 0; i < sizeof firsts / sizeof *firsts; i++)
        REFUSES(tally, firsts[i].number, 0, firsts[i].words,
                pgmsg_next_first_frame((const uint8_t *)firsts[i].bytes, 4, firsts[i].limit, &frame, &fault));
    CHECK(tally, are_untouched(&frame, sizeof frame));
    REFUSES(tally, PGMSG_BAD_LENGTH, 0, "bad message length: 0", pgmsg_next_frames(BYTES("!\0\0\0\0"), &frame, 1, &fault));
    REFUSES(tally, PGMSG_UNKNOWN_MESSAGE_TYPE, 0, "unknown message type: 118", pgmsg_read_end('v', BYTES(""), &fault));
}

/* Bodies that are refused before a byte of them is read. */
static void words_of_long_bodies(struct tally *tally, const uint8_t *body)
{
    static reader *const readers[] = {
        read_row, read_columns, read_parameter_types, read_copy_response, read_severity, read_notification,
        read_parameter_status, read_key_data, read_command_complete, read_function_result, read_negotiation, read_end_of_tag,
        read_ready, read_authentication, read_challenge, read_verifier, read_first, read_parse, read_target, read_execute,
        read_text, read_no_body, read_sasl_initial, read_bind, read_function_call, read_logical, read_tuple,
        read_table_columns, read_replication,
    };
    room = 1;
    for (size_t i = 0; i < sizeof readers / sizeof *readers; i++)
        REFUSES(tally, PGMSG_BODY_TOO_LONG, 0, TOO_LONG_WORDS, readers[i](body, TOO_LONG, &fault));
    REFUSES(tally, PGMSG_BODY_TOO_LONG, 0, TOO_LONG_WORDS, pgmsg_read_end('1', body, TOO_LONG, &fault));
}

/* What is not answered stays as it was. */
static void what_is_left_alone(struct tally *tally)
{
    pgmsg_fault fault;
    memset(&fault, UNTOUCHED, sizeof fault);
    pgmsg_frame frame, before;
    memset(&frame, UNTOUCHED, sizeof frame);
    memset(&before, UNTOUCHED, sizeof before);
    CHECK(tally, pgmsg_next_frame(BYTES("D\0\0\0\x0a"), &frame, &fault) == 0);
    CHECK(tally, frame.length == 11 && frame.tag == 'D');
    CHECK(tally, frame.body.at == before.body.at && frame.body.len == before.body.len);
    CHECK(tally, pgmsg_next_first_frame(BYTES("\0\0\0\10" "abcd"), 8, &frame, &fault) == 1);
    CHECK(tally, pgmsg_next_first_frame(BYTES("\0\0\0\10" "abc"), 8, &frame, &fault) == 0);
    CHECK(tally, are_untouched(&fault, sizeof fault));

    uint32_t types[2] = {7, 7};
    CHECK(tally, pgmsg_read_parameter_types(BYTES("\0\2\0\0\0\1\0"), types, 2, &fault) == PGMSG_SHORT);
    CHECK(tally, types[0] == 7 && types[1] == 7);
}

void test_faults(struct tally *tally)
{
    words_of_numbers(tally);
    test_bodies(tally);
    words_of_arguments(tally);
    with_zeros(tally, TOO_LONG, words_of_long_bodies);
    what_is_left_alone(tally);
}
