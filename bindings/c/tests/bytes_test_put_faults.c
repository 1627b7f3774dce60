/* Messages to the server that are refused. */
#include "bytes_test_put.h"

enum { ROOM = 64, TOO_MANY = 65536 };

static const uint16_t no_code[1];
static const pgmsg_value no_value = {(const uint8_t *)"", 0, true};
static const uint32_t no_type[1];

/* A setting of two constant texts. */
#define SETTING(name, value)                                                        \
    {(const uint8_t *)(name), sizeof(name) - 1, (const uint8_t *)(value), sizeof(value) - 1}

/* Settings that a server would read as others. */
static void refuse_settings(struct tally *tally)
{
    static const pgmsg_setting name[] = {SETTING("user", "a"), SETTING("b\0c", "d")};
    static const pgmsg_setting value[] = {SETTING("user", "a\0b"), SETTING("c", "d")};
    static const pgmsg_setting last[] = {SETTING("user", "a\0")};
    static const pgmsg_setting unnamed[] = {SETTING("user", "a"), SETTING("", "b")};
    static const pgmsg_setting empty[] = {SETTING("", "")};
    REFUSES(tally, PGMSG_TEXT_HOLDS_NUL, pgmsg_put_startup(0, name, 2, out, ROOM));
    REFUSES(tally, PGMSG_TEXT_HOLDS_NUL, pgmsg_put_startup(0, value, 2, out, ROOM));
    REFUSES(tally, PGMSG_TEXT_HOLDS_NUL, pgmsg_put_startup(0, last, 1, out, ROOM));
    REFUSES(tally, PGMSG_TEXT_HOLDS_NUL, pgmsg_put_startup(0, unnamed, 2, out, ROOM));
    REFUSES(tally, PGMSG_TEXT_HOLDS_NUL, pgmsg_put_startup(0, empty, 1, out, ROOM));
}

/* Texts that no reader would get back. */
static void refuse_texts(struct tally *tally)
{
    REFUSES_NUL(tally, pgmsg_put_password(text, len, out, ROOM));
    REFUSES_NUL(tally, pgmsg_put_sasl_initial(text, len, true, BYTES("r"), out, ROOM));
    REFUSES_NUL(tally, pgmsg_put_sasl_initial(text, len, false, BYTES(""), out, ROOM));
    REFUSES_NUL(tally, pgmsg_put_query(text, len, out, ROOM));
    REFUSES_NUL(tally, pgmsg_put_copy_fail(text, len, out, ROOM));
    REFUSES_NUL(tally, pgmsg_put_parse(text, len, BYTES("q"), no_type, 0, out, ROOM));
    REFUSES_NUL(tally, pgmsg_put_parse(BYTES("s"), text, len, no_type, 1, out, ROOM));
    REFUSES_NUL(tally, pgmsg_put_bind(text, len, BYTES("s"), no_code, 0, &no_value, 1, no_code, 0, out, ROOM));
    REFUSES_NUL(tally, pgmsg_put_bind(BYTES("p"), text, len, no_code, 1, &no_value, 0, no_code, 1, out, ROOM));
    REFUSES_NUL(tally, pgmsg_put_describe('S', text, len, out, ROOM));
    REFUSES_NUL(tally, pgmsg_put_describe('P', text, len, out, ROOM));
    REFUSES_NUL(tally, pgmsg_put_close('S', text, len, out, ROOM));
    REFUSES_NUL(tally, pgmsg_put_close('P', text, len, out, ROOM));
    REFUSES_NUL(tally, pgmsg_put_execute(text, len, 0, out, ROOM));
}

/* Every kind and tag that isn't known, before what else is wrong, and no other. */
static void refuse_letters(struct tally *tally)
{
    for (int letter = 0; letter < 256; letter++) {
        uint8_t kind = (uint8_t)letter;
        bool is_kind = kind == 'S' || kind == 'P', has_no_body = kind != 0 && strchr("123HISXcns", kind) != NULL;
        REFUSES(tally, is_kind ? PGMSG_TEXT_HOLDS_NUL : PGMSG_UNKNOWN_TARGET, pgmsg_put_describe(kind, BYTES("\0"), out, ROOM));
        REFUSES(tally, is_kind ? PGMSG_TEXT_HOLDS_NUL : PGMSG_UNKNOWN_TARGET, pgmsg_put_close(kind, BYTES("\0"), out, ROOM));
        REFUSES(tally, has_no_body ? 5 : PGMSG_UNKNOWN_MESSAGE_TYPE, pgmsg_put_no_body(kind, out, 4));
    }
}

/* A limit is refused before a NUL. */
static void refuse_counts(struct tally *tally, const uint8_t *zeros)
{
    const uint16_t *codes = (const uint16_t *)(const void *)zeros;
    const uint32_t *types = (const uint32_t *)(const void *)zeros;
    const pgmsg_value *values = (const pgmsg_value *)(const void *)zeros;
    REFUSES(tally, PGMSG_TOO_MANY_PARAM_FORMATS,
            pgmsg_put_bind(BYTES("\0"), BYTES(""), codes, TOO_MANY, values, TOO_MANY, codes, TOO_MANY, out, ROOM));
    REFUSES(tally, PGMSG_TOO_MANY_RESULT_FORMATS,
            pgmsg_put_bind(BYTES(""), BYTES("\0"), no_code, 0, values, TOO_MANY, codes, TOO_MANY, out, ROOM));
    REFUSES(tally, PGMSG_BAD_PARAMS,
            pgmsg_put_bind(BYTES("\0"), BYTES("\0"), no_code, 0, values, TOO_MANY, no_code, 0, out, ROOM));
    REFUSES(tally, PGMSG_TOO_MANY_PARAM_TYPES, pgmsg_put_parse(BYTES("\0"), BYTES("\0"), types, TOO_MANY, out, ROOM));
    REFUSES(tally, PGMSG_TOO_MANY_PARAM_FORMATS,
            pgmsg_put_function_call(0, codes, TOO_MANY, values, TOO_MANY, 0, out, ROOM));
    REFUSES(tally, PGMSG_BAD_PARAMS, pgmsg_put_function_call(0, no_code, 0, values, TOO_MANY, 0, out, ROOM));
}

/* The longest messages, and those a byte longer. */
static void compare_with_longest(struct tally *tally, const uint8_t *data)
{
    COMPARES_LONGEST(tally, 17,
                     pgmsg_put_bind(BYTES(""), BYTES(""), no_code, 0, passed, 1, no_code, 0, out, ROOM));
    COMPARES_LONGEST(tally, 19, pgmsg_put_function_call(0, no_code, 0, passed, 1, 0, out, ROOM));
    COMPARES_LONGEST(tally, 11, pgmsg_put_sasl_initial(BYTES("X"), true, data, n, out, ROOM));
    COMPARES_LONGEST(tally, 5, pgmsg_put_sasl_response(data, n, out, ROOM));
}

/* Data that is refused before a byte of it is read. */
static void refuse_lengths(struct tally *tally, const uint8_t *data)
{
    const pgmsg_value value = {data, TOO_LONG, false};
#define REFUSES_LONG(call) REFUSES(tally, PGMSG_MESSAGE_TOO_LONG, call)
    const pgmsg_setting setting = {(const uint8_t *)"\0", 1, data, TOO_LONG};
    REFUSES_LONG(pgmsg_put_startup(0, &setting, 1, out, ROOM));
    REFUSES_LONG(pgmsg_put_copy_data(data, TOO_LONG, out, ROOM));
    REFUSES_LONG(pgmsg_put_query(data, TOO_LONG, out, ROOM));
    REFUSES_LONG(pgmsg_put_copy_fail(data, TOO_LONG, out, ROOM));
    REFUSES_LONG(pgmsg_put_sasl_response(data, TOO_LONG, out, ROOM));
    REFUSES_LONG(pgmsg_put_password(data, TOO_LONG, out, ROOM));
    REFUSES_LONG(pgmsg_put_sasl_initial(data, TOO_LONG, false, BYTES(""), out, ROOM));
    REFUSES_LONG(pgmsg_put_sasl_initial(BYTES("\0"), true, data, TOO_LONG, out, ROOM));
    REFUSES_LONG(pgmsg_put_parse(data, TOO_LONG, BYTES(""), no_type, 0, out, ROOM));
    REFUSES_LONG(pgmsg_put_parse(BYTES("\0"), data, TOO_LONG, no_type, 0, out, ROOM));
    REFUSES_LONG(pgmsg_put_bind(data, TOO_LONG, BYTES(""), no_code, 0, &no_value, 0, no_code, 0, out, ROOM));
    REFUSES_LONG(pgmsg_put_bind(BYTES("\0"), data, TOO_LONG, no_code, 0, &no_value, 0, no_code, 0, out, ROOM));
    REFUSES_LONG(pgmsg_put_bind(BYTES("\0"), BYTES(""), no_code, 0, &value, 1, no_code, 0, out, ROOM));
    REFUSES_LONG(pgmsg_put_describe('S', data, TOO_LONG, out, ROOM));
    REFUSES_LONG(pgmsg_put_describe('P', data, TOO_LONG, out, ROOM));
    REFUSES_LONG(pgmsg_put_close('S', data, TOO_LONG, out, ROOM));
    REFUSES_LONG(pgmsg_put_close('P', data, TOO_LONG, out, ROOM));
    REFUSES_LONG(pgmsg_put_execute(data, TOO_LONG, 0, out, ROOM));
    REFUSES_LONG(pgmsg_put_function_call(0, no_code, 0, &value, 1, 0, out, ROOM));
#undef REFUSES_LONG
    REFUSES(tally, PGMSG_BAD_KEY_LENGTH, pgmsg_put_cancel_request(1, data, TOO_LONG, out, ROOM));
}

void test_put_faults(struct tally *tally)
{
    refuse_settings(tally);
    refuse_texts(tally);
    refuse_letters(tally);
    with_zeros(tally, TOO_LONG, refuse_counts);
    with_zeros(tally, TOO_LONG, refuse_lengths);
    with_zeros(tally, TOO_LONG, compare_with_longest);
}
