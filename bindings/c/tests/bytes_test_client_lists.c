/* Messages from a client that have values, and the lists of messages. */
#include "bytes_test_read.h"

enum { VALUES = 5, NULL_VALUE = -1 };

/* A Bind with every part, and the offsets in it. */
static const char bind_body[] = "p1\0" "s\0" "\0\2" "\0\0" "\0\1" "\0\3" "\0\0\0\2" "hi" "\377\377\377\377" "\0\0\0\0"
                                "\0\1" "\377\376";

enum { FORMATS_AT = 7, VALUES_AT = 13, RESULT_FORMATS_AT = 29 };

static const char call_body[] = "\0\0\4\322" "\0\1" "\0\1" "\0\2" "\0\0\0\1" "A" "\377\377\377\377" "\377\377";

static bool is_list(pgmsg_list list, size_t at, size_t count)
{
    return list.at == at && list.count == count;
}

static bool is_cell(pgmsg_cell cell, uint32_t at, int32_t len)
{
    return cell.at == at && cell.len == len;
}

static void test_binds(struct tally *tally)
{
    pgmsg_bind bind;
    pgmsg_fault fault;
    for (size_t room = 0; room <= VALUES; room++) {
        pgmsg_cell values[VALUES];
        size_t given = room < 3 ? room : 3;
        memset(values, UNTOUCHED, sizeof values);
        memset(&bind, UNTOUCHED, sizeof bind);
        CHECK(tally, pgmsg_read_bind(BYTES(bind_body), values, room, &bind, &fault) == 3);
        CHECK(tally, is_at(bind_body, bind.portal, "p1") && is_at(bind_body, bind.statement, "s"));
        CHECK(tally, is_list(bind.formats, FORMATS_AT, 2) && is_list(bind.values, VALUES_AT, 3));
        CHECK(tally, is_list(bind.result_formats, RESULT_FORMATS_AT, 1));
        CHECK(tally, given < 1 || (is_cell(values[0], 17, 2) && memcmp(bind_body + 17, "hi", 2) == 0));
        CHECK(tally, given < 2 || values[1].len == NULL_VALUE);
        CHECK(tally, given < 3 || is_cell(values[2], 27, 0));
        CHECK(tally, are_untouched(&values[given], (VALUES - given) * sizeof *values));
    }
    CHECK(tally, pgmsg_read_bind(BYTES("\0" "\0" "\0\0" "\0\0" "\0\0"), (pgmsg_cell[1]){{7, 7}}, 1, &bind, &fault) == 0);
    CHECK(tally, bind.portal.at == 0 && bind.portal.len == 0 && bind.statement.at == 1 && bind.statement.len == 0);
    CHECK(tally, is_list(bind.formats, 4, 0) && is_list(bind.values, 6, 0) && is_list(bind.result_formats, 8, 0));
}

/* How many values are given of a Bind that is refused, which leaves all else alone. */
static void refuses_bind(struct tally *tally, const char *body, size_t len, int32_t number, size_t given)
{
    pgmsg_cell values[VALUES];
    pgmsg_bind bind;
    pgmsg_fault fault;
    for (size_t room = 0; room <= VALUES; room++) {
        size_t most = room < given ? room : given;
        memset(values, UNTOUCHED, sizeof values);
        memset(&bind, UNTOUCHED, sizeof bind);
        CHECK(tally, pgmsg_read_bind((const uint8_t *)body, len, values, room, &bind, &fault) == number);
        CHECK(tally, fault.number == number && are_untouched(&bind, sizeof bind));
        CHECK(tally, are_untouched(&values[most], (VALUES - most) * sizeof *values));
    }
}

#define REFUSES_BIND(number, given, body) refuses_bind(tally, body, sizeof(body) - 1, number, given)

static void test_refused_binds(struct tally *tally)
{
    for (size_t len = 0; len + 1 < sizeof bind_body; len++) {
        int32_t number = len < 5 ? PGMSG_MISSING_NUL : PGMSG_SHORT;
        size_t given = len < 19 ? 0 : len < 23 ? 1 : len < 27 ? 2 : 3;
        refuses_bind(tally, bind_body, len, number, given);
    }
    REFUSES_BIND(PGMSG_BAD_VALUE_LENGTH, 0, "\0" "\0" "\0\0" "\0\2" "\377\377\377\376" "\0\0\0\0" "\0\0");
    REFUSES_BIND(PGMSG_BAD_VALUE_LENGTH, 1, "\0" "\0" "\0\0" "\0\2" "\0\0\0\1" "a" "\200\0\0\0" "\0\0");
    REFUSES_BIND(PGMSG_SHORT, 1, "\0" "\0" "\0\0" "\0\2" "\377\377\377\377" "\0\0\0\3" "ab");
    REFUSES_BIND(PGMSG_SHORT, 0, "\0" "\0" "\0\0" "\0\1" "\177\377\377\377" "\0\0");
    REFUSES_BIND(PGMSG_SHORT, 0, "\0" "\0" "\377\377" "\0\0" "\0\0");
    REFUSES_BIND(PGMSG_TRAILING_BYTES, 1, "\0" "\0" "\0\0" "\0\1" "\0\0\0\0" "\0\0" "\0");
}

static void test_calls(struct tally *tally)
{
    pgmsg_function_call call;
    pgmsg_cell arguments[3];
    pgmsg_fault fault;
    for (size_t room = 0; room <= 3; room++) {
        size_t given = room < 2 ? room : 2;
        memset(arguments, UNTOUCHED, sizeof arguments);
        memset(&call, UNTOUCHED, sizeof call);
        CHECK(tally, pgmsg_read_function_call(BYTES(call_body), arguments, room, &call, &fault) == 2);
        CHECK(tally, call.function == 1234 && is_list(call.formats, 6, 1) && is_list(call.arguments, 10, 2));
        CHECK(tally, call.result_format == UINT16_MAX);
        CHECK(tally, given < 1 || is_cell(arguments[0], 14, 1));
        CHECK(tally, given < 2 || arguments[1].len == NULL_VALUE);
        CHECK(tally, are_untouched(&arguments[given], (3 - given) * sizeof *arguments));
    }
    for (size_t len = 0; len + 1 < sizeof call_body; len++) {
        size_t given = len < 15 ? 0 : len < 19 ? 1 : 2;
        memset(arguments, UNTOUCHED, sizeof arguments);
        memset(&call, UNTOUCHED, sizeof call);
        ptrdiff_t answer = pgmsg_read_function_call((const uint8_t *)call_body, len, arguments, 3, &call, &fault);
        CHECK(tally, answer == PGMSG_SHORT && are_untouched(&call, sizeof call));
        CHECK(tally, are_untouched(&arguments[given], (3 - given) * sizeof *arguments));
    }
    CHECK(tally, pgmsg_read_function_call((const uint8_t *)call_body, sizeof call_body, arguments, 3, &call, &fault)
                     == PGMSG_TRAILING_BYTES);
    CHECK(tally, fault.at == sizeof call_body - 1);
    CHECK(tally, pgmsg_read_function_call(BYTES("\377\377\377\377" "\0\0" "\0\0" "\0\1"), arguments, 0, &call, &fault) == 0);
    CHECK(tally, call.function == UINT32_MAX && call.result_format == 1 && is_list(call.arguments, 8, 0));
}

static void test_codes(struct tally *tally)
{
    pgmsg_bind bind;
    pgmsg_fault fault;
    uint16_t codes[3] = {7, 7, 7};
    CHECK(tally, pgmsg_read_bind(BYTES(bind_body), (pgmsg_cell[1]){{7, 7}}, 0, &bind, &fault) == 3);
    CHECK(tally, pgmsg_read_codes(BYTES(bind_body), bind.formats, codes, 0) == 2 && codes[0] == 7);
    CHECK(tally, pgmsg_read_codes(BYTES(bind_body), bind.formats, codes, 3) == 2);
    CHECK(tally, codes[0] == 0 && codes[1] == 1 && codes[2] == 7);
    CHECK(tally, pgmsg_read_codes(BYTES(bind_body), bind.result_formats, codes, 1) == 1 && codes[0] == 65534);
    CHECK(tally, codes[1] == 1);
    CHECK(tally, pgmsg_read_codes(BYTES(bind_body), (pgmsg_list){4, 0}, codes, 3) == 0 && codes[0] == 65534);
}

/* Lists that no message has. */
static void test_wrong_lists(struct tally *tally)
{
    static const pgmsg_list lists[] = {
        {0, 3}, {1, 2}, {4, 1}, {5, 0}, {SIZE_MAX, 1}, {1, SIZE_MAX}, {SIZE_MAX, SIZE_MAX}, {2, SIZE_MAX / 2 + 1},
        {0, SIZE_MAX / 4 + 1},
    };
    uint16_t codes[3] = {7, 7, 7};
    uint32_t types[3] = {7, 7, 7};
    for (size_t i = 0; i < sizeof lists / sizeof *lists; i++) {
        CHECK(tally, pgmsg_read_codes(BYTES("abcd"), lists[i], codes, 3) == 0);
        CHECK(tally, pgmsg_read_types(BYTES("abcd"), lists[i], types, 3) == 0);
    }
    CHECK(tally, codes[0] == 7 && types[0] == 7);
}

static void test_types(struct tally *tally)
{
    static const char body[] = "\0" "\0" "\0\2" "\0\0\0\27" "\377\377\377\376";
    pgmsg_parse parse;
    pgmsg_fault fault;
    uint32_t types[3] = {7, 7, 7};
    CHECK(tally, pgmsg_read_parse(BYTES(body), &parse, &fault) == 0 && is_list(parse.types, 4, 2));
    CHECK(tally, pgmsg_read_types(BYTES(body), parse.types, types, 0) == 2 && types[0] == 7);
    CHECK(tally, pgmsg_read_types(BYTES(body), parse.types, types, 1) == 2 && types[0] == 23 && types[1] == 7);
    CHECK(tally, pgmsg_read_types(BYTES(body), parse.types, types, 3) == 2);
    CHECK(tally, types[0] == 23 && types[1] == UINT32_MAX - 1 && types[2] == 7);
}

static void test_settings(struct tally *tally)
{
    static const char body[] = "\0\3\0\0" "user\0me\0" "a\0\0" "caf\351\0x\0" "\0";
    pgmsg_parameter_status settings[4];
    for (size_t room = 0; room <= 4; room++) {
        size_t given = room < 3 ? room : 3;
        memset(settings, UNTOUCHED, sizeof settings);
        CHECK(tally, pgmsg_read_settings(BYTES(body), settings, room) == 3);
        CHECK(tally, given < 1 || (is_at(body, settings[0].name, "user") && is_at(body, settings[0].value, "me")));
        CHECK(tally, given < 2 || (is_at(body, settings[1].name, "a") && settings[1].value.len == 0));
        CHECK(tally, given < 2 || (settings[1].name.at == 12 && settings[1].value.at == 14));
        CHECK(tally, given < 3 || (is_at(body, settings[2].name, "caf\351") && is_at(body, settings[2].value, "x")));
        CHECK(tally, are_untouched(&settings[given], (4 - given) * sizeof *settings));
    }
    CHECK(tally, pgmsg_read_settings(BYTES("\0\3\0\0" "\0"), settings, 4) == 0);
    /* What is no Startup's body: those before a text that has no end, and none after an empty name. */
    CHECK(tally, pgmsg_read_settings(BYTES("\0\3\0\0" "a\0b\0" "c\0d"), settings, 4) == 1);
    CHECK(tally, pgmsg_read_settings(BYTES("\0\3\0\0" "a\0b\0" "c"), settings, 4) == 1);
    CHECK(tally, pgmsg_read_settings(BYTES("\0\3\0\0" "a\0b\0" "\0" "c\0d\0\0"), settings, 4) == 1);
    CHECK(tally, pgmsg_read_settings(BYTES("\0\3\0"), settings, 4) == 0);
    CHECK(tally, pgmsg_read_settings(BYTES(""), settings, 4) == 0);
}

void test_client_lists(struct tally *tally)
{
    test_binds(tally);
    test_refused_binds(tally);
    test_calls(tally);
    test_codes(tally);
    test_wrong_lists(tally);
    test_types(tally);
    test_settings(tally);
}
