/* Messages from a client: where they begin and end, and what each means that has no values. */
#include "bytes_test_read.h"

/* The greatest length of a first message that PostgreSQL's own servers take. */
enum { LIMIT = PGMSG_MAX_FIRST_LENGTH };

/* Each tag of a message from a client, and each other byte. */
static void test_tags(struct tally *tally)
{
    static const char tags[] = "BCDEFHPQSXcdfp";
    for (int tag = 0; tag < 256; tag++) {
        uint8_t stream[5] = {(uint8_t)tag, 0, 0, 0, 4};
        pgmsg_frame frame;
        pgmsg_fault fault;
        bool is_known = tag != 0 && strchr(tags, tag) != NULL;
        int32_t found = pgmsg_next_frontend_frame(stream, sizeof stream, &frame, &fault);
        CHECK(tally, found == (is_known ? 1 : PGMSG_UNKNOWN_MESSAGE_TYPE));
        if (is_known)
            CHECK(tally, frame.tag == tag && frame.length == 5 && frame.body.at == 5 && frame.body.len == 0);
        else
            CHECK(tally, fault.number == PGMSG_UNKNOWN_MESSAGE_TYPE && fault.at == 0);
    }
}

static void test_frames(struct tally *tally)
{
    pgmsg_frame frame = {7, {8, 9}, 10};
    pgmsg_fault fault;
    CHECK(tally, pgmsg_next_frontend_frame(BYTES(""), &frame, &fault) == 0 && frame.tag == 7 && frame.length == 5);
    CHECK(tally, pgmsg_next_frontend_frame(BYTES("Q\0\0\0"), &frame, &fault) == 0 && frame.tag == 'Q');
    CHECK(tally, frame.length == 5 && frame.body.at == 8 && frame.body.len == 9);
    CHECK(tally, pgmsg_next_frontend_frame(BYTES("E\0\0\1\0\0"), &frame, &fault) == 0 && frame.tag == 'E');
    CHECK(tally, frame.length == 257 && frame.body.at == 8 && frame.body.len == 9);
    CHECK(tally, pgmsg_next_frontend_frame(BYTES("d\177\377\377\377"), &frame, &fault) == 0);
    CHECK(tally, frame.length == (size_t)1 << 31);
    CHECK(tally, pgmsg_next_frontend_frame(BYTES("f\0\0\0\6" "a\0" "S\0"), &frame, &fault) == 1 && frame.tag == 'f');
    CHECK(tally, frame.length == 7 && frame.body.at == 5 && frame.body.len == 2);
    /* A tag of the server's, or no one's, is known for one by its own byte alone. */
    CHECK(tally, pgmsg_next_frontend_frame(BYTES("Z\0\0\0"), &frame, &fault) == 0 && frame.tag == 'Z');
}

static void test_first_frames(struct tally *tally)
{
    static const char ssl[] = "\0\0\0\10" "\4\322\26\57" "S";
    pgmsg_frame frame = {7, {8, 9}, 10};
    pgmsg_fault fault;
    for (size_t len = 0; len < 4; len++) {
        CHECK(tally, pgmsg_next_first_frame((const uint8_t *)ssl, len, LIMIT, &frame, &fault) == 0);
        CHECK(tally, frame.length == 4 && frame.body.at == 8 && frame.body.len == 9);
    }
    for (size_t len = 4; len < 8; len++)
        CHECK(tally, pgmsg_next_first_frame((const uint8_t *)ssl, len, LIMIT, &frame, &fault) == 0 && frame.length == 8);
    for (size_t len = 8; len < sizeof ssl; len++) {
        memset(&frame, UNTOUCHED, sizeof frame);
        CHECK(tally, pgmsg_next_first_frame((const uint8_t *)ssl, len, 8, &frame, &fault) == 1);
        CHECK(tally, frame.tag == 0 && frame.length == 8 && frame.body.at == 4 && frame.body.len == 4);
    }
    CHECK(tally, pgmsg_next_first_frame(BYTES("\0\0\47\24"), LIMIT, &frame, &fault) == 0 && frame.length == LIMIT);
    CHECK(tally, pgmsg_next_first_frame(BYTES("\0\0\47\25"), LIMIT, &frame, &fault) == PGMSG_FIRST_TOO_LONG);
    CHECK(tally, pgmsg_next_first_frame(BYTES("\0\0\47\25"), SIZE_MAX, &frame, &fault) == 0 && frame.length == 10005);
    CHECK(tally, pgmsg_next_first_frame(BYTES(ssl), 7, &frame, &fault) == PGMSG_FIRST_TOO_LONG);
    CHECK(tally, pgmsg_next_first_frame(BYTES(ssl), 0, &frame, &fault) == PGMSG_FIRST_TOO_LONG);
    CHECK(tally, pgmsg_next_first_frame(BYTES("\0\0\0\7" "\4\322\26"), LIMIT, &frame, &fault) == PGMSG_BAD_LENGTH);
    CHECK(tally, pgmsg_next_first_frame(BYTES("\377\377\377\377"), LIMIT, &frame, &fault) == PGMSG_BAD_LENGTH);
}

/* Whether all that is of other kinds is zero. */
static bool has_key_alone(const pgmsg_first *first)
{
    return first->minor == 0 && first->settings.at == 0 && first->settings.len == 0;
}

static bool has_settings_alone(const pgmsg_first *first)
{
    return first->process_id == 0 && first->secret_key.at == 0 && first->secret_key.len == 0;
}

static void test_firsts(struct tally *tally)
{
    pgmsg_first first;
    pgmsg_fault fault;
    memset(&first, UNTOUCHED, sizeof first);
    CHECK(tally, pgmsg_read_first(BYTES("\0\3\0\0" "user\0me\0" "database\0\0" "\0"), &first, &fault) == 0);
    CHECK(tally, first.kind == 0 && first.minor == 0 && has_settings_alone(&first));
    CHECK(tally, first.settings.at == 4 && first.settings.len == 19);
    CHECK(tally, pgmsg_read_first(BYTES("\0\3\377\376" "\0"), &first, &fault) == 0 && first.kind == 0);
    CHECK(tally, first.minor == 65534 && first.settings.at == 4 && first.settings.len == 1);
    memset(&first, UNTOUCHED, sizeof first);
    CHECK(tally, pgmsg_read_first(BYTES("\4\322\26\56" "\0\0\60\71" "\1\2\3\4"), &first, &fault) == 0);
    CHECK(tally, first.kind == 1 && first.process_id == 12345 && has_key_alone(&first));
    CHECK(tally, first.secret_key.at == 8 && first.secret_key.len == 4);
    memset(&first, UNTOUCHED, sizeof first);
    CHECK(tally, pgmsg_read_first(BYTES("\4\322\26\57"), &first, &fault) == 0 && first.kind == 2);
    CHECK(tally, has_key_alone(&first) && has_settings_alone(&first));
    memset(&first, UNTOUCHED, sizeof first);
    CHECK(tally, pgmsg_read_first(BYTES("\4\322\26\60"), &first, &fault) == 0 && first.kind == 3);
    CHECK(tally, has_key_alone(&first) && has_settings_alone(&first));
}

/* A session's key has from 4 to 256 bytes. */
static void test_keys(struct tally *tally)
{
    uint8_t body[8 + 257] = {4, 210, 22, 46, 255, 255, 255, 255};
    pgmsg_first first;
    pgmsg_fault fault;
    for (size_t len = 0; len <= 257; len++) {
        int32_t due = len >= 4 && len <= 256 ? 0 : PGMSG_BAD_KEY_LENGTH;
        memset(&first, UNTOUCHED, sizeof first);
        CHECK(tally, pgmsg_read_first(body, 8 + len, &first, &fault) == due);
        if (due == 0)
            CHECK(tally, first.process_id == UINT32_MAX && first.secret_key.at == 8 && first.secret_key.len == len);
        else
            CHECK(tally, are_untouched(&first, sizeof first));
    }
}

static void test_parses(struct tally *tally)
{
    static const char body[] = "s\0" "SELECT $1\0" "\0\2" "\0\0\0\27" "\377\377\377\377";
    pgmsg_parse parse;
    pgmsg_fault fault;
    CHECK(tally, pgmsg_read_parse(BYTES(body), &parse, &fault) == 0);
    CHECK(tally, is_at(body, parse.statement, "s") && is_at(body, parse.query, "SELECT $1"));
    CHECK(tally, parse.types.at == 14 && parse.types.count == 2);
    CHECK(tally, pgmsg_read_parse(BYTES("\0" "\0" "\0\0"), &parse, &fault) == 0);
    CHECK(tally, parse.statement.at == 0 && parse.statement.len == 0 && parse.query.at == 1 && parse.query.len == 0);
    CHECK(tally, parse.types.at == 4 && parse.types.count == 0);
    CHECK(tally, pgmsg_read_parse(BYTES("\0" "\377\0" "\0\0"), &parse, &fault) == 0 && parse.query.len == 1);
}

static void test_targets(struct tally *tally)
{
    pgmsg_target target;
    pgmsg_fault fault;
    CHECK(tally, pgmsg_read_target(BYTES("Ss1\0"), &target, &fault) == 0 && target.letter == 'S');
    CHECK(tally, target.name.at == 1 && target.name.len == 2);
    CHECK(tally, pgmsg_read_target(BYTES("P\0"), &target, &fault) == 0 && target.letter == 'P');
    CHECK(tally, target.name.at == 1 && target.name.len == 0);
    for (int letter = 0; letter < 256; letter++) {
        uint8_t body[2] = {(uint8_t)letter, 0};
        int32_t due = letter == 'S' || letter == 'P' ? 0 : PGMSG_UNKNOWN_TARGET;
        CHECK(tally, pgmsg_read_target(body, sizeof body, &target, &fault) == due);
    }
}

static void test_executes(struct tally *tally)
{
    pgmsg_execute execute;
    pgmsg_fault fault;
    CHECK(tally, pgmsg_read_execute(BYTES("p1\0" "\0\0\1\5"), &execute, &fault) == 0 && execute.max_rows == 261);
    CHECK(tally, execute.portal.at == 0 && execute.portal.len == 2);
    CHECK(tally, pgmsg_read_execute(BYTES("\0" "\0\0\0\0"), &execute, &fault) == 0 && execute.max_rows == 0);
    CHECK(tally, execute.portal.at == 0 && execute.portal.len == 0);
    CHECK(tally, pgmsg_read_execute(BYTES("\0" "\377\377\377\377"), &execute, &fault) == 0);
    CHECK(tally, execute.max_rows == UINT32_MAX);
    CHECK(tally, pgmsg_read_execute(BYTES("\0" "\200\0\0\0"), &execute, &fault) == 0);
    CHECK(tally, execute.max_rows == (uint32_t)1 << 31);
}

static void test_texts(struct tally *tally)
{
    pgmsg_span text;
    pgmsg_fault fault;
    CHECK(tally, pgmsg_read_text(BYTES("SELECT 1\0"), &text, &fault) == 0 && text.at == 0 && text.len == 8);
    CHECK(tally, pgmsg_read_text(BYTES("\377\1\0"), &text, &fault) == 0 && text.at == 0 && text.len == 2);
    CHECK(tally, pgmsg_read_text(BYTES("\0"), &text, &fault) == 0 && text.at == 0 && text.len == 0);
    CHECK(tally, pgmsg_read_text(BYTES("a"), &text, &fault) == PGMSG_MISSING_NUL && fault.at == 0);
    CHECK(tally, pgmsg_read_text(BYTES(""), &text, &fault) == PGMSG_MISSING_NUL && fault.at == 0);
    CHECK(tally, pgmsg_read_text(BYTES("a\0b\0"), &text, &fault) == PGMSG_TRAILING_BYTES && fault.at == 2);
    CHECK(tally, pgmsg_read_no_body(BYTES(""), &fault) == 0);
    CHECK(tally, pgmsg_read_no_body(BYTES("\0"), &fault) == PGMSG_TRAILING_BYTES && fault.at == 0);
    CHECK(tally, pgmsg_read_no_body(BYTES("ab"), &fault) == PGMSG_TRAILING_BYTES && fault.at == 0);
}

static void test_sasl(struct tally *tally)
{
    pgmsg_sasl_initial initial;
    pgmsg_fault fault;
    CHECK(tally, pgmsg_read_sasl_initial(BYTES("SCRAM-SHA-256\0" "\0\0\0\3" "n,,"), &initial, &fault) == 0);
    CHECK(tally, initial.mechanism.at == 0 && initial.mechanism.len == 13);
    CHECK(tally, initial.response.at == 18 && initial.response.len == 3);
    CHECK(tally, pgmsg_read_sasl_initial(BYTES("A\0" "\0\0\0\0"), &initial, &fault) == 0);
    CHECK(tally, initial.mechanism.len == 1 && initial.response.at == 6 && initial.response.len == 0);
    CHECK(tally, pgmsg_read_sasl_initial(BYTES("\0" "\377\377\377\377"), &initial, &fault) == 0);
    CHECK(tally, initial.mechanism.len == 0 && initial.response.len == -1);
}

void test_client(struct tally *tally)
{
    test_tags(tally);
    test_frames(tally);
    test_first_frames(tally);
    test_firsts(tally);
    test_keys(tally);
    test_parses(tally);
    test_targets(tally);
    test_executes(tally);
    test_texts(tally);
    test_sasl(tally);
}
