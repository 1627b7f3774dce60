/* Messages to the server, and what is left of `out` where there is no room for them. */
#include "bytes_test_put.h"

enum { ROOM = 320, MIN_KEY = 4, MAX_KEY = 256 };

static const pgmsg_setting settings[] = {
    {(const uint8_t *)"user", 4, (const uint8_t *)"ann", 3},
    {(const uint8_t *)"database", 8, (const uint8_t *)"d", 1},
    {(const uint8_t *)"\377", 1, NULL, 0},
};

static const uint8_t digest[16] = {0, 1, 2, 3, 4, 5, 6, 7, 8, 9, 10, 11, 12, 13, 14, 255};

static const uint16_t codes[] = {1, 0, 258};
static const uint32_t types[] = {23, UINT32_MAX};

/* A place of no bytes may be NULL, as an argument and in a struct. */
static const pgmsg_value values[] = {
    {(const uint8_t *)"ab", 2, false},
    {NULL, 0, true},
    {NULL, 0, false},
};

#define NO_BYTES NULL, 0

/* Each message, the call that writes it, and its bytes. */
#define SAMPLES(ROW)                                                                                                     \
    ROW(startup, pgmsg_put_startup(0, settings, 2, out, out_len),                                                        \
        "\0\0\0\35" "\0\3\0\0" "user\0" "ann\0" "database\0" "d\0" "\0")                                                 \
    ROW(newer_startup, pgmsg_put_startup(2, settings + 2, 1, out, out_len), "\0\0\0\14" "\0\3\0\2" "\377\0" "\0" "\0")   \
    ROW(newest_startup, pgmsg_put_startup(UINT16_MAX, NO_BYTES, out, out_len), "\0\0\0\11" "\0\3\377\377" "\0")          \
    ROW(ssl_request, pgmsg_put_ssl_request(out, out_len), "\0\0\0\10" "\4\322\26\57")                                    \
    ROW(gss_enc_request, pgmsg_put_gss_enc_request(out, out_len), "\0\0\0\10" "\4\322\26\60")                            \
    ROW(cancel_request, pgmsg_put_cancel_request(1234, BYTES("\377\0\0\1"), out, out_len),                               \
        "\0\0\0\20" "\4\322\26\56" "\0\0\4\322" "\377\0\0\1")                                                            \
    ROW(long_cancel_request, pgmsg_put_cancel_request(UINT32_MAX, BYTES("a key of 28 bytes, not of 4\0"), out, out_len), \
        "\0\0\0\50" "\4\322\26\56" "\377\377\377\377" "a key of 28 bytes, not of 4\0")                                   \
    ROW(password, pgmsg_put_password(BYTES("p\377w"), out, out_len), "p\0\0\0\10" "p\377w\0")                            \
    ROW(no_password, pgmsg_put_password(NO_BYTES, out, out_len), "p\0\0\0\5" "\0")                                       \
    ROW(md5_password, pgmsg_put_md5_password(digest, out, out_len),                                                      \
        "p\0\0\0\50" "md5" "000102030405060708090a0b0c0d0eff\0")                                                         \
    ROW(sasl_initial, pgmsg_put_sasl_initial(BYTES("OAUTHBEARER"), true, BYTES("n,,\1a\0\377"), out, out_len),           \
        "p\0\0\0\33" "OAUTHBEARER\0" "\0\0\0\7" "n,,\1a\0\377")                                                          \
    ROW(bare_initial, pgmsg_put_sasl_initial(BYTES("\377"), false, BYTES("not sent"), out, out_len),                     \
        "p\0\0\0\12" "\377\0" "\377\377\377\377")                                                                        \
    ROW(empty_initial, pgmsg_put_sasl_initial(NO_BYTES, true, NO_BYTES, out, out_len), "p\0\0\0\11" "\0" "\0\0\0\0")     \
    ROW(sasl_response, pgmsg_put_sasl_response(BYTES("c=bi\377\0"), out, out_len), "p\0\0\0\12" "c=bi\377\0")            \
    ROW(empty_response, pgmsg_put_sasl_response(NO_BYTES, out, out_len), "p\0\0\0\4")                                    \
    ROW(query, pgmsg_put_query(BYTES("SELECT '\377'"), out, out_len), "Q\0\0\0\17" "SELECT '\377'\0")                    \
    ROW(empty_query, pgmsg_put_query(NO_BYTES, out, out_len), "Q\0\0\0\5" "\0")                                          \
    ROW(copy_fail, pgmsg_put_copy_fail(BYTES("no\377"), out, out_len), "f\0\0\0\10" "no\377\0")                          \
    ROW(bare_copy_fail, pgmsg_put_copy_fail(NO_BYTES, out, out_len), "f\0\0\0\5" "\0")                                   \
    ROW(parse, pgmsg_put_parse(BYTES("st\377"), BYTES("SELECT $1, $2"), types, 2, out, out_len),                         \
        "P\0\0\0\40" "st\377\0" "SELECT $1, $2\0" "\0\2" "\0\0\0\27" "\377\377\377\377")                                 \
    ROW(bare_parse, pgmsg_put_parse(NO_BYTES, NO_BYTES, NO_BYTES, out, out_len), "P\0\0\0\10" "\0" "\0" "\0\0")          \
    ROW(bind, pgmsg_put_bind(BYTES("po\377"), BYTES("st"), codes, 3, values, 3, &codes[2], 1, out, out_len),             \
        "B\0\0\0\47" "po\377\0" "st\0" "\0\3" "\0\1" "\0\0" "\1\2" "\0\3" "\0\0\0\2" "ab"                                \
        "\377\377\377\377" "\0\0\0\0" "\0\1" "\1\2")                                                                     \
    ROW(bare_bind, pgmsg_put_bind(NO_BYTES, NO_BYTES, NO_BYTES, NO_BYTES, NO_BYTES, out, out_len),                       \
        "B\0\0\0\14" "\0" "\0" "\0\0" "\0\0" "\0\0")                                                                     \
    ROW(describe_statement, pgmsg_put_describe('S', BYTES("st\377"), out, out_len), "D\0\0\0\11" "S" "st\377\0")         \
    ROW(describe_portal, pgmsg_put_describe('P', NO_BYTES, out, out_len), "D\0\0\0\6" "P" "\0")                          \
    ROW(close_statement, pgmsg_put_close('S', NO_BYTES, out, out_len), "C\0\0\0\6" "S" "\0")                             \
    ROW(close_portal, pgmsg_put_close('P', BYTES("po\377"), out, out_len), "C\0\0\0\11" "P" "po\377\0")                  \
    ROW(execute, pgmsg_put_execute(BYTES("po"), UINT32_MAX, out, out_len), "E\0\0\0\13" "po\0" "\377\377\377\377")       \
    ROW(bare_execute, pgmsg_put_execute(NO_BYTES, 0, out, out_len), "E\0\0\0\11" "\0" "\0\0\0\0")                        \
    ROW(function_call, pgmsg_put_function_call(0x80000001, codes, 3, values, 3, 1, out, out_len),                        \
        "F\0\0\0\42" "\200\0\0\1" "\0\3" "\0\1" "\0\0" "\1\2" "\0\3" "\0\0\0\2" "ab"                                     \
        "\377\377\377\377" "\0\0\0\0" "\0\1")                                                                            \
    ROW(bare_function_call, pgmsg_put_function_call(0, NO_BYTES, NO_BYTES, 258, out, out_len),                           \
        "F\0\0\0\16" "\0\0\0\0" "\0\0" "\0\0" "\1\2")                                                                    \
    ROW(copy_data, pgmsg_put_copy_data(BYTES("1\t2\n"), out, out_len), "d\0\0\0\10" "1\t2\n")                            \
    ROW(empty_copy_data, pgmsg_put_copy_data(NO_BYTES, out, out_len), "d\0\0\0\4")                                       \
    ROW(parse_complete, pgmsg_put_no_body('1', out, out_len), "1\0\0\0\4")                                               \
    ROW(bind_complete, pgmsg_put_no_body('2', out, out_len), "2\0\0\0\4")                                                \
    ROW(close_complete, pgmsg_put_no_body('3', out, out_len), "3\0\0\0\4")                                               \
    ROW(flush, pgmsg_put_no_body('H', out, out_len), "H\0\0\0\4")                                                        \
    ROW(empty_query_response, pgmsg_put_no_body('I', out, out_len), "I\0\0\0\4")                                         \
    ROW(sync, pgmsg_put_no_body('S', out, out_len), "S\0\0\0\4")                                                         \
    ROW(terminate, pgmsg_put_no_body('X', out, out_len), "X\0\0\0\4")                                                    \
    ROW(copy_done, pgmsg_put_no_body('c', out, out_len), "c\0\0\0\4")                                                    \
    ROW(no_data, pgmsg_put_no_body('n', out, out_len), "n\0\0\0\4")                                                      \
    ROW(suspended, pgmsg_put_no_body('s', out, out_len), "s\0\0\0\4")

SAMPLES(WRITER)

static const struct sample samples[] = {SAMPLES(SAMPLE)};

const struct sample *put_samples(size_t *count)
{
    *count = sizeof samples / sizeof *samples;
    return samples;
}

/* Puts a message into so much room. It is there, and nothing after it, or else nothing at all. */
static void test_room(struct tally *tally, const struct sample *sample, size_t room)
{
    uint8_t out[ROOM];
    memset(out, UNTOUCHED, sizeof out);
    ptrdiff_t len = sample->put(out, room);
    CHECK(tally, len == (ptrdiff_t)sample->len);
    if (room < sample->len) {
        CHECK(tally, are_untouched(out, ROOM));
    } else {
        CHECK(tally, are_bytes(out, sample->len, sample->bytes, sample->len));
        CHECK(tally, are_untouched(out + sample->len, ROOM - sample->len));
    }
}

static void test_heads(struct tally *tally)
{
    uint8_t head[5];
    CHECK(tally, pgmsg_put_copy_head(0, head) == 0 && are_bytes(head, 5, "d\0\0\0\4", 5));
    CHECK(tally, pgmsg_put_copy_head(65536, head) == 0 && are_bytes(head, 5, "d\0\1\0\4", 5));
    CHECK(tally, pgmsg_put_copy_head(1 << 20, head) == 0 && are_bytes(head, 5, "d\0\20\0\4", 5));
    CHECK(tally, pgmsg_put_copy_head(2147483643, head) == 0 && are_bytes(head, 5, "d\177\377\377\377", 5));
    memset(head, UNTOUCHED, sizeof head);
    CHECK(tally, pgmsg_put_copy_head(2147483644, head) == PGMSG_MESSAGE_TOO_LONG);
    CHECK(tally, pgmsg_put_copy_head(4294967291, head) == PGMSG_MESSAGE_TOO_LONG);
    CHECK(tally, pgmsg_put_copy_head(SIZE_MAX, head) == PGMSG_MESSAGE_TOO_LONG);
    CHECK(tally, are_bytes(head, 5, "\252\252\252\252\252", 5));
}

/* A request to cancel with a key of each length, and of those that no server gives. */
static void test_keys(struct tally *tally)
{
    uint8_t key[MAX_KEY + 1], out[ROOM];
    for (size_t i = 0; i < sizeof key; i++)
        key[i] = (uint8_t)(i * 7);
    for (size_t n = 0; n <= sizeof key; n++) {
        memset(out, UNTOUCHED, sizeof out);
        ptrdiff_t len = pgmsg_put_cancel_request(1, key, n, out, ROOM);
        if (n < MIN_KEY || n > MAX_KEY) {
            CHECK(tally, len == PGMSG_BAD_KEY_LENGTH && are_untouched(out, ROOM));
        } else {
            const uint8_t head[] = {0, 0, (uint8_t)((n + 12) >> 8), (uint8_t)(n + 12), 4, 210, 22, 46, 0, 0, 0, 1};
            CHECK(tally, len == (ptrdiff_t)n + 12 && are_untouched(out + len, ROOM - (size_t)len));
            CHECK(tally, memcmp(out, head, sizeof head) == 0 && memcmp(out + sizeof head, key, n) == 0);
        }
    }
}

/* Numbered names, each with its NUL where there is room for that, and else not at all. */
static void test_names(struct tally *tally)
{
    static const struct { uint32_t number; const char *statement, *portal; } due[] = {
        {0, "", ""}, {1, "sqlx_s_1", "sqlx_p_1"}, {99, "sqlx_s_99", "sqlx_p_99"}, {10000, "sqlx_s_10000", "sqlx_p_10000"},
        {UINT32_MAX, "sqlx_s_4294967295", "sqlx_p_4294967295"},
    };
    for (size_t i = 0; i < sizeof due / sizeof *due; i++) {
        size_t len = strlen(due[i].statement);
        for (size_t room = 0; room <= len + 2; room++) {
            size_t written = room > len ? len + 1 : 0;
            uint8_t out[ROOM];
            memset(out, UNTOUCHED, sizeof out);
            CHECK(tally, pgmsg_put_statement_name(due[i].number, out, room) == len);
            CHECK(tally, memcmp(out, due[i].statement, written) == 0 && are_untouched(out + written, ROOM - written));
            memset(out, UNTOUCHED, sizeof out);
            CHECK(tally, pgmsg_put_portal_name(due[i].number, out, room) == len);
            CHECK(tally, memcmp(out, due[i].portal, written) == 0 && are_untouched(out + written, ROOM - written));
        }
    }
    CHECK(tally, pgmsg_put_statement_name(7, NULL, 0) == 8 && pgmsg_put_portal_name(0, NULL, 0) == 0);
}

/* Where texts aren't UTF-8: bytes that begin none, characters cut short, longer than they have to be, or of no number. */
static void test_utf8(struct tally *tally)
{
    CHECK(tally, pgmsg_check_utf8(NULL, 0) == 0);
    CHECK(tally, pgmsg_check_utf8(BYTES("caf\303\251\0")) == 6);
    CHECK(tally, pgmsg_check_utf8(BYTES("\342\202\254\360\237\230\200\364\217\277\277")) == 11);
    CHECK(tally, pgmsg_check_utf8(BYTES("a\377b")) == 1);
    CHECK(tally, pgmsg_check_utf8(BYTES("ab\200")) == 2);
    CHECK(tally, pgmsg_check_utf8(BYTES("\303")) == 0);
    CHECK(tally, pgmsg_check_utf8(BYTES("a\342\202")) == 1);
    CHECK(tally, pgmsg_check_utf8(BYTES("a\342\202a")) == 1);
    CHECK(tally, pgmsg_check_utf8(BYTES("\300\200")) == 0);
    CHECK(tally, pgmsg_check_utf8(BYTES("\355\240\200")) == 0);
    CHECK(tally, pgmsg_check_utf8(BYTES("\364\220\200\200")) == 0);
}

void test_rooms(struct tally *tally, const struct sample *put, size_t count)
{
    for (size_t i = 0; i < count; i++) {
        test_room(tally, &put[i], ROOM);
        test_room(tally, &put[i], put[i].len);
        test_room(tally, &put[i], put[i].len - 1);
        test_room(tally, &put[i], 0);
        CHECK(tally, put[i].put(NULL, 0) == (ptrdiff_t)put[i].len);
    }
}

void test_put(struct tally *tally)
{
    test_rooms(tally, samples, sizeof samples / sizeof *samples);
    test_heads(tally);
    test_keys(tally);
    test_names(tally);
    test_utf8(tally);
}
