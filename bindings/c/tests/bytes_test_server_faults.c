/* Messages to a client that are refused. */
#include "bytes_test_put.h"

enum { ROOM = 64, MOST_UNSIGNED = 65535, MOST_SIGNED = 32767, MAX_KEY = 256 };

/* Lists whose last item is a text that holds a NUL. */
#define NAMES (const pgmsg_bytes[]){{BYTES("a")}, {text, len}}, 2
#define FIELDS (const pgmsg_field_text[]){{'S', BYTES("a")}, {'C', text, len}}, 2
#define COLUMNS (const pgmsg_column_text[]){{BYTES("a"), 0, 0, 0, 0, 0, 0}, {text, len, 0, 0, 0, 0, 0, 0}}, 2

static void refuse_texts(struct tally *tally)
{
    REFUSES_NUL(tally, pgmsg_put_authentication_sasl(NAMES, out, ROOM));
    REFUSES_NUL(tally, pgmsg_put_negotiate_version(2, NAMES, out, ROOM));
    REFUSES_NUL(tally, pgmsg_put_parameter_status(text, len, BYTES("v"), out, ROOM));
    REFUSES_NUL(tally, pgmsg_put_parameter_status(BYTES("n"), text, len, out, ROOM));
    REFUSES_NUL(tally, pgmsg_put_columns(COLUMNS, out, ROOM));
    REFUSES_NUL(tally, pgmsg_put_command_complete(text, len, out, ROOM));
    REFUSES_NUL(tally, pgmsg_put_notice('E', FIELDS, out, ROOM));
    REFUSES_NUL(tally, pgmsg_put_notice('N', FIELDS, out, ROOM));
    REFUSES_NUL(tally, pgmsg_put_notification(1, text, len, BYTES("p"), out, ROOM));
    REFUSES_NUL(tally, pgmsg_put_notification(1, BYTES("c"), text, len, out, ROOM));
}

/* What would end a list. */
static void refuse_ends(struct tally *tally)
{
    static const pgmsg_bytes names[] = {{BYTES("a")}, {BYTES("")}};
    static const pgmsg_field_text fields[] = {{'S', BYTES("a")}, {0, BYTES("b")}};
    REFUSES(tally, PGMSG_TEXT_HOLDS_NUL, pgmsg_put_authentication_sasl(names, 2, out, ROOM));
    REFUSES(tally, PGMSG_TEXT_HOLDS_NUL, pgmsg_put_authentication_sasl(names + 1, 1, out, ROOM));
    REFUSES(tally, PGMSG_TEXT_HOLDS_NUL, pgmsg_put_notice('E', fields, 2, out, ROOM));
    REFUSES(tally, PGMSG_TEXT_HOLDS_NUL, pgmsg_put_notice('N', fields + 1, 1, out, ROOM));
}

/* Whether a letter is one of some. */
static bool is_one_of(int letter, const char *letters)
{
    return letter != 0 && strchr(letters, letter) != NULL;
}

/* Every letter that isn't known, and no other. */
static void refuse_letters(struct tally *tally)
{
    static const int16_t no_code;
    for (int letter = 0; letter < 256; letter++) {
        uint8_t tag = (uint8_t)letter;
        ptrdiff_t unknown = PGMSG_UNKNOWN_MESSAGE_TYPE;
        REFUSES(tally, is_one_of(letter, "ITE") ? 6 : PGMSG_UNKNOWN_STATUS, pgmsg_put_ready(tag, out, 5));
        REFUSES(tally, is_one_of(letter, "EN") ? 6 : unknown, pgmsg_put_notice(tag, NULL, 0, out, 5));
        REFUSES(tally, is_one_of(letter, "GHW") ? 8 : unknown, pgmsg_put_copy_response(tag, 0, &no_code, 0, out, 7));
    }
}

/* Methods that aren't known, and those that go on with another count of bytes than they have. */
static void refuse_methods(struct tally *tally)
{
    static const uint32_t methods[] = {0, 1, 2, 3, 4, 5, 6, 7, 8, 9, 10, 11, 12, 13, 0x80000000, UINT32_MAX};
    static const uint8_t content[6];
    for (size_t i = 0; i < sizeof methods / sizeof *methods; i++) {
        uint32_t method = methods[i];
        for (size_t len = 0; len <= sizeof content; len++) {
            bool has_data = method == 8 || method == 11 || method == 12;
            bool has_none = method == 0 || method == 2 || method == 3 || method == 6 || method == 7 || method == 9;
            bool is_known = method == 5 ? len == 4 : has_data || (has_none && len == 0);
            REFUSES(tally, is_known ? 9 + (ptrdiff_t)len : PGMSG_UNKNOWN_AUTHENTICATION,
                    pgmsg_put_authentication(method, content, len, out, 8 + len));
        }
    }
}

/* Keys of each length that no server gives, and of those at the limits. */
static void refuse_keys(struct tally *tally)
{
    uint8_t key[MAX_KEY + 1] = {0};
    for (size_t n = 0; n < 4; n++)
        REFUSES(tally, PGMSG_BAD_KEY_LENGTH, pgmsg_put_backend_key_data(1, key, n, out, ROOM));
    REFUSES(tally, 13, pgmsg_put_backend_key_data(1, key, 4, out, 12));
    REFUSES(tally, MAX_KEY + 9, pgmsg_put_backend_key_data(1, key, MAX_KEY, out, ROOM));
    REFUSES(tally, PGMSG_BAD_KEY_LENGTH, pgmsg_put_backend_key_data(1, key, MAX_KEY + 1, out, ROOM));
}

/* The most items, and one more; of columns a count before a NUL. */
static void refuse_counts(struct tally *tally, const uint8_t *zeros)
{
    const uint32_t *types = (const uint32_t *)(const void *)zeros;
    const int16_t *codes = (const int16_t *)(const void *)zeros;
    const pgmsg_value *values = (const pgmsg_value *)(const void *)zeros;
    static pgmsg_column_text columns[MOST_UNSIGNED + 1];
    columns[MOST_UNSIGNED] = (pgmsg_column_text){.name = zeros, .name_len = 1};
    REFUSES(tally, 7 + 4 * MOST_UNSIGNED, pgmsg_put_row(values, MOST_UNSIGNED, out, ROOM));
    REFUSES(tally, PGMSG_TOO_MANY, pgmsg_put_row(values, MOST_UNSIGNED + 1, out, ROOM));
    REFUSES(tally, 7 + 19 * MOST_UNSIGNED, pgmsg_put_columns(columns, MOST_UNSIGNED, out, ROOM));
    REFUSES(tally, PGMSG_TOO_MANY, pgmsg_put_columns(columns, MOST_UNSIGNED + 1, out, ROOM));
    REFUSES(tally, 7 + 4 * MOST_UNSIGNED, pgmsg_put_parameter_types(types, MOST_UNSIGNED, out, ROOM));
    REFUSES(tally, PGMSG_TOO_MANY, pgmsg_put_parameter_types(types, MOST_UNSIGNED + 1, out, ROOM));
    REFUSES(tally, 8 + 2 * MOST_SIGNED, pgmsg_put_copy_response('G', 0, codes, MOST_SIGNED, out, ROOM));
    REFUSES(tally, PGMSG_TOO_MANY, pgmsg_put_copy_response('W', 0, codes, MOST_SIGNED + 1, out, ROOM));
}

/* The longest messages, and those a byte longer. */
static void compare_with_longest(struct tally *tally, const uint8_t *data)
{
    COMPARES_LONGEST(tally, 9, pgmsg_put_authentication(8, data, n, out, ROOM));
    COMPARES_LONGEST(tally, 9, pgmsg_put_authentication(11, data, n, out, ROOM));
    COMPARES_LONGEST(tally, 9, pgmsg_put_authentication(12, data, n, out, ROOM));
    COMPARES_LONGEST(tally, 5, pgmsg_put_frame('d', data, n, out, ROOM));
    COMPARES_LONGEST(tally, 9, pgmsg_put_function_result(data, n, false, out, ROOM));
    COMPARES_LONGEST(tally, 11, pgmsg_put_row(passed, 1, out, ROOM));
}

/* Lengths whose sum is more than any: a limit is refused before a byte is read. */
static void refuse_lengths(struct tally *tally, const uint8_t *data)
{
    const pgmsg_value values[] = {{data, TOO_LONG, true}, {data, TOO_LONG, false}};
    REFUSES(tally, 11, pgmsg_put_row(values, 1, out, 10));
    REFUSES(tally, PGMSG_MESSAGE_TOO_LONG, pgmsg_put_row(values, 2, out, ROOM));
    REFUSES(tally, 9, pgmsg_put_function_result(data, TOO_LONG, true, out, 8));
}

void test_server_faults(struct tally *tally)
{
    refuse_texts(tally);
    refuse_ends(tally);
    refuse_letters(tally);
    refuse_methods(tally);
    refuse_keys(tally);
    with_zeros(tally, TOO_LONG, refuse_counts);
    with_zeros(tally, TOO_LONG, compare_with_longest);
    with_zeros(tally, TOO_LONG, refuse_lengths);
}
