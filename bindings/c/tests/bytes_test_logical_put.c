/* The messages of logical replication that are refused as they are written, and what is passed over. */
#include "bytes_test_read.h"

#define LIST(list) list, sizeof list / sizeof *list

/* Every letter, and what is no part of its message: numbers, texts with a NUL, and values of no kind. */
static void test_passed_over(struct tally *tally)
{
    static const pgmsg_datum_text broken[] = {{'x', BYTES("a")}};
    static const uint32_t tables[] = {5, 6};
    static const pgmsg_table_column_text named[] = {{1, BYTES("\0"), 2, 3}};
    for (int letter = 0; letter < 256; letter++) {
        pgmsg_logical_text message = {.letter = (uint8_t)letter, .transaction = 1, .subtransaction = 2, .lsn = 3, .relation = 4};
        uint8_t bare[64], out[64];
        memset(out, UNTOUCHED, sizeof out);
        ptrdiff_t len = pgmsg_put_logical(&message, out, sizeof out);
        if (letter == 0 || strchr("BMCORYIUDTSEcAbPKrp", letter) == NULL || letter == 'D') {
            ptrdiff_t due = letter == 'D' ? PGMSG_UNKNOWN_LETTER : PGMSG_UNKNOWN_MESSAGE_TYPE;
            CHECK(tally, len == due && are_untouched(out, sizeof out));
            continue;
        }
        CHECK(tally, len > 0 && len <= 64 && out[0] == letter);
        memcpy(bare, out, sizeof bare);
        if (strchr("IU", letter) == NULL)
            message.values = broken, message.values_len = 1;
        message.old_values = broken, message.old_values_len = 1;
        if (letter != 'R')
            message.columns = named, message.columns_len = 1;
        if (strchr("RY", letter) == NULL)
            message.schema = (const uint8_t *)"\0", message.schema_len = 1;
        if (letter != 'T')
            message.relations = tables, message.relations_len = 2;
        CHECK(tally, pgmsg_put_logical(&message, out, sizeof out) == len && memcmp(out, bare, sizeof out) == 0);
    }
}

/* Refuses a message by a number, and writes nothing. */
static void test_refused(struct tally *tally, pgmsg_logical_text message, ptrdiff_t number)
{
    uint8_t out[64];
    memset(out, UNTOUCHED, sizeof out);
    CHECK(tally, pgmsg_put_logical(&message, out, sizeof out) == number && are_untouched(out, sizeof out));
}

static void test_refusals(struct tally *tally)
{
    static const pgmsg_datum_text unknown[] = {{'t', BYTES("a")}, {'x', BYTES("b")}};
    static const pgmsg_table_column_text broken[] = {{0, BYTES("a"), 1, 2}, {0, BYTES("b\0"), 1, 2}};
    const pgmsg_logical_text letters[] = {
        {.letter = 'I', .values = LIST(unknown)},
        {.letter = 'U', .values = LIST(unknown)},
        {.letter = 'U', .old_letter = 'K', .old_values = LIST(unknown)},
        {.letter = 'U', .old_letter = 'N'},
        {.letter = 'D', .old_letter = 'O', .old_values = LIST(unknown)},
        {.letter = 'D', .old_letter = 'N'},
        {.letter = 'D'},
    };
    const pgmsg_logical_text nuls[] = {
        {.letter = 'M', .name = BYTES("a\0")}, {.letter = 'O', .name = BYTES("\0")}, {.letter = 'R', .schema = BYTES("\0a")},
        {.letter = 'R', .name = BYTES("a\0")}, {.letter = 'R', .columns = LIST(broken)}, {.letter = 'Y', .schema = BYTES("\0")},
        {.letter = 'Y', .name = BYTES("\0")}, {.letter = 'b', .name = BYTES("\0")}, {.letter = 'P', .name = BYTES("\0")},
        {.letter = 'K', .name = BYTES("\0")}, {.letter = 'r', .name = BYTES("\0")}, {.letter = 'p', .name = BYTES("\0")},
    };
    for (size_t i = 0; i < sizeof letters / sizeof *letters; i++)
        test_refused(tally, letters[i], PGMSG_UNKNOWN_LETTER);
    for (size_t i = 0; i < sizeof nuls / sizeof *nuls; i++)
        test_refused(tally, nuls[i], PGMSG_TEXT_HOLDS_NUL);
}

/* As many values and columns as can be counted, and one more; and texts that are as long as a message can be. */
static void test_longest(struct tally *tally, const uint8_t *zeros)
{
    static pgmsg_datum_text values[65536];
    static pgmsg_table_column_text many[65536];
    uint8_t out[1] = {UNTOUCHED};
    for (size_t i = 0; i < 65536; i++)
        values[i].kind = 'n';
    pgmsg_logical_text row_of = {.letter = 'I', .values = values, .values_len = 65535};
    CHECK(tally, pgmsg_put_logical(&row_of, out, sizeof out) == 8 + 65535 && out[0] == UNTOUCHED);
    pgmsg_logical_text table = {.letter = 'R', .columns = many, .columns_len = 65535};
    CHECK(tally, pgmsg_put_logical(&table, out, sizeof out) == 10 + 65535 * 10 && out[0] == UNTOUCHED);
    row_of.values_len = table.columns_len = 65536;
    test_refused(tally, row_of, PGMSG_TOO_MANY);
    test_refused(tally, table, PGMSG_TOO_MANY);
    values[65535].kind = 'x';
    test_refused(tally, row_of, PGMSG_UNKNOWN_LETTER);
    pgmsg_logical_text emitted = {.letter = 'M', .content = zeros, .content_len = TOO_LONG - 1 - 15};
    CHECK(tally, pgmsg_put_logical(&emitted, out, sizeof out) == (ptrdiff_t)TOO_LONG - 1 && out[0] == UNTOUCHED);
    emitted.content_len++;
    test_refused(tally, emitted, PGMSG_MESSAGE_TOO_LONG);
}

void test_logical_put(struct tally *tally)
{
    test_passed_over(tally);
    test_refusals(tally);
    with_zeros(tally, TOO_LONG, test_longest);
}
