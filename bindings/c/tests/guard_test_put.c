/* Messages to the server and to a client: of texts and lists at pages that can't be touched, into room at such a
 * page. */
#include "bytes_test.h"
#include "guard_test.h"
#include "writers.h"

#include <stdio.h>
#include <string.h>

enum { ROOM = 2048, MOST = 12, DIGEST = 16, HEAD = 5, REFUSED_ROOM = 40 };

/* Where inputs and a message are. */
static struct guarded texts, digests, codes, types, values, settings, names, fields, columns, replications, table_columns,
    datums, logicals, outs;

CALLS(WRITER)

#define ROW(name, arguments) {#name, put_##name},

static const struct {
    const char *name;
    ptrdiff_t (*put)(const struct inputs *in, uint8_t *out, size_t out_len);
} calls[] = {CALLS(ROW)};

/* Texts of letters, and lists whose texts end or begin at the page of the text. */
static struct inputs guarded_inputs(size_t n, enum side side)
{
    uint8_t *text = place(&texts, n, side), *digest = place(&digests, DIGEST, side);
    uint16_t *code = (uint16_t *)(void *)place(&codes, n * sizeof *code, side);
    uint32_t *type = (uint32_t *)(void *)place(&types, n * sizeof *type, side);
    pgmsg_value *value = (pgmsg_value *)(void *)place(&values, n * sizeof *value, side);
    pgmsg_setting *setting = (pgmsg_setting *)(void *)place(&settings, n * sizeof *setting, side);
    pgmsg_bytes *name = (pgmsg_bytes *)(void *)place(&names, n * sizeof *name, side);
    pgmsg_field_text *field = (pgmsg_field_text *)(void *)place(&fields, n * sizeof *field, side);
    pgmsg_column_text *column = (pgmsg_column_text *)(void *)place(&columns, n * sizeof *column, side);
    pgmsg_replication_text *replication = (pgmsg_replication_text *)(void *)place(&replications, sizeof *replication, side);
    *replication = (pgmsg_replication_text){
        "wkrhnmdp?"[n % 9], n, n + 1, n + 2, n + 3, n + 4, n + 5, -(int64_t)n, n % 2 == 1, 6, 7, 8, 9, text, n, text, n, text, n};
    pgmsg_table_column_text *named = (pgmsg_table_column_text *)(void *)place(&table_columns, n * sizeof *named, side);
    pgmsg_datum_text *datum = (pgmsg_datum_text *)(void *)place(&datums, n * sizeof *datum, side);
    pgmsg_logical_text *logical = (pgmsg_logical_text *)(void *)place(&logicals, sizeof *logical, side);
    *logical = (pgmsg_logical_text){
        "EMORYIUDTbPr?"[n % 13], n % 2 == 1, 1, 2, 3, true, 4, 5, 6, 7, 8, 9, 10, 'd', text, n, text, n, text, n, named, n, type, n,
        "KO"[n % 2], datum, n, datum, n};
    for (size_t i = 0; i < DIGEST; i++)
        digest[i] = (uint8_t)(16 * i + n);
    for (size_t i = 0; i < n; i++) {
        size_t len = i % 4, name_len = 1 + i % 3;
        code[i] = (uint16_t)(i * 255);
        type[i] = (uint32_t)i * 65539;
        value[i] = (pgmsg_value){place(&texts, len, side), len, i % 5 == 4};
        setting[i] = (pgmsg_setting){place(&texts, name_len, side), name_len, place(&texts, len, side), len};
        name[i] = (pgmsg_bytes){place(&texts, name_len, side), name_len};
        field[i] = (pgmsg_field_text){(uint8_t)('A' + i), place(&texts, len, side), len};
        column[i] = (pgmsg_column_text){place(&texts, len, side), len, type[i], (int16_t)i, type[i], -1, -1, 1};
        named[i] = (pgmsg_table_column_text){1, place(&texts, len, side), len, type[i], -1};
        datum[i] = (pgmsg_datum_text){(uint8_t)"ntub"[i % 4], place(&texts, len, side), len};
    }
    return (struct inputs){n, text, digest, code, type, value, setting, name, field, column, replication, logical};
}

/* Whether the bytes of a message's page are as they were, from one place to another. */
static bool is_page_untouched(const uint8_t *from, const uint8_t *end)
{
    return are_untouched(from, (size_t)(end - from));
}

/* Checks what was put into so much room at an end of its page, and clears the page. */
static bool is_put(const uint8_t *out, size_t out_len, ptrdiff_t answer, const uint8_t *due, ptrdiff_t due_answer)
{
    size_t len = due_answer >= 0 && (size_t)due_answer <= out_len ? (size_t)due_answer : 0;
    bool is_right = answer == due_answer && memcmp(out, due, len) == 0 && is_page_untouched(outs.from, out)
                 && is_page_untouched(out + len, outs.end);
    memset(outs.from, UNTOUCHED, (size_t)(outs.end - outs.from));
    return is_right;
}

/* A call with as many items at the ends of their pages, into rooms up to one that is long enough. What is due is
 * what it puts where no page is near. */
static void test_call(struct tally *tally, size_t call, size_t n, enum side side)
{
    struct inputs in = guarded_inputs(n, side);
    uint8_t due[ROOM];
    ptrdiff_t due_answer = calls[call].put(&in, due, ROOM);
    size_t most = due_answer < 0 ? REFUSED_ROOM : (size_t)due_answer + 1;
    unsigned failed = tally->failed;
    CHECK(tally, most < ROOM);
    for (size_t out_len = 0; out_len <= most && most < ROOM; out_len++) {
        uint8_t *out = place(&outs, out_len, side);
        ptrdiff_t answer = calls[call].put(&in, out, out_len);
        CHECK(tally, is_put(out, out_len, answer, due, due_answer));
    }
    if (tally->failed > failed)
        fprintf(stderr, "put_%s of %zu items\n", calls[call].name, n);
}

static void test_sample(struct tally *tally, const struct sample *sample, enum side side)
{
    for (size_t out_len = 0; out_len <= sample->len; out_len++) {
        uint8_t *out = place(&outs, out_len, side);
        ptrdiff_t answer = sample->put(out, out_len);
        CHECK(tally, is_put(out, out_len, answer, (const uint8_t *)sample->bytes, (ptrdiff_t)sample->len));
    }
}

/* A name, which has its NUL beside the length that is answered. */
static void test_names(struct tally *tally, enum side side)
{
    static const char due[] = "sqlx_s_4294967295";
    for (size_t out_len = 0; out_len <= sizeof due + 1; out_len++) {
        ptrdiff_t due_answer = out_len < sizeof due ? -1 : (ptrdiff_t)sizeof due;
        uint8_t *out = place(&outs, out_len, side);
        CHECK(tally, pgmsg_put_statement_name(UINT32_MAX, out, out_len) == sizeof due - 1);
        CHECK(tally, is_put(out, out_len, due_answer, (const uint8_t *)due, due_answer));
        out = place(&outs, out_len, side);
        CHECK(tally, pgmsg_put_portal_name(UINT32_MAX, out, out_len) == sizeof due - 1);
        CHECK(tally, is_put(out, out_len, due_answer, (const uint8_t *)"sqlx_p_4294967295", due_answer));
    }
}

static void test_side(struct tally *tally, enum side side)
{
    static const struct sample *(*const sources[])(size_t *count) = {put_samples, server_samples};
    name_call("a sample");
    for (size_t source = 0; source < sizeof sources / sizeof *sources; source++) {
        size_t count;
        const struct sample *samples = sources[source](&count);
        for (size_t i = 0; i < count; i++)
            test_sample(tally, &samples[i], side);
    }
    for (size_t call = 0; call < sizeof calls / sizeof *calls; call++) {
        name_call(calls[call].name);
        for (size_t n = 0; n <= MOST; n++)
            test_call(tally, call, n, side);
    }
    name_call("a name");
    test_names(tally, side);
    name_call("copy_head");
    uint8_t *head = place(&outs, HEAD, side);
    CHECK(tally, pgmsg_put_copy_head(0, head) == 0 && is_put(head, HEAD, HEAD, (const uint8_t *)"d\0\0\0\4", HEAD));
    CHECK(tally, pgmsg_put_copy_head(SIZE_MAX, head) == PGMSG_MESSAGE_TOO_LONG);
    CHECK(tally, is_page_untouched(outs.from, outs.end));
}

void test_guarded_put(struct tally *tally)
{
    struct guarded *const pages[] = {&texts,   &digests,      &codes,         &types,  &values,   &settings, &names, &fields,
                                     &columns, &replications, &table_columns, &datums, &logicals, &outs};
    for (size_t i = 0; i < sizeof pages / sizeof *pages; i++)
        *pages[i] = guarded_page();
    for (uint8_t *text = texts.from; text < texts.end; text++)
        *text = (uint8_t)('a' + (text - texts.from) % 23);
    memset(outs.from, UNTOUCHED, (size_t)(outs.end - outs.from));
    test_side(tally, AT_FRONT);
    test_side(tally, AT_END);
}
