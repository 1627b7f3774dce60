/* What messages are written of, at random: a text and lists, all of one length, with texts of their own in the lists. */
#include "inputs.h"

#include "random.h"
#include "writers.h"

#include <string.h>

enum { MOST = 70000, FEW = 12, SOME = 300, SHORT_TEXT = 24, DIGEST = 16 };

static uint8_t text[MOST], digest[DIGEST];
static uint16_t codes[MOST];
static uint32_t types[MOST];
static pgmsg_value values[MOST];
static pgmsg_setting settings[MOST];
static pgmsg_bytes names[MOST];
static pgmsg_field_text fields[MOST];
static pgmsg_column_text columns[MOST];
static pgmsg_table_column_text table_columns[MOST];
static pgmsg_datum_text datums[MOST];
static pgmsg_replication_text replication;
static pgmsg_logical_text logical;

/* A text within the long one, which is NULL at times where it is empty. */
static const uint8_t *short_text(size_t *len)
{
    *len = below(3) ? below(SHORT_TEXT) : 0;
    if (*len == 0 && below(2))
        return NULL;
    return text + below(SOME - SHORT_TEXT);
}

/* A letter of these, or at times any byte. */
static uint8_t letter_of(const char *letters)
{
    return (uint8_t)(below(32) ? (size_t)letters[below(strlen(letters))] : below(256));
}

static void fill_text(size_t len)
{
    int has_nul = once_in(4), is_ascii = below(3) != 0;
    for (size_t i = 0; i < len; i++) {
        text[i] = (uint8_t)(is_ascii ? ' ' + below(95) : below(256));
        if (text[i] == 0 && !has_nul)
            text[i] = 1;
    }
    if (has_nul && len)
        text[below(len)] = 0;
}

static void fill_lists(size_t i)
{
    codes[i] = (uint16_t)(below(8) ? below(2) : below(65536));
    types[i] = (uint32_t)any_number();
    values[i].bytes = short_text(&values[i].bytes_len);
    values[i].is_null = below(4) == 0;
    settings[i].name = short_text(&settings[i].name_len);
    settings[i].value = short_text(&settings[i].value_len);
    names[i].bytes = short_text(&names[i].bytes_len);
    fields[i] = (pgmsg_field_text){letter_of("SVCMDHPpqWstcdnFLR"), NULL, 0};
    fields[i].text = short_text(&fields[i].text_len);
    columns[i] = (pgmsg_column_text){NULL, 0, types[i], (int16_t)any_number(), (uint32_t)any_number(), (int16_t)any_number(),
        (int32_t)any_number(), (int16_t)below(3)};
    columns[i].name = short_text(&columns[i].name_len);
    table_columns[i] = (pgmsg_table_column_text){(uint8_t)any_number(), NULL, 0, types[i], (int32_t)any_number()};
    table_columns[i].name = short_text(&table_columns[i].name_len);
    datums[i] = (pgmsg_datum_text){letter_of("ntub"), NULL, 0};
    datums[i].value = short_text(&datums[i].value_len);
}

static void fill_replication(void)
{
    replication = (pgmsg_replication_text){
        letter_of("wkrhnmdp"), any_number(), any_number(), any_number(), any_number(),
        any_number(), any_number(), (int64_t)any_number(), below(2) == 1, (uint32_t)any_number(), (uint32_t)any_number(),
        (uint32_t)any_number(), (uint32_t)any_number(), NULL, 0, NULL, 0, NULL, 0};
    replication.name = short_text(&replication.name_len);
    replication.location = short_text(&replication.location_len);
    replication.content = short_text(&replication.content_len);
}

static void fill_logical(size_t n)
{
    logical = (pgmsg_logical_text){
        letter_of("BMCORYIUDTSEcAbPKrp"), below(2) == 1, (uint32_t)any_number(),
        (uint32_t)any_number(), (uint8_t)any_number(), below(2) == 1, any_number(), any_number(), any_number(),
        (int64_t)any_number(), (int64_t)any_number(), (uint32_t)any_number(), (uint32_t)any_number(), (uint8_t)any_number(),
        NULL, 0, NULL, 0, NULL, 0, table_columns, n, types, n, letter_of("KO"), datums,
        below(n + 1), datums, n};
    logical.schema = short_text(&logical.schema_len);
    logical.name = short_text(&logical.name_len);
    logical.content = short_text(&logical.content_len);
}

const struct inputs *random_inputs(void)
{
    static struct inputs in;
    size_t n = once_in(40000) ? 65530 + below(12) : once_in(100) ? below(SOME) : below(FEW);
    fill_text(n > SOME ? n : SOME);
    for (size_t i = 0; i < DIGEST; i++)
        digest[i] = (uint8_t)below(256);
    for (size_t i = 0; i < n; i++)
        fill_lists(i);
    fill_replication();
    fill_logical(n);
    in = (struct inputs){n, text, digest, codes, types, values, settings, names, fields, columns, &replication, &logical};
    return &in;
}
