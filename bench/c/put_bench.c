/* How long the calls that put messages take, beside C that is written by hand and refuses the same:
 *
 *     put_bench         prints a line for each message
 *     put_bench rows    prints of each row its words, its tag, its body in hexadecimal digits and the nanoseconds that
 *                       the library takes, apart by tabs
 */
#include "by_hand.h"
#include "turns.h"

#include <stdio.h>
#include <stdlib.h>
#include <string.h>

enum { ROOM = 65536, BYTES = 4096, HEADER = 5, CELLS = 50 };

static uint8_t bytes[BYTES];
static const struct text nothing = {bytes, 0}, name = {bytes, 9}, query = {bytes, 86}, part = {bytes, 64};
static const uint32_t types[8] = {23, 25, 20, 21, 16, 700, 701, 1043};
static const uint16_t binary = 1;
static pgmsg_value short_values[8], long_values[2], cells[CELLS], numbers[CELLS];

static void make_values(void)
{
    memset(bytes, 'x', sizeof bytes);
    for (size_t i = 0; i < 8; i++)
        short_values[i] = (pgmsg_value){bytes, 8, false};
    for (size_t i = 0; i < 2; i++)
        long_values[i] = (pgmsg_value){bytes, BYTES, false};
    for (size_t i = 0; i < CELLS; i++) {
        cells[i] = (pgmsg_value){bytes, i * 7 % 23, i % 5 == 3};
        numbers[i] = (pgmsg_value){bytes, i % 2 == 0 ? 4 : 8, i % 5 == 3};
    }
}

typedef ptrdiff_t put(uint8_t *out, size_t out_len);

/* The call of the library and the one by hand, with the same arguments. */
#define MESSAGE(message, library, hand)                                                        \
    static ptrdiff_t library_##message(uint8_t *out, size_t out_len) { return library; }       \
    static ptrdiff_t hand_##message##_here(uint8_t *out, size_t out_len) { return hand; }

#define TEXT(text) (text).bytes, (text).len

MESSAGE(sync, pgmsg_put_no_body('S', out, out_len), hand_no_body('S', out, out_len))
MESSAGE(query, pgmsg_put_query(TEXT(query), out, out_len), hand_query(query, out, out_len))
MESSAGE(copy_data, pgmsg_put_copy_data(TEXT(part), out, out_len), hand_copy_data(part, out, out_len))
MESSAGE(parse, pgmsg_put_parse(TEXT(name), TEXT(query), types, 8, out, out_len),
        hand_parse(name, query, types, 8, out, out_len))
MESSAGE(bind, pgmsg_put_bind(TEXT(nothing), TEXT(name), &binary, 1, short_values, 8, &binary, 1, out, out_len),
        hand_bind(nothing, name, &binary, 1, short_values, 8, &binary, 1, out, out_len))
MESSAGE(long_bind, pgmsg_put_bind(TEXT(nothing), TEXT(name), &binary, 1, long_values, 2, &binary, 1, out, out_len),
        hand_bind(nothing, name, &binary, 1, long_values, 2, &binary, 1, out, out_len))
MESSAGE(execute, pgmsg_put_execute(TEXT(nothing), 0, out, out_len), hand_execute(nothing, 0, out, out_len))
MESSAGE(short_row, pgmsg_put_row(cells, 5, out, out_len), hand_row(cells, 5, out, out_len))
MESSAGE(long_row, pgmsg_put_row(cells, CELLS, out, out_len), hand_row(cells, CELLS, out, out_len))
MESSAGE(short_numbers, pgmsg_put_row(numbers, 5, out, out_len), hand_row(numbers, 5, out, out_len))
MESSAGE(long_numbers, pgmsg_put_row(numbers, CELLS, out, out_len), hand_row(numbers, CELLS, out, out_len))

struct message {
    const char *name;
    put *library, *hand;
};

#define ROW(words, message) {words, library_##message, hand_##message##_here}

static const struct message messages[] = {
    ROW("Sync", sync),
    ROW("Execute", execute),
    ROW("CopyData of 64 bytes", copy_data),
    ROW("Query of 86 bytes", query),
    ROW("Parse of 86 bytes, 8 types", parse),
    ROW("Bind of 8 values of 8 bytes", bind),
    ROW("Bind of 2 values of 4096 bytes", long_bind),
    ROW("DataRow of 5 texts, one NULL", short_row),
    ROW("DataRow of 50 texts, 10 NULL", long_row),
    ROW("DataRow of 5 numbers, one NULL", short_numbers),
    ROW("DataRow of 50 numbers, 10 NULL", long_numbers),
};

static uint8_t out[ROOM], expected[ROOM];

static uint64_t put_often(put *volatile put, int times)
{
    uint64_t sum = 0;
    for (int i = 0; i < times; i++) {
        ptrdiff_t len = put(out, ROOM);
        sum += (uint64_t)len + out[len - 1];
    }
    return sum;
}

TIMED(by_library, put_often(((const struct message *)what)->library, times))
TIMED(by_hand, put_often(((const struct message *)what)->hand, times))

/* Ends where the two don't write the same. */
static size_t compare(const struct message *message)
{
    ptrdiff_t len = message->hand(expected, ROOM);
    if (len <= 0 || message->library(out, ROOM) != len || memcmp(out, expected, (size_t)len) != 0) {
        fprintf(stderr, "%s: the library writes other bytes\n", message->name);
        exit(1);
    }
    return (size_t)len;
}

static struct turns measure(const struct message *message, uint64_t *sum)
{
    int times = (int)(20000000 / (compare(message) + 100));
    return take_turns(by_library, by_hand, message, times, sum);
}

static uint64_t print_quotients(void)
{
    uint64_t sum = 0;
    for (size_t i = 0; i < sizeof messages / sizeof *messages; i++) {
        struct turns of = measure(&messages[i], &sum);
        print_turns(of, 1, "C by hand", "write %s", messages[i].name);
    }
    return sum;
}

static uint64_t print_rows(void)
{
    uint64_t sum = 0;
    for (size_t i = 0; i < sizeof messages / sizeof *messages; i++) {
        size_t len = compare(&messages[i]);
        if (out[0] != 'D')
            continue;
        struct turns of = measure(&messages[i], &sum);
        print_body(messages[i].name, 'D', out + HEADER, len - HEADER, of.library);
    }
    return sum;
}

int main(int count, char **words)
{
    make_values();
    bool are_rows = count == 2 && strcmp(words[1], "rows") == 0;
    return (are_rows ? print_rows() : print_quotients()) == 0;
}
