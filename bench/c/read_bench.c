/* How long the calls that read a client's messages take, beside C that is written by hand and refuses the same:
 *
 *     read_bench           prints a line for each message
 *     read_bench bodies    prints of each its words, its tag, its body in hexadecimal digits and the nanoseconds that
 *                          the library takes with all its lists, apart by tabs
 */
#include "by_hand.h"
#include "turns.h"

#include <stdio.h>
#include <stdlib.h>
#include <string.h>

enum { HEADER = 5, ROOM = 65536, MOST_VALUES = 64, LONGEST = 256, TIMES = 50000 };

/* A message and its body. */
struct body {
    uint8_t message[ROOM];
    const uint8_t *bytes;
    size_t len;
};

/* What is given of a message. */
union given {
    struct {
        pgmsg_bind bind;
        pgmsg_cell values[MOST_VALUES];
    };
    pgmsg_parse parse;
    pgmsg_execute execute;
};

/* The bytes of it that a call fills, without any after the last field. */
enum {
    OF_BIND = sizeof(union given),
    OF_PARSE = sizeof(pgmsg_parse),
    OF_EXECUTE = offsetof(pgmsg_execute, max_rows) + sizeof(uint32_t),
};

/* A call that reads a message. */
typedef ptrdiff_t reader(const struct body *body, union given *given);

static pgmsg_fault fault;

static ptrdiff_t library_bind(const struct body *body, union given *given)
{
    return pgmsg_read_bind(body->bytes, body->len, given->values, MOST_VALUES, &given->bind, &fault);
}

static uint16_t codes[MOST_VALUES];
static uint32_t numbers[MOST_VALUES];

static ptrdiff_t whole_bind(const struct body *body, union given *given)
{
    ptrdiff_t count = library_bind(body, given);
    if (count >= 0) {
        pgmsg_read_codes(body->bytes, body->len, given->bind.formats, codes, MOST_VALUES);
        pgmsg_read_codes(body->bytes, body->len, given->bind.result_formats, codes, MOST_VALUES);
    }
    return count;
}

static ptrdiff_t by_hand_bind(const struct body *body, union given *given)
{
    return hand_read_bind(body->bytes, body->len, given->values, MOST_VALUES, &given->bind);
}

static ptrdiff_t library_parse(const struct body *body, union given *given)
{
    return pgmsg_read_parse(body->bytes, body->len, &given->parse, &fault);
}

static ptrdiff_t whole_parse(const struct body *body, union given *given)
{
    int32_t refused = library_parse(body, given) < 0;
    if (!refused)
        pgmsg_read_types(body->bytes, body->len, given->parse.types, numbers, MOST_VALUES);
    return refused;
}

static ptrdiff_t by_hand_parse(const struct body *body, union given *given)
{
    return hand_read_parse(body->bytes, body->len, &given->parse);
}

static ptrdiff_t library_execute(const struct body *body, union given *given)
{
    return pgmsg_read_execute(body->bytes, body->len, &given->execute, &fault);
}

static ptrdiff_t by_hand_execute(const struct body *body, union given *given)
{
    return hand_read_execute(body->bytes, body->len, &given->execute);
}

/* What messages are made of. */
static uint8_t bytes[LONGEST];
static const uint32_t types[8] = {23, 25, 20, 21, 16, 700, 701, 1043};
static const uint16_t binary = 1;

/* So many values of so many bytes for a statement of nine letters, all binary. */
static ptrdiff_t put_bind(uint8_t *out, size_t count, size_t len)
{
    pgmsg_value values[MOST_VALUES];
    for (size_t i = 0; i < count; i++)
        values[i] = (pgmsg_value){bytes, len, false};
    return pgmsg_put_bind(bytes, 0, bytes, 9, &binary, 1, values, count, &binary, 1, out, ROOM);
}

static ptrdiff_t put_parse(uint8_t *out, size_t count, size_t len)
{
    return pgmsg_put_parse(bytes, 9, bytes, len, types, count, out, ROOM);
}

static ptrdiff_t put_execute(uint8_t *out, size_t count, size_t len)
{
    return pgmsg_put_execute(bytes, len, (uint32_t)count, out, ROOM);
}

/* A message of so many items, of so many bytes; how it is read by the library, by hand, and by the library with all
 * its lists; and how much is given of it. */
struct message {
    const char *words;
    ptrdiff_t (*put)(uint8_t *out, size_t count, size_t len);
    size_t count, len;
    reader *library, *hand, *whole;
    size_t size;
};

static const struct message messages[] = {
    {"Bind of 5 values of 8 bytes", put_bind, 5, 8, library_bind, by_hand_bind, whole_bind, OF_BIND},
    {"Bind of 5 values of 200 bytes", put_bind, 5, 200, library_bind, by_hand_bind, whole_bind, OF_BIND},
    {"Bind of 50 values of 8 bytes", put_bind, 50, 8, library_bind, by_hand_bind, whole_bind, OF_BIND},
    {"Parse of 86 bytes, 8 types", put_parse, 8, 86, library_parse, by_hand_parse, whole_parse, OF_PARSE},
    {"Execute", put_execute, 0, 0, library_execute, by_hand_execute, library_execute, OF_EXECUTE},
};

static void write_body(const struct message *message, struct body *body)
{
    ptrdiff_t len = message->put(body->message, message->count, message->len);
    if (len < HEADER || len > ROOM)
        abort();
    body->bytes = body->message + HEADER;
    body->len = (size_t)len - HEADER;
}

/* Ends where the two don't give the same of a body, or don't refuse it by the same number. */
static void compare(const struct message *message, const struct body *body)
{
    static union given one, other;
    memset(&one, 0, sizeof one);
    memset(&other, 0, sizeof other);
    ptrdiff_t found = message->library(body, &one), due = message->hand(body, &other);
    if (found != due || (due >= 0 && memcmp(&one, &other, message->size) != 0)) {
        fprintf(stderr, "%s: the library answers %td, and by hand it is %td\n", message->words, found, due);
        exit(1);
    }
}

/* Compares both on the body, on each front of it, and with each byte changed. */
static void compare_all(const struct message *message)
{
    static struct body body;
    write_body(message, &body);
    size_t whole = body.len;
    for (body.len = 0; body.len < whole; body.len++)
        compare(message, &body);
    for (size_t i = 0; i < whole; i++) {
        for (int other = 0; other < 256; other += 15) {
            uint8_t before = body.message[HEADER + i];
            body.message[HEADER + i] = (uint8_t)other;
            compare(message, &body);
            body.message[HEADER + i] = before;
        }
    }
}

struct work {
    const struct message *message;
    struct body body;
};

static uint64_t read_often(reader *volatile read, const struct body *body, int times)
{
    static union given given;
    uint64_t sum = 0;
    for (int i = 0; i < times; i++) {
        if (read(body, &given) < 0)
            abort();
        sum += given.execute.portal.len + given.parse.types.at + given.values[0].at;
    }
    return sum;
}

#define READ_OFTEN(reader) read_often(((const struct work *)what)->message->reader, &((const struct work *)what)->body, times)

TIMED(by_library, READ_OFTEN(library))
TIMED(with_lists, READ_OFTEN(whole))
TIMED(by_hand, READ_OFTEN(hand))

int main(int count, char **words)
{
    static struct work work;
    bool wants_bodies = count == 2 && strcmp(words[1], "bodies") == 0;
    uint64_t sum = 0;
    memset(bytes, 'x', sizeof bytes);
    for (size_t i = 0; i < sizeof messages / sizeof *messages; i++) {
        work.message = &messages[i];
        compare_all(work.message);
        write_body(work.message, &work.body);
        struct turns of = take_turns(wants_bodies ? with_lists : by_library, by_hand, &work, TIMES, &sum);
        if (wants_bodies)
            print_body(work.message->words, work.body.message[0], work.body.bytes, work.body.len, of.library);
        else
            print_turns(of, 1, "C by hand", "read a client's %s", work.message->words);
    }
    return sum == 0;
}
