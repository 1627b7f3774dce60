/* How long pgmsg_read_logical takes for an Insert, beside C that is written by hand and tests every bound:
 *
 *     logical_bench           prints two lines for each shape of a row: C by hand gives the number of the table and the
 *                             values alone, or the whole message, as the library does
 *     logical_bench bodies    prints of each its words, the letter, the message in hexadecimal digits and the nanoseconds of
 *                             the library, apart by tabs
 */
#include "pg_message.h"
#include "turns.h"

#include <stdio.h>
#include <stdlib.h>
#include <string.h>

enum { COLUMNS = 10, TIMES = 50000, ROOM = 16384 };

/* An Insert, and its values. */
struct insert {
    bool has_transaction;
    uint32_t transaction;
    uint32_t relation;
    pgmsg_datum values[COLUMNS];
};

struct content {
    const uint8_t *bytes;
    size_t len;
};

/* Messages one after the other, as they come in a stream. Read over and over at one place, a message would take as long as
 * the places of its bytes and of its values happen to get into each other's way. */
struct stream {
    uint8_t bytes[ROOM];
    size_t len, message_len;
};

static uint32_t u32_at(const uint8_t *at)
{
    return (uint32_t)at[0] << 24 | (uint32_t)at[1] << 16 | (uint32_t)at[2] << 8 | at[3];
}

/* The value at an offset, and past it: 0, or why there is none. */
static int32_t hand_read_value(const struct content *content, size_t *at, pgmsg_datum *value)
{
    if (*at == content->len)
        return PGMSG_SHORT;
    *value = (pgmsg_datum){.kind = content->bytes[(*at)++]};
    if (value->kind == 'n' || value->kind == 'u')
        return 0;
    if (value->kind != 't' && value->kind != 'b')
        return PGMSG_UNKNOWN_LETTER;
    if (content->len - *at < 4)
        return PGMSG_SHORT;
    value->value = (pgmsg_span){*at + 4, u32_at(content->bytes + *at)};
    *at += 4;
    if (content->len - *at < value->value.len)
        return PGMSG_SHORT;
    *at += value->value.len;
    return 0;
}

/* How many values an Insert has, or why it is none. */
static ptrdiff_t hand_read(const struct content *content, bool streamed, struct insert *insert)
{
    size_t at = 1;
    if (content->len == 0)
        return PGMSG_SHORT;
    if (content->bytes[0] != 'I')
        return PGMSG_UNKNOWN_MESSAGE_TYPE;
    if (content->len - at < (streamed ? 11 : 7))
        return PGMSG_SHORT;
    insert->has_transaction = streamed;
    insert->transaction = 0;
    if (streamed) {
        insert->transaction = u32_at(content->bytes + at);
        at += 4;
    }
    insert->relation = u32_at(content->bytes + at);
    if (content->bytes[at + 4] != 'N')
        return PGMSG_UNKNOWN_LETTER;
    size_t count = (size_t)content->bytes[at + 5] << 8 | content->bytes[at + 6];
    at += 7;
    for (size_t i = 0; i < count; i++) {
        pgmsg_datum over, *value = i < COLUMNS ? &insert->values[i] : &over;
        int32_t refused = hand_read_value(content, &at, value);
        if (refused)
            return refused;
    }
    return at == content->len ? (ptrdiff_t)count : PGMSG_TRAILING_BYTES;
}

/* Reads the message that pgmsg_read_logical gives, whose other parts are 0. */
static __attribute__((noinline)) ptrdiff_t hand_read_message(const struct content *content, bool streamed,
                                                             struct insert *insert, pgmsg_logical *message)
{
    ptrdiff_t count = hand_read(content, streamed, insert);
    if (count >= 0)
        *message = (pgmsg_logical){.letter = 'I', .has_transaction = streamed, .transaction = insert->transaction,
                                   .relation = insert->relation, .new_row = {streamed ? 12 : 8, (size_t)count}};
    return count;
}

static ptrdiff_t hand_read_whole(const struct content *content, bool streamed, struct insert *insert)
{
    pgmsg_logical message;
    ptrdiff_t count = hand_read_message(content, streamed, insert, &message);
    if (count >= 0)
        insert->relation = message.relation;
    return count;
}

static ptrdiff_t library_read(const struct content *content, bool streamed, struct insert *insert)
{
    pgmsg_fault fault;
    pgmsg_logical message;
    ptrdiff_t count = pgmsg_read_logical(content->bytes, content->len, &streamed, insert->values, COLUMNS, &message, &fault);
    if (count < 0)
        return count;
    insert->has_transaction = message.has_transaction;
    insert->transaction = message.transaction;
    insert->relation = message.relation;
    return count;
}

typedef ptrdiff_t reader(const struct content *content, bool streamed, struct insert *insert);

static uint64_t read_often(reader *volatile read, const struct stream *stream, int times)
{
    static struct insert insert;
    uint64_t sum = 0;
    size_t at = 0;
    for (int i = 0; i < times; i++) {
        struct content content = {stream->bytes + at, stream->message_len};
        if (read(&content, false, &insert) != COLUMNS) {
            fprintf(stderr, "a message is refused\n");
            exit(1);
        }
        sum += insert.relation + insert.values[COLUMNS - 1].value.at;
        at += stream->message_len;
        if (at == stream->len)
            at = 0;
    }
    return sum;
}

TIMED(by_library, read_often(library_read, what, times))
TIMED(by_hand, read_often(hand_read, what, times))
TIMED(by_hand_whole, read_often(hand_read_whole, what, times))

/* A row whose values are of so many bytes, as text or binary, of which some are NULL. */
struct shape {
    const char *words;
    char kind;
    int nulls, len;
};

static void write_inserts(const struct shape *shape, struct stream *stream)
{
    uint8_t *to = stream->bytes;
    memcpy(to, "I\0\0\x40\x01N\0\x0a", 8);
    to += 8;
    for (int i = 0; i < COLUMNS; i++) {
        if (i < shape->nulls) {
            *to++ = 'n';
            continue;
        }
        memcpy(to, (uint8_t[]){(uint8_t)shape->kind, 0, 0, 0, (uint8_t)shape->len}, 5);
        memset(to + 5, '1', (size_t)shape->len);
        to += 5 + shape->len;
    }
    size_t len = stream->message_len = (size_t)(to - stream->bytes);
    for (stream->len = len; stream->len + len <= ROOM; stream->len += len)
        memcpy(stream->bytes + stream->len, stream->bytes, len);
}

/* Ends where the two don't give the same. */
static void compare(const struct content *content)
{
    static struct insert one, other;
    if (library_read(content, false, &one) != hand_read(content, false, &other) || one.relation != other.relation)
        abort();
    for (int i = 0; i < COLUMNS; i++)
        if (one.values[i].kind != other.values[i].kind || one.values[i].value.at != other.values[i].value.at
            || one.values[i].value.len != other.values[i].value.len)
            abort();
}

static uint64_t measure(const struct shape *shape, bool bodies)
{
    static struct stream stream;
    uint64_t sum = 0;
    write_inserts(shape, &stream);
    compare(&(struct content){stream.bytes, stream.message_len});
    struct turns of = take_turns(by_library, by_hand, &stream, TIMES, &sum);
    if (bodies) {
        print_body(shape->words, 'I', stream.bytes, stream.message_len, of.library);
        return sum;
    }
    struct turns whole = take_turns(by_library, by_hand_whole, &stream, TIMES, &sum);
    print_turns(whole, 1, "C by hand, of the whole message", "read %s", shape->words);
    print_turns(of, 1, "C by hand", "read %s", shape->words);
    return sum;
}

int main(int argc, char **argv)
{
    static const struct shape shapes[] = {
        {"Insert of 10 texts of 8 bytes", 't', 0, 8},
        {"Insert of 10 texts of 8 bytes, 4 NULL", 't', 4, 8},
        {"Insert of 10 binary values of 200 bytes", 'b', 0, 200},
    };
    bool bodies = argc == 2 && strcmp(argv[1], "bodies") == 0;
    uint64_t sum = 0;
    for (size_t i = 0; i < sizeof shapes / sizeof *shapes; i++)
        sum += measure(&shapes[i], bodies);
    return sum == 0;
}
