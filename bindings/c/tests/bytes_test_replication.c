/* The messages of replication, whose bytes are written down here by the documentation of PostgreSQL, "Streaming
 * Replication Protocol". */
#include "bytes_test_read.h"

#define LITERAL(literal) literal, sizeof(literal) - 1

/* A message, and the CopyData that it is. */
struct replication {
    pgmsg_replication_text message;
    const char *bytes;
    size_t len;
};

/* Each kind, with each part that it has, and with those that may be empty so. */
static const struct replication replications[] = {
    {{.letter = 'w', .start = 0x102030405, .end = 0xfffffffffffffff8, .clock = -2, .content = BYTES("l\0g")},
     LITERAL("d\0\0\0\40" "w" "\0\0\0\1\2\3\4\5" "\377\377\377\377\377\377\377\370" "\377\377\377\377\377\377\377\376" "l\0g")},
    {{.letter = 'w', .end = 1, .clock = INT64_MAX},
     LITERAL("d\0\0\0\35" "w" "\0\0\0\0\0\0\0\0" "\0\0\0\0\0\0\0\1" "\177\377\377\377\377\377\377\377")},
    {{.letter = 'k', .end = 0x1000060, .clock = INT64_MIN, .wants_reply = true},
     LITERAL("d\0\0\0\26" "k" "\0\0\0\0\1\0\0\140" "\200\0\0\0\0\0\0\0" "\1")},
    {{.letter = 'k'}, LITERAL("d\0\0\0\26" "k" "\0\0\0\0\0\0\0\0" "\0\0\0\0\0\0\0\0" "\0")},
    {{.letter = 'r', .written = 0x300, .flushed = 0x200, .applied = 0x100, .clock = 258, .wants_reply = true},
     LITERAL("d\0\0\0\46" "r" "\0\0\0\0\0\0\3\0" "\0\0\0\0\0\0\2\0" "\0\0\0\0\0\0\1\0" "\0\0\0\0\0\0\1\2" "\1")},
    {{.letter = 'h', .clock = 7, .xmin = 0x80000001, .xmin_epoch = 2, .catalog_xmin = 3, .catalog_xmin_epoch = UINT32_MAX},
     LITERAL("d\0\0\0\35" "h" "\0\0\0\0\0\0\0\7" "\200\0\0\1" "\0\0\0\2" "\0\0\0\3" "\377\377\377\377")},
    {{.letter = 'n', .name = BYTES("16384.tar"), .location = BYTES("/srv/\351")},
     LITERAL("d\0\0\0\26" "n" "16384.tar\0" "/srv/\351\0")},
    {{.letter = 'n', .name = BYTES("base.tar")}, LITERAL("d\0\0\0\17" "n" "base.tar\0" "\0")},
    {{.letter = 'm'}, LITERAL("d\0\0\0\5" "m")},
    {{.letter = 'd', .content = BYTES("\0tar")}, LITERAL("d\0\0\0\11" "d" "\0tar")},
    {{.letter = 'd'}, LITERAL("d\0\0\0\5" "d")},
    {{.letter = 'p', .processed = 0x8000000000000001}, LITERAL("d\0\0\0\15" "p" "\200\0\0\0\0\0\0\1")},
};

/* Whether these bytes are at a place, which is this one where they are any part of the message. */
static bool is_part(const uint8_t *data, pgmsg_span span, const uint8_t *bytes, size_t len, size_t at)
{
    return span.len == len && span.at == at && (len == 0 || memcmp(data + span.at, bytes, len) == 0);
}

/* Whether a message was read as it was written: its places too, which the documentation's order of the parts gives. */
static bool is_same(const uint8_t *data, const pgmsg_replication *read, const pgmsg_replication_text *due)
{
    size_t content = due->letter == 'w' ? 25 : due->letter == 'd' ? 1 : 0;
    size_t name = due->letter == 'n' ? 1 : 0;
    size_t location = due->letter == 'n' ? due->name_len + 2 : 0;
    return read->letter == due->letter && read->start == due->start && read->end == due->end
        && read->written == due->written && read->flushed == due->flushed && read->applied == due->applied
        && read->processed == due->processed && read->clock == due->clock && read->wants_reply == due->wants_reply
        && read->xmin == due->xmin && read->xmin_epoch == due->xmin_epoch && read->catalog_xmin == due->catalog_xmin
        && read->catalog_xmin_epoch == due->catalog_xmin_epoch && is_part(data, read->name, due->name, due->name_len, name)
        && is_part(data, read->location, due->location, due->location_len, location)
        && is_part(data, read->content, due->content, due->content_len, content);
}

/* How many bytes of the data of a kind stand before what may have any length. */
static size_t least(uint8_t letter)
{
    static const char letters[] = "wkrhnmdp";
    static const uint8_t lengths[] = {25, 18, 34, 25, 3, 1, 1, 9};
    return lengths[strchr(letters, letter) - letters];
}

/* Reads a message; what is cut off, or too much; and what a refusal leaves alone. */
static void test_read_one(struct tally *tally, const struct replication *sample)
{
    const uint8_t *data = (const uint8_t *)sample->bytes + 5;
    size_t len = sample->len - 5;
    bool is_open = strchr("wd", sample->message.letter) != NULL;
    pgmsg_replication read;
    pgmsg_fault fault;
    memset(&read, UNTOUCHED, sizeof read);
    memset(&fault, UNTOUCHED, sizeof fault);
    CHECK(tally, pgmsg_read_replication(data, len, &read, &fault) == 0 && is_same(data, &read, &sample->message));
    CHECK(tally, are_untouched(&fault, sizeof fault));
    memset(&read, UNTOUCHED, sizeof read);
    size_t whole = is_open ? least(sample->message.letter) : len;
    for (size_t cut = 0; cut < whole; cut++) {
        int32_t due = sample->message.letter == 'n' && cut > 0 ? PGMSG_MISSING_NUL : PGMSG_SHORT;
        CHECK(tally, pgmsg_read_replication(data, cut, &read, &fault) == due && fault.number == due);
        CHECK(tally, are_untouched(&read, sizeof read));
    }
    uint8_t more[64] = {0};
    memcpy(more, data, len);
    CHECK(tally, pgmsg_read_replication(more, len + 1, &read, &fault) == (is_open ? 0 : PGMSG_TRAILING_BYTES));
    CHECK(tally, is_open || (fault.at == len && are_untouched(&read, sizeof read)));
}

/* A flag that is neither 0 nor 1 is read as set, and what is no part of a message is passed over as it is written. */
static void test_passed_over(struct tally *tally)
{
    pgmsg_replication read;
    pgmsg_fault fault;
    CHECK(tally, pgmsg_read_replication(BYTES("k" "\0\0\0\0\0\0\0\1" "\0\0\0\0\0\0\0\2" "\377"), &read, &fault) == 0);
    CHECK(tally, read.wants_reply && read.end == 1 && read.clock == 2);
    const pgmsg_replication_text all = {'m', 1, 2, 3, 4, 5, 6, 7, true, 8, 9, 10, 11, BYTES("a\0"), BYTES("b\0"), BYTES("c")};
    uint8_t out[6];
    CHECK(tally, pgmsg_put_replication(&all, out, sizeof out) == 6 && memcmp(out, "d\0\0\0\5m", 6) == 0);
}

/* Every letter. */
static void test_letters(struct tally *tally)
{
    for (int letter = 0; letter < 256; letter++) {
        const uint8_t data[35] = {(uint8_t)letter};
        const pgmsg_replication_text message = {.letter = (uint8_t)letter};
        bool is_known = letter != 0 && strchr("wkrhnmdp", letter) != NULL;
        pgmsg_replication read;
        pgmsg_fault fault;
        uint8_t out[64];
        memset(out, UNTOUCHED, sizeof out);
        size_t len = is_known ? least((uint8_t)letter) : sizeof data;
        int32_t due = is_known ? 0 : PGMSG_UNKNOWN_MESSAGE_TYPE;
        CHECK(tally, pgmsg_read_replication(data, len, &read, &fault) == due && (!is_known || read.letter == letter));
        ptrdiff_t put = pgmsg_put_replication(&message, out, sizeof out);
        CHECK(tally, put == (is_known ? (ptrdiff_t)len + 5 : PGMSG_UNKNOWN_MESSAGE_TYPE));
        CHECK(tally, is_known ? memcmp(out + 5, data, len) == 0 : are_untouched(out, sizeof out));
    }
}

static void test_refusals(struct tally *tally)
{
    uint8_t out[16];
    memset(out, UNTOUCHED, sizeof out);
    const pgmsg_replication_text texts[] = {
        {.letter = 'n', .name = BYTES("a\0")}, {.letter = 'n', .name = BYTES("a"), .location = BYTES("\0b")}};
    CHECK(tally, pgmsg_put_replication(&texts[0], out, sizeof out) == PGMSG_TEXT_HOLDS_NUL);
    CHECK(tally, pgmsg_put_replication(&texts[1], out, sizeof out) == PGMSG_TEXT_HOLDS_NUL);
    CHECK(tally, are_untouched(out, sizeof out));
}

/* The longest messages and data, and those that are a byte longer. */
static void test_longest(struct tally *tally, const uint8_t *zeros)
{
    static const struct {
        uint8_t letter;
        size_t beside;
    } kinds[] = {{'w', 30}, {'d', 6}};
    uint8_t out[1] = {UNTOUCHED};
    for (size_t i = 0; i < 2; i++) {
        size_t most = ((size_t)1 << 31) - kinds[i].beside;
        pgmsg_replication_text message = {.letter = kinds[i].letter, .content = zeros, .content_len = most};
        CHECK(tally, pgmsg_put_replication(&message, out, sizeof out) == (ptrdiff_t)1 << 31);
        message.content_len++;
        CHECK(tally, pgmsg_put_replication(&message, out, sizeof out) == PGMSG_MESSAGE_TOO_LONG && out[0] == UNTOUCHED);
    }
}

void test_replication(struct tally *tally)
{
    for (size_t i = 0; i < sizeof replications / sizeof *replications; i++) {
        const struct replication *sample = &replications[i];
        test_read_one(tally, sample);
        FITS_ROOMS(tally, 64, sample->bytes, sample->len, pgmsg_put_replication(&sample->message, out, room));
    }
    test_passed_over(tally);
    test_letters(tally);
    test_refusals(tally);
    with_zeros(tally, (size_t)1 << 31, test_longest);
}
