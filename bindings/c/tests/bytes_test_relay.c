/* A stream that is passed on: where its messages lie, and whether what is to be added to it is whole messages. */
#include "bytes_test_read.h"

/* The greatest length of a message that is taken whole here. */
enum { LIMIT = 17 };

#define SSL_REQUEST "\0\0\0\10" "\4\322\26\57"
#define STARTUP "\0\0\0\21" "\0\3\0\0" "user\0me\0" "\0"
#define QUERY "Q\0\0\0\15" "SELECT 1\0"
#define READY "Z\0\0\0\5" "I"
#define ROW "D\0\0\0\14" "\0\1\0\0\0\2" "ab"

/* Nothing is wanted whole, or all messages are, or all but those with a tag. */
static const uint8_t nothing[256];
static uint8_t all[256], all_but_rows[256];

static pgmsg_relay relay_of(bool is_first, size_t left)
{
    return (pgmsg_relay){LIMIT, left, is_first};
}

static bool is_relay(pgmsg_relay relay, bool is_first, size_t left)
{
    return relay.limit == LIMIT && relay.is_first == is_first && relay.left == left;
}

/* A message, cut at each length, and with a byte of the next. */
static void test_whole(struct tally *tally, bool is_first, const char *bytes, size_t len, size_t head, bool next_is_first)
{
    for (size_t there = 0; there <= len + 1; there++) {
        pgmsg_relay relay = relay_of(is_first, 0);
        pgmsg_passage passage = {7, 8};
        pgmsg_fault fault;
        int32_t found = pgmsg_relay_next(&relay, all, (const uint8_t *)bytes, there, &passage, &fault);
        if (there < len) {
            CHECK(tally, found == 0 && passage.tag == 7 && passage.length == (there < head ? head : len));
            CHECK(tally, is_relay(relay, is_first, 0));
        } else {
            CHECK(tally, found == 1 && passage.tag == (is_first ? 0 : bytes[0]) && passage.length == len);
            CHECK(tally, is_relay(relay, next_is_first, 0));
        }
    }
}

/* A message that isn't wanted, cut at each length: its front goes out, and then the rest. */
static void test_parts(struct tally *tally)
{
    static const char stream[] = ROW READY;
    size_t len = sizeof ROW - 1;
    for (size_t there = 0; there < sizeof stream; there++) {
        pgmsg_relay relay = relay_of(false, 0);
        pgmsg_passage passage = {7, 8};
        pgmsg_fault fault;
        int32_t found = pgmsg_relay_next(&relay, all_but_rows, (const uint8_t *)stream, there, &passage, &fault);
        if (there < 5) {
            CHECK(tally, found == 0 && passage.tag == 7 && passage.length == 5 && is_relay(relay, false, 0));
            continue;
        }
        size_t gone = there < len ? there : len;
        CHECK(tally, found == 2 && passage.tag == 'D' && passage.length == gone && is_relay(relay, false, len - gone));
        if (gone == len)
            continue;
        passage.tag = 9;
        CHECK(tally, pgmsg_relay_next(&relay, all_but_rows, BYTES(""), &passage, &fault) == 0);
        CHECK(tally, passage.tag == 9 && passage.length == 1 && is_relay(relay, false, len - gone));
        CHECK(tally, pgmsg_relay_next(&relay, all_but_rows, (const uint8_t *)stream + gone, 1, &passage, &fault) == 2);
        CHECK(tally, passage.tag == 9 && passage.length == 1 && is_relay(relay, false, len - gone - 1));
        relay.left = len - gone;
        CHECK(tally, pgmsg_relay_next(&relay, nothing, (const uint8_t *)stream + gone, sizeof stream - 1 - gone, &passage, &fault) == 2);
        CHECK(tally, passage.tag == 9 && passage.length == len - gone && is_relay(relay, false, 0));
    }
}

/* A stream of several messages, passed on as a proxy does it. */
static void test_stream(struct tally *tally)
{
    static const char stream[] = SSL_REQUEST STARTUP QUERY ROW;
    static const struct { int32_t found; uint8_t tag; size_t length; bool is_first; } due[] = {
        {1, 0, 8, true}, {1, 0, 17, false}, {1, 'Q', 14, false}, {2, 'D', 13, false},
    };
    pgmsg_relay relay = relay_of(true, 0);
    const uint8_t *at = (const uint8_t *)stream;
    for (size_t i = 0; i < sizeof due / sizeof *due; i++) {
        pgmsg_passage passage;
        pgmsg_fault fault;
        int32_t found = pgmsg_relay_next(&relay, all_but_rows, at, (size_t)((const uint8_t *)stream + sizeof stream - 1 - at), &passage, &fault);
        CHECK(tally, found == due[i].found && passage.tag == due[i].tag && passage.length == due[i].length);
        CHECK(tally, is_relay(relay, due[i].is_first, 0));
        at += passage.length;
    }
}

/* What is refused, and that it leaves all but the fault as it was. */
#define REFUSES_NEXT(tally, relay, wanted, literal, number, words)                                                  \
    do {                                                                                                            \
        pgmsg_relay used = (relay), before = used;                                                                  \
        pgmsg_passage passage = {7, 8};                                                                             \
        REFUSES((tally), (number), 0, (words), pgmsg_relay_next(&used, (wanted), BYTES(literal), &passage, &fault)); \
        CHECK((tally), passage.tag == 7 && passage.length == 8);                                                    \
        CHECK((tally), is_relay(used, before.is_first, before.left));                                               \
    } while (0)

static void test_refused(struct tally *tally)
{
    REFUSES_NEXT(tally, relay_of(false, 0), all, "Z\0\0\0\3", PGMSG_BAD_LENGTH, "bad message length: 3");
    REFUSES_NEXT(tally, relay_of(false, 0), nothing, "D\0\0\0\3", PGMSG_BAD_LENGTH, "bad message length: 3");
    REFUSES_NEXT(tally, relay_of(false, 0), nothing, "D\377\377\377\377", PGMSG_BAD_LENGTH, "bad message length: -1");
    REFUSES_NEXT(tally, relay_of(true, 0), nothing, "\0\0\0\7" "\0\3\0", PGMSG_BAD_LENGTH, "bad message length: 7");
    REFUSES_NEXT(tally, relay_of(false, 0), all, "D\0\0\0\21", PGMSG_FRAME_TOO_LONG,
                 "expected a message of at most 17 bytes, got 18");
    REFUSES_NEXT(tally, relay_of(false, 0), all_but_rows, "Z\0\0\0\21", PGMSG_FRAME_TOO_LONG,
                 "expected a message of at most 17 bytes, got 18");
    REFUSES_NEXT(tally, relay_of(true, 0), nothing, "\0\0\0\22", PGMSG_FRAME_TOO_LONG,
                 "expected a message of at most 17 bytes, got 18");
    pgmsg_relay relay = relay_of(false, 0);
    pgmsg_passage passage;
    pgmsg_fault fault;
    CHECK(tally, pgmsg_relay_next(&relay, all, BYTES("D\0\0\0\20"), &passage, &fault) == 0 && passage.length == LIMIT);
    CHECK(tally, pgmsg_relay_next(&relay, nothing, BYTES("D\177\377\377\377"), &passage, &fault) == 2);
    CHECK(tally, passage.length == 5 && is_relay(relay, false, ((size_t)1 << 31) - 5));
}

#define CHECKS(tally, literal, first, last)                                              \
    do {                                                                                 \
        bool is_first = (first);                                                         \
        pgmsg_fault fault;                                                               \
        CHECK((tally), pgmsg_check_frames(BYTES(literal), &is_first, &fault) == 0);      \
        CHECK((tally), is_first == (last));                                              \
    } while (0)

#define REFUSES_FRAMES(tally, literal, first)                                            \
    do {                                                                                 \
        bool is_first = (first);                                                         \
        REFUSES((tally), PGMSG_NOT_FRAMES, 0, "expected whole messages to pass on",      \
                pgmsg_check_frames(BYTES(literal), &is_first, &fault));                  \
        CHECK((tally), is_first == (first));                                             \
    } while (0)

static void test_checked(struct tally *tally)
{
    CHECKS(tally, "", false, false);
    CHECKS(tally, "", true, true);
    CHECKS(tally, READY, false, false);
    CHECKS(tally, READY ROW QUERY, false, false);
    CHECKS(tally, SSL_REQUEST, true, true);
    CHECKS(tally, SSL_REQUEST SSL_REQUEST STARTUP QUERY, true, false);
    REFUSES_FRAMES(tally, "Z", false);
    REFUSES_FRAMES(tally, "Z\0\0\0", false);
    REFUSES_FRAMES(tally, "Z\0\0\0\5", false);
    REFUSES_FRAMES(tally, "Z\0\0\0\3", false);
    REFUSES_FRAMES(tally, READY "Z", false);
    REFUSES_FRAMES(tally, READY, true);
    REFUSES_FRAMES(tally, SSL_REQUEST, false);
    REFUSES_FRAMES(tally, "\0\0\0\7" "\4\322\26", true);
}

void test_relay(struct tally *tally)
{
    memset(all, 1, sizeof all);
    memset(all_but_rows, UNTOUCHED, sizeof all_but_rows);
    all_but_rows['D'] = 0;
    test_whole(tally, true, SSL_REQUEST "Q", sizeof SSL_REQUEST - 1, 4, true);
    test_whole(tally, true, STARTUP "Q", sizeof STARTUP - 1, 4, false);
    test_whole(tally, false, QUERY "Q", sizeof QUERY - 1, 5, false);
    test_parts(tally);
    test_stream(tally);
    test_refused(tally);
    test_checked(tally);
}
