/* Sessions, as their clients and servers follow them: which request each answer is for, and what is refused. */
#include "bytes_test_read.h"
#include "refusing.h"

#include <string.h>

/* Whether memory is there. A call needs some for the words of a fault, and while more than one request waits. */
static bool has_memory;

#define STARTUP "\0\3\0\0" "user\0me\0" "\0"
#define SASL "\0\0\0\12" "SCRAM-SHA-256\0"
#define CHALLENGE "\0\0\0\13" "r=a"
#define VERIFIER "\0\0\0\14" "v=a"
#define LOGIN_OK "\0\0\0\0"
#define PASSWORD "\0\0\0\3"

/* A step of a session: what the client says, or what it hears. */
struct step {
    bool is_heard;
    uint8_t tag;
    const char *body;
    size_t len;
    int32_t found;   /* what the call gives */
    uint64_t first;  /* the number of the request, or of the first of the Syncs */
    uint64_t last;
    bool is_last;
    uint8_t mode;    /* what the session waits for then */
};

#define BODY(literal) (literal), sizeof(literal) - 1
#define SAYS(tag, literal, number, mode) {false, (tag), BODY(literal), 1, (number), (number), false, (mode)}
#define GIVES(tag, literal, mode) {false, (tag), BODY(literal), 0, 0, 0, false, (mode)}
#define ANSWERS(tag, literal, number, is_last, mode) \
    {true, (tag), BODY(literal), PGMSG_HEARD_ANSWER, (number), (number), (is_last), (mode)}
#define HEARS(tag, literal, kind, mode) {true, (tag), BODY(literal), (kind), 0, 0, false, (mode)}
#define GROUP(first, last, mode) {true, 'Z', BODY("I"), PGMSG_HEARD_GROUP, (first), (last), false, (mode)}
#define REFUSED_SAID(tag, literal, number) {false, (tag), BODY(literal), (number), 0, 0, false, 0}
#define REFUSED_HEARD(tag, literal, number) {true, (tag), BODY(literal), (number), 0, 0, false, 0}

enum {
    LOGIN = PGMSG_MODE_LOGIN, IDLE = PGMSG_MODE_IDLE, BUSY = PGMSG_MODE_BUSY, COPY_IN = PGMSG_MODE_COPY_IN,
    COPY_OUT = PGMSG_MODE_COPY_OUT, COPY_BOTH = PGMSG_MODE_COPY_BOTH, SKIPPING = PGMSG_MODE_SKIPPING, ENDED = PGMSG_MODE_ENDED
};

/* The login of a client whose server asks for nothing. */
#define TRUSTED                                                                            \
    GIVES(0, STARTUP, LOGIN), HEARS('R', LOGIN_OK, PGMSG_HEARD_LOGIN, LOGIN),              \
    HEARS('Z', "I", PGMSG_HEARD_LOGIN, IDLE)

/* Takes a step of either kind, by memory that is there or that is refused. */
static int32_t take(pgmsg_flow *flow, const struct step *step, uint64_t *number, pgmsg_heard *heard, pgmsg_fault *fault)
{
    const uint8_t *body = (const uint8_t *)step->body;
    return step->is_heard ? pgmsg_flow_heard(flow, step->tag, body, step->len, heard, fault)
                          : pgmsg_flow_said(flow, step->tag, body, step->len, number, fault);
}

static bool is_heard(pgmsg_heard heard, uint64_t first, uint64_t last, bool is_last)
{
    return heard.first == first && heard.last == last && heard.is_last == is_last;
}

/* A step that is refused changes nothing but the fault. */
static void test_refused(struct tally *tally, const pgmsg_flow *before, const pgmsg_flow *flow, const struct step *step,
    uint64_t number, pgmsg_heard heard, const pgmsg_fault *fault)
{
    CHECK(tally, memcmp(before, flow, sizeof *flow) == 0);
    CHECK(tally, number == 7 && is_heard(heard, 8, 9, true));
    CHECK(tally, fault->number == step->found && fault->at == 0 && (fault->words_len > 0) == has_memory);
}

static void test_step(struct tally *tally, pgmsg_flow *flow, const struct step *step)
{
    uint64_t number = 7;
    pgmsg_heard heard = {8, 9, true};
    pgmsg_fault fault;
    pgmsg_flow before;
    memcpy(&before, flow, sizeof before);
    memset(&fault, UNTOUCHED, sizeof fault);
    CHECK(tally, take(flow, step, &number, &heard, &fault) == step->found);
    if (step->found < 0) {
        test_refused(tally, &before, flow, step, number, heard, &fault);
        return;
    }
    CHECK(tally, are_untouched(&fault, sizeof fault));
    CHECK(tally, flow->mode == step->mode);
    CHECK(tally, number == (!step->is_heard && step->found == 1 ? step->first : 7));
    CHECK(tally, step->is_heard ? is_heard(heard, step->first, step->last, step->is_last) : is_heard(heard, 8, 9, true));
}

static void test_steps(struct tally *tally, pgmsg_flow *flow, const struct step *steps, size_t count)
{
    for (size_t i = 0; i < count; i++)
        test_step(tally, flow, &steps[i]);
}

/* A session as its client follows it. */
#define TEST_CLIENT(tally, ...)                                         \
    do {                                                                \
        static const struct step steps[] = {__VA_ARGS__};               \
        pgmsg_flow flow;                                                \
        memset(&flow, UNTOUCHED, sizeof flow);                          \
        pgmsg_flow_client(&flow);                                       \
        test_steps((tally), &flow, steps, sizeof steps / sizeof *steps); \
    } while (0)

/* The same as its server follows it. */
#define TEST_SERVER(tally, ...)                                         \
    do {                                                                \
        static const struct step steps[] = {__VA_ARGS__};               \
        pgmsg_flow flow;                                                \
        memset(&flow, UNTOUCHED, sizeof flow);                          \
        pgmsg_flow_server(&flow);                                       \
        test_steps((tally), &flow, steps, sizeof steps / sizeof *steps); \
    } while (0)

static void test_begun(struct tally *tally)
{
    pgmsg_flow flow;
    memset(&flow, UNTOUCHED, sizeof flow);
    pgmsg_flow_client(&flow);
    CHECK(tally, flow.mode == LOGIN && flow.status == 0 && flow.first == 0 && flow.count == 0 && !flow.is_server);
    memset(&flow, UNTOUCHED, sizeof flow);
    pgmsg_flow_server(&flow);
    CHECK(tally, flow.mode == LOGIN && flow.status == 0 && flow.first == 0 && flow.count == 0 && flow.is_server);
}

/* Logins, and what a server that doesn't know the password might send in them. */
static void test_logins(struct tally *tally)
{
    TEST_CLIENT(tally, TRUSTED, REFUSED_HEARD('R', PASSWORD, PGMSG_UNKNOWN_MESSAGE_TYPE),
        REFUSED_SAID('p', "secret", PGMSG_UNKNOWN_MESSAGE_TYPE));
    TEST_CLIENT(tally, GIVES(0, "\4\322\26\57", LOGIN), HEARS('N', "", PGMSG_HEARD_LOGIN, LOGIN),
        REFUSED_SAID(0, "\4\322\26\57", PGMSG_NOT_READY), GIVES(0, STARTUP, LOGIN));
    TEST_CLIENT(tally, GIVES(0, STARTUP, LOGIN), HEARS('R', SASL, PGMSG_HEARD_LOGIN, LOGIN),
        REFUSED_HEARD('R', SASL, PGMSG_NOT_READY), GIVES('p', "SCRAM-SHA-256\0\0\0\0\0", LOGIN),
        REFUSED_HEARD('Z', "I", PGMSG_NOT_READY), REFUSED_HEARD('R', LOGIN_OK, PGMSG_NOT_READY),
        HEARS('R', CHALLENGE, PGMSG_HEARD_LOGIN, LOGIN), GIVES('p', "c=biws", LOGIN),
        REFUSED_HEARD('R', LOGIN_OK, PGMSG_NOT_READY), HEARS('R', VERIFIER, PGMSG_HEARD_LOGIN, LOGIN),
        REFUSED_HEARD('Z', "I", PGMSG_NOT_READY), HEARS('R', LOGIN_OK, PGMSG_HEARD_LOGIN, LOGIN),
        REFUSED_HEARD('D', "\0\0", PGMSG_NOT_READY), REFUSED_SAID('Q', "SELECT 1\0", PGMSG_NOT_READY),
        HEARS('S', "a\0b\0", PGMSG_HEARD_LOGIN, LOGIN), HEARS('K', "", PGMSG_HEARD_LOGIN, LOGIN),
        HEARS('Z', "I", PGMSG_HEARD_LOGIN, IDLE));
    TEST_CLIENT(tally, GIVES(0, STARTUP, LOGIN), HEARS('R', PASSWORD, PGMSG_HEARD_LOGIN, LOGIN),
        GIVES('p', "secret\0", LOGIN), HEARS('E', "\0", PGMSG_HEARD_END, ENDED),
        REFUSED_SAID('Q', "SELECT 1\0", PGMSG_AFTER_END), REFUSED_HEARD('Z', "I", PGMSG_AFTER_END));
    TEST_CLIENT(tally, GIVES(0, "\4\322\26\56", ENDED));
}

/* Queries, rows and errors. */
static void test_queries(struct tally *tally)
{
    TEST_CLIENT(tally, TRUSTED, REFUSED_HEARD('D', "\0\0", PGMSG_UNASKED), HEARS('N', "\0", PGMSG_HEARD_BY_ITSELF, IDLE),
        SAYS('Q', "SELECT 1\0", 0, BUSY), REFUSED_HEARD('D', "\0\0", PGMSG_NOT_AN_ANSWER),
        ANSWERS('T', "\0\0", 0, false, BUSY), ANSWERS('D', "\0\0", 0, false, BUSY), ANSWERS('D', "\0\0", 0, false, BUSY),
        HEARS('A', "", PGMSG_HEARD_BY_ITSELF, BUSY), ANSWERS('C', "SELECT 2\0", 0, false, BUSY), ANSWERS('Z', "T", 0, true, IDLE),
        SAYS('Q', "\0", 1, BUSY), ANSWERS('E', "\0", 1, false, BUSY), HEARS('E', "\0", PGMSG_HEARD_END, ENDED));
    TEST_CLIENT(tally, TRUSTED, SAYS('F', "", 0, BUSY), ANSWERS('V', "", 0, false, BUSY), ANSWERS('Z', "I", 0, true, IDLE),
        GIVES('X', "", ENDED), REFUSED_SAID('Q', "\0", PGMSG_AFTER_END), GIVES('X', "", ENDED));
    TEST_CLIENT(tally, TRUSTED, HEARS('E', "\0", PGMSG_HEARD_END, ENDED), HEARS('E', "\0", PGMSG_HEARD_END, ENDED));
    TEST_CLIENT(tally, TRUSTED, REFUSED_SAID('~', "", PGMSG_UNKNOWN_MESSAGE_TYPE), REFUSED_SAID('D', "x", PGMSG_UNKNOWN_MESSAGE_TYPE),
        REFUSED_HEARD('~', "", PGMSG_UNKNOWN_MESSAGE_TYPE), REFUSED_HEARD('Z', "", PGMSG_UNKNOWN_MESSAGE_TYPE));
}

/* Pipelines, of which an error passes over what comes up to a Sync. */
static void test_pipelines(struct tally *tally)
{
    TEST_CLIENT(tally, TRUSTED, SAYS('P', "", 0, BUSY), SAYS('B', "", 1, BUSY), SAYS('D', "P\0", 2, BUSY), SAYS('E', "", 3, BUSY),
        GIVES('H', "", BUSY), SAYS('S', "", 4, BUSY), SAYS('B', "", 5, BUSY), SAYS('E', "", 6, BUSY), SAYS('S', "", 7, BUSY),
        SAYS('Q', "\0", 8, BUSY), ANSWERS('1', "", 0, true, BUSY), ANSWERS('2', "", 1, true, BUSY), ANSWERS('T', "", 2, true, BUSY),
        ANSWERS('D', "\0\0", 3, false, BUSY), ANSWERS('s', "", 3, true, BUSY), REFUSED_HEARD('2', "", PGMSG_NOT_AN_ANSWER),
        ANSWERS('Z', "T", 4, true, BUSY), ANSWERS('E', "\0", 5, true, BUSY), ANSWERS('Z', "E", 7, true, BUSY),
        ANSWERS('I', "", 8, false, BUSY), ANSWERS('Z', "I", 8, true, IDLE));
    TEST_CLIENT(tally, TRUSTED, SAYS('D', "S\0", 0, BUSY), ANSWERS('t', "", 0, false, BUSY), ANSWERS('n', "", 0, true, IDLE),
        SAYS('C', "S\0", 1, BUSY), ANSWERS('E', "\0", 1, true, SKIPPING), SAYS('Q', "\0", 2, SKIPPING), SAYS('S', "", 3, BUSY),
        ANSWERS('Z', "I", 3, true, IDLE), SAYS('C', "S\0", 4, BUSY), ANSWERS('3', "", 4, true, IDLE));
}

/* COPY of either direction. A server drops a Sync before the end of the data, and answers it where the COPY has failed. */
static void test_copies(struct tally *tally)
{
    TEST_CLIENT(tally, TRUSTED, SAYS('Q', "COPY\0", 0, BUSY), ANSWERS('H', "", 0, false, COPY_OUT), ANSWERS('d', "", 0, false, COPY_OUT),
        ANSWERS('c', "", 0, false, BUSY), ANSWERS('C', "", 0, false, BUSY), ANSWERS('Z', "I", 0, true, IDLE));
    TEST_CLIENT(tally, TRUSTED, SAYS('Q', "COPY\0", 0, BUSY), ANSWERS('G', "", 0, false, COPY_IN), GIVES('d', "a", COPY_IN),
        REFUSED_SAID('Q', "\0", PGMSG_IN_COPY), GIVES('c', "", BUSY), REFUSED_SAID('d', "a", PGMSG_NOT_IN_COPY),
        ANSWERS('C', "", 0, false, BUSY), ANSWERS('Z', "I", 0, true, IDLE));
    TEST_CLIENT(tally, TRUSTED, SAYS('Q', "COPY\0", 0, BUSY), ANSWERS('G', "", 0, false, COPY_IN), GIVES('f', "", BUSY),
        ANSWERS('E', "\0", 0, false, BUSY), ANSWERS('Z', "I", 0, true, IDLE));
    TEST_CLIENT(tally, TRUSTED, SAYS('Q', "COPY\0", 0, BUSY), SAYS('Q', "\0", 1, BUSY), REFUSED_HEARD('G', "", PGMSG_BEHIND_COPY));
    TEST_CLIENT(tally, TRUSTED, SAYS('E', "", 0, BUSY), SAYS('S', "", 1, BUSY), ANSWERS('G', "", 0, false, COPY_IN), GIVES('d', "a", COPY_IN),
        GIVES('c', "", BUSY), REFUSED_SAID('Q', "\0", PGMSG_SYNC_FIRST), SAYS('S', "", 2, BUSY), ANSWERS('E', "\0", 0, true, BUSY),
        GROUP(1, 2, IDLE), SAYS('Q', "\0", 3, BUSY), GROUP(1, 2, BUSY), ANSWERS('I', "", 3, false, BUSY), ANSWERS('Z', "I", 3, true, IDLE));
}

/* A server takes a request once it is done with the one before. */
static void test_server_sessions(struct tally *tally)
{
    TEST_SERVER(tally, REFUSED_HEARD('R', LOGIN_OK, PGMSG_NOT_READY), TRUSTED, SAYS('P', "", 0, BUSY), REFUSED_SAID('B', "", PGMSG_BUSY),
        ANSWERS('1', "", 0, true, IDLE), SAYS('B', "", 1, BUSY), REFUSED_HEARD('D', "\0\0", PGMSG_NOT_AN_ANSWER),
        ANSWERS('E', "\0", 1, true, SKIPPING), SAYS('E', "", 2, SKIPPING), REFUSED_HEARD('Z', "I", PGMSG_UNASKED), SAYS('S', "", 3, BUSY),
        ANSWERS('Z', "I", 3, true, IDLE), GIVES('X', "", ENDED), REFUSED_HEARD('E', "\0", PGMSG_AFTER_END));
}

/* What the fields say: the status, and which requests wait. */
static void test_fields(struct tally *tally)
{
    static const struct step steps[] = {TRUSTED, SAYS('P', "", 0, BUSY), SAYS('S', "", 1, BUSY), ANSWERS('1', "", 0, true, BUSY),
        ANSWERS('Z', "T", 1, true, IDLE)};
    pgmsg_flow flow;
    pgmsg_flow_client(&flow);
    test_steps(tally, &flow, steps, 3);
    CHECK(tally, flow.status == 'I' && flow.count == 0 && flow.first == 0);
    test_steps(tally, &flow, steps + 3, 2);
    CHECK(tally, flow.status == 'I' && flow.count == 2 && flow.first == 0);
    test_steps(tally, &flow, steps + 5, 1);
    CHECK(tally, flow.status == 'I' && flow.count == 2 && flow.first == 1);
    test_steps(tally, &flow, steps + 6, 1);
    CHECK(tally, flow.status == 'T' && flow.count == 2 && flow.first == 2);
}

/* As many requests wait as there is room for. */
static void test_room(struct tally *tally)
{
    static const struct step login[] = {TRUSTED};
    pgmsg_flow flow;
    pgmsg_fault fault;
    uint64_t number;
    pgmsg_heard heard;
    pgmsg_flow_client(&flow);
    test_steps(tally, &flow, login, 3);
    for (uint64_t i = 0; i < 1025; i++)
        CHECK(tally, pgmsg_flow_said(&flow, 'S', BYTES(""), &number, &fault) == 1 && number == i);
    CHECK(tally, pgmsg_flow_said(&flow, 'S', BYTES(""), &number, &fault) == PGMSG_FLOW_FULL && number == 1024);
    CHECK(tally, flow.count == 1025 && flow.first == 0);
    refuse_all();
    CHECK(tally, pgmsg_flow_heard(&flow, 'Z', BYTES("I"), &heard, &fault) == PGMSG_FLOW_FULL && flow.first == 0);
    was_refused();
    for (uint64_t i = 0; i < 1025; i++)
        CHECK(tally, pgmsg_flow_heard(&flow, 'Z', BYTES("I"), &heard, &fault) == 1 && heard.first == i && heard.is_last);
    CHECK(tally, flow.mode == IDLE && flow.first == 1025);
}

void test_flow(struct tally *tally)
{
    has_memory = false;
    test_begun(tally);
    test_logins(tally);
    test_queries(tally);
    was_refused();
    has_memory = true;
    test_logins(tally);
    test_queries(tally);
    test_pipelines(tally);
    test_copies(tally);
    test_server_sessions(tally);
    test_fields(tally);
    test_room(tally);
}
