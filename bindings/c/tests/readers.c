/* The calls that read, as functions of one shape. */
#include "readers.h"

/* The lists of two bodies, each behind a letter. */
static const pgmsg_list three_values = {1, 3}, two_columns = {1, 2};

/* Whether a message is streamed, before it is read. */
static bool streamed;

static bool *outside(void)
{
    streamed = false;
    return &streamed;
}

static bool *within(void)
{
    streamed = true;
    return &streamed;
}

/* The list that the first two bytes of a body say: its offset and its count. */
static pgmsg_list list_of(const uint8_t *body, size_t len)
{
    return len < 2 ? (pgmsg_list){0, 1} : (pgmsg_list){body[0], body[1]};
}

/* The greatest length of a message that is taken whole here. */
enum { LIMIT = 300 };

/* The step at the front of a stream of a client or of a server, after so many bytes to come of a message; rows aren't
 * wanted whole. */
static int32_t next(bool is_first, size_t left, const uint8_t *stream, size_t len, pgmsg_passage *passage, pgmsg_fault *fault)
{
    uint8_t *wanted = room_for_one(256);
    for (int tag = 0; tag < 256; tag++)
        wanted[tag] = tag != 'D';
    pgmsg_relay relay = {LIMIT, left, is_first};
    return pgmsg_relay_next(&relay, wanted, stream, len, passage, fault);
}

static ptrdiff_t relayed(bool is_first, size_t left, const uint8_t *stream, size_t len, pgmsg_fault *fault)
{
    pgmsg_passage passage;
    int32_t found = next(is_first, left, stream, len, &passage, fault);
    return found <= 0 ? found : (ptrdiff_t)passage.length;
}

static int32_t checked(bool is_first, const uint8_t *bytes, size_t len, pgmsg_fault *fault)
{
    bool *first = ONE(bool);
    *first = is_first;
    return pgmsg_check_frames(bytes, len, first, fault);
}

#define FUNCTION(name, call)                                                      \
    ptrdiff_t read_##name(const uint8_t *body, size_t len, pgmsg_fault *fault)    \
    {                                                                             \
        (void)fault;                                                              \
        return call;                                                              \
    }

READS(FUNCTION)
