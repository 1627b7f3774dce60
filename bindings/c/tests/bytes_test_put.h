/* What the tests over messages that are written share. */
#ifndef BYTES_TEST_PUT_H
#define BYTES_TEST_PUT_H

#include "bytes_test.h"

#include <string.h>

/* A function that puts a message into the room for it, and its row of a table, by its name, its call and its bytes. */
#define WRITER(name, call, literal)                           \
    static ptrdiff_t put_##name(uint8_t *out, size_t out_len) \
    {                                                         \
        return call;                                          \
    }

#define SAMPLE(name, call, literal) {put_##name, literal, sizeof(literal) - 1},

/* A byte more than the longest message has, without its tag. */
#define TOO_LONG ((size_t)1 << 31)

/* Checks that a call answers a number, and leaves ROOM bytes of `out` alone. */
#define REFUSES(tally, number, call)                    \
    do {                                                \
        uint8_t out[ROOM];                              \
        memset(out, UNTOUCHED, sizeof out);             \
        CHECK((tally), (call) == (number));             \
        CHECK((tally), are_untouched(out, sizeof out)); \
    } while (0)

/* Checks a call on a text that begins, goes on or ends with a NUL: by `text` and `len`. */
#define REFUSES_NUL(tally, call)                                   \
    do {                                                           \
        static const char *const texts[] = {"\0a", "a\0b", "ab\0"}; \
        static const size_t lengths[] = {2, 3, 3};                 \
        for (size_t i = 0; i < 3; i++) {                           \
            const uint8_t *text = (const uint8_t *)texts[i];       \
            size_t len = lengths[i];                               \
            REFUSES((tally), PGMSG_TEXT_HOLDS_NUL, call);          \
        }                                                          \
    } while (0)

/* Checks a call on the longest message, which has no room, and on one a byte longer: by the value `passed`, or by `n`
 * bytes of `data`, which are in a message of `n` and `beside` bytes with its tag. */
#define COMPARES_LONGEST(tally, beside, call)              \
    do {                                                   \
        size_t n = TOO_LONG - (beside);                    \
        const pgmsg_value value = {data, n, false};        \
        const pgmsg_value longer = {data, n + 1, false};   \
        const pgmsg_value *passed = &value;                \
        (void)passed;                                      \
        REFUSES((tally), (ptrdiff_t)TOO_LONG, call);       \
        n++;                                               \
        passed = &longer;                                  \
        REFUSES((tally), PGMSG_MESSAGE_TOO_LONG, call);    \
    } while (0)

#endif
