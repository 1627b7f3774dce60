/* What the tests over bytes that are read share. */
#ifndef BYTES_TEST_READ_H
#define BYTES_TEST_READ_H

#include "bytes_test.h"
#include "refusing.h"

#include <string.h>

/* A body that is longer than any, as a length field has 31 bits. */
#define TOO_LONG ((size_t)2147483644)

#define TOO_LONG_WORDS "message body out of range for protocol: 2147483644"

/* Whether some bytes at a place of a body are those of a text. */
bool is_at(const void *body, pgmsg_span span, const char *text);

/* Whether a fault has this number, this place and these words, and no byte after its words was written. */
bool is_fault_of(const pgmsg_fault *fault, int32_t number, size_t at, const char *words);

/* Checks that a call returns a number, and fills `fault` with it: with no words where a request for memory is refused,
 * each in turn, and at last with all of them. */
#define REFUSES(tally, expected, offset, text, call)                                               \
    do {                                                                                           \
        bool is_refused = true;                                                                    \
        size_t nth = 0;                                                                            \
        while (is_refused && ++nth < MANY_REQUESTS) {                                              \
            pgmsg_fault fault;                                                                     \
            memset(&fault, UNTOUCHED, sizeof fault);                                               \
            refuse_nth(nth);                                                                       \
            ptrdiff_t answer = (call);                                                             \
            is_refused = was_refused();                                                            \
            CHECK((tally), answer == (expected));                                                  \
            CHECK((tally), is_fault_of(&fault, (expected), (offset), is_refused ? "" : (text)));   \
        }                                                                                          \
        CHECK((tally), nth > 1 && !is_refused);                                                    \
    } while (0)

/* Checks that a call writes the bytes of a message into each room that has as many, up to `most`, and none into others. The call
 * names the room `out` and its length `room`. */
#define FITS_ROOMS(tally, most, text, text_len, call)                                                                    \
    do {                                                                                                                 \
        uint8_t out[most];                                                                                               \
        for (size_t room = 0; room <= sizeof out; room++) {                                                              \
            memset(out, UNTOUCHED, sizeof out);                                                                          \
            CHECK((tally), (call) == (ptrdiff_t)(text_len));                                                             \
            size_t put = room < (text_len) ? 0 : (text_len);                                                             \
            CHECK((tally), are_bytes(out, put, (text), put) && are_untouched(out + put, sizeof out - put));              \
        }                                                                                                                \
    } while (0)

#endif
