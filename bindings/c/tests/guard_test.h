/* What the tests at pages that can't be touched share. */
#ifndef GUARD_TEST_H
#define GUARD_TEST_H

#include "readers.h"
#include "tally.h"

/* A page between two that can't be touched. */
struct guarded {
    uint8_t *from;
    uint8_t *end;
};

/* Which end of a guarded page something lies at. */
enum side { AT_FRONT, AT_END };

/* Maps a page, and ends the program where there is none. */
struct guarded guarded_page(void);

/* So many bytes at an end of a guarded page. */
uint8_t *place(const struct guarded *page, size_t len, enum side side);

/* Names the call that runs next, for the words that end the program where it touches a page that it can't. */
void name_call(const char *name);

void test_guarded_put(struct tally *tally);
void test_guarded_read(struct tally *tally);

/* Has each body read, cut at each length, with each byte replaced in turn, into room for none and some items: at
 * both ends of pages each. */
void test_guarded_bodies(struct tally *tally, const struct body *samples, size_t count);

#endif
