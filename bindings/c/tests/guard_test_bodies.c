/* Bodies at pages that can't be touched: each cut at each length, with each byte replaced in turn. */
#include "guard_test.h"

#include <stdio.h>
#include <string.h>

enum { LONGEST = 128, PLENTY = 64, MOST_ROOM = 4 };

/* Where bodies and what is read of them are. */
static struct guarded bodies, ones, items, seconds, faults;

/* How many items there is room for, and at which end of its page everything is. */
static size_t room;
static enum side side;

void *room_for_one(size_t size)
{
    return place(&ones, size, side);
}

void *room_for_items(size_t size)
{
    return place(&items, room * size, side);
}

uint8_t *room_for_bytes(void)
{
    return place(&seconds, room, side);
}

size_t items_room(void)
{
    return room;
}

/* Whether two faults say the same. */
static bool are_same(const pgmsg_fault *one, const pgmsg_fault *other)
{
    return one->number == other->number && one->at == other->at && one->words_len == other->words_len
        && memcmp(one->words, other->words, sizeof one->words) == 0;
}

/* Reads some bytes at an end of their page, into room at one too. What is due is what is read with bytes beside
 * them. */
static bool is_read(const struct body *sample, const uint8_t *bytes, size_t len, size_t count)
{
    uint8_t around[LONGEST + 2 * PLENTY];
    pgmsg_fault due, *fault = (pgmsg_fault *)(void *)place(&faults, sizeof due, side);
    uint8_t *body = place(&bodies, len, side);
    memset(around, UNTOUCHED, sizeof around);
    memcpy(around + PLENTY, bytes, len);
    memcpy(body, bytes, len);
    memset(&due, UNTOUCHED, sizeof due);
    memset(fault, UNTOUCHED, sizeof *fault);
    room = count;
    ptrdiff_t due_answer = sample->read(around + PLENTY, len, &due);
    return sample->read(body, len, fault) == due_answer && are_same(fault, &due);
}

/* The front of a body, and what becomes of it by other bytes. */
static void test_front(struct tally *tally, const struct body *sample, size_t len)
{
    static const uint8_t others[] = {0, 1, '=', 127, 128, 255};
    uint8_t bytes[LONGEST];
    memcpy(bytes, sample->bytes, len);
    for (size_t count = 0; count <= MOST_ROOM; count++) {
        CHECK(tally, is_read(sample, bytes, len, count));
        for (size_t i = 0; i < len; i++) {
            for (size_t j = 0; j < sizeof others; j++) {
                bytes[i] = others[j];
                CHECK(tally, is_read(sample, bytes, len, count));
            }
            bytes[i] = (uint8_t)sample->bytes[i];
        }
    }
}

static void test_body(struct tally *tally, const struct body *sample)
{
    unsigned failed = tally->failed;
    name_call(sample->name);
    CHECK(tally, sample->len <= LONGEST);
    for (size_t len = 0; len <= sample->len && sample->len <= LONGEST; len++)
        test_front(tally, sample, len);
    if (tally->failed > failed)
        fprintf(stderr, "read of a %s\n", sample->name);
}

void test_guarded_bodies(struct tally *tally, const struct body *samples, size_t count)
{
    struct guarded *const pages[] = {&bodies, &ones, &items, &seconds, &faults};
    for (size_t i = 0; i < sizeof pages / sizeof *pages; i++)
        *pages[i] = guarded_page();
    for (size_t i = 0; i < count; i++) {
        side = AT_FRONT;
        test_body(tally, &samples[i]);
        side = AT_END;
        test_body(tally, &samples[i]);
    }
}
