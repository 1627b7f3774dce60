/* How long passing a stream on by the library takes, beside memcpy of the same bytes:
 *
 *     relay_bench
 *
 * The stream lies in one buffer, into which a proxy reads a piece of 64 KiB at a time, and what goes out is copied to
 * another place, as write(2) does. Prints a line for each length of the stream, one of which fits into a cache of its
 * processor, and of messages. */
#include "pg_message.h"
#include "turns.h"

#include <stdbool.h>
#include <stdio.h>
#include <stdlib.h>
#include <string.h>

enum { HEADER = 5, PIECE = 1 << 16, LIMIT = 1 << 20, LONGEST_STREAM = 1 << 24 };

/* A stream of messages of a length, and whether they are wanted whole. */
struct work {
    size_t stream_len;
    size_t length;
    bool is_whole;
    uint8_t wanted[256];
    uint8_t *stream;
};

/* What goes out at once at most: a message and a piece. */
static uint8_t out[LIMIT + PIECE];

/* How many bytes at the front go out, once a piece is there. */
static size_t count_passed(pgmsg_relay *relay, const uint8_t *wanted, const uint8_t *front, size_t len)
{
    pgmsg_passage passage;
    pgmsg_fault fault;
    size_t count = 0;
    int32_t found;
    while ((found = pgmsg_relay_next(relay, wanted, front + count, len - count, &passage, &fault)) > 0)
        count += passage.length;
    if (found < 0)
        abort();
    return count;
}

static uint64_t by_library(const void *work, int times)
{
    const struct work *of = work;
    uint64_t sum = 0;
    for (int i = 0; i < times; i++) {
        pgmsg_relay relay = {.limit = LIMIT, .left = 0, .is_first = false};
        const uint8_t *front = of->stream;
        for (size_t end = PIECE; end <= of->stream_len; end += PIECE) {
            size_t count = count_passed(&relay, of->wanted, front, (size_t)(of->stream + end - front));
            memcpy(out, front, count);
            sum += out[0];
            front += count;
        }
        if (front != of->stream + of->stream_len || relay.left > 0)
            abort();
    }
    return sum;
}

static uint64_t by_memcpy(const void *work, int times)
{
    const struct work *of = work;
    uint64_t sum = 0;
    for (int i = 0; i < times; i++) {
        for (size_t at = 0; at < of->stream_len; at += PIECE) {
            memcpy(out, of->stream + at, PIECE);
            sum += out[0];
        }
    }
    return sum;
}

/* Fills the stream with messages of the length; the last one has what is left. */
static void make(struct work *work)
{
    for (size_t at = 0, len; at < work->stream_len; at += len) {
        len = work->stream_len - at < 2 * work->length ? work->stream_len - at : work->length;
        uint32_t said = (uint32_t)(len - 1);
        uint8_t head[HEADER] = {'D', (uint8_t)(said >> 24), (uint8_t)(said >> 16), (uint8_t)(said >> 8), (uint8_t)said};
        memset(work->stream + at, 'x', len);
        memcpy(work->stream + at, head, HEADER);
    }
    memset(work->wanted, work->is_whole, sizeof work->wanted);
}

/* Prints the line of a stream. */
static void compare(struct work *work, uint64_t *sum)
{
    double pieces = (double)work->stream_len / PIECE;
    make(work);
    struct turns of = take_turns(by_library, by_memcpy, work, (int)(LONGEST_STREAM / work->stream_len), sum);
    print_turns(of, pieces, "memcpy", "pass on 64 KiB, of %zu KiB of %zu bytes, %s", work->stream_len / 1024, work->length,
                work->is_whole ? "whole" : "in parts");
}

int main(void)
{
    static const size_t lengths[] = {50, 1000, 1 << 16, 1 << 20}, streams[] = {1 << 19, LONGEST_STREAM};
    static struct work work;
    uint64_t sum = 0;
    work.stream = malloc(LONGEST_STREAM);
    if (work.stream == NULL)
        return 1;
    for (size_t i = 0; i < 4 * sizeof lengths / sizeof *lengths; i++) {
        work.length = lengths[i / 4];
        work.stream_len = streams[i / 2 % 2];
        work.is_whole = i % 2 == 0;
        if (work.length <= work.stream_len)
            compare(&work, &sum);
    }
    free(work.stream);
    return sum == 0;
}
