/* Times the message layer that it is linked with. Reads commands, one a line, and answers each with a
 * line:
 *
 *     load PATH                   the bytes for the commands that follow: gives their length
 *     check HOW PIECE             a checksum of one pass, 0 where the layer doesn't offer that
 *     time HOW PIECE PASSES       nanoseconds of processor time
 *     count HOW PIECE PASSES      the same; callgrind writes its counts "first" and "all"
 *
 * What is timed are the passes after the first: a call with one pass is taken off a call with one more
 * than PASSES, and with it what is done once. PIECE is the length of a piece, for `pieces` alone. */
#define _POSIX_C_SOURCE 200809L

#include "layer.h"

#include <inttypes.h>
#include <stdio.h>
#include <stdlib.h>
#include <string.h>
#include <time.h>

#if __has_include(<valgrind/callgrind.h>)
#include <valgrind/callgrind.h>
#else
#define CALLGRIND_ZERO_STATS
#define CALLGRIND_DUMP_STATS_AT(name)
#endif

struct how {
    const char *name;
    encoder *encode;
    decoder *decode;
};

/* `pieces` has neither: its call has one argument more. */
static const struct how hows[] = {
    {"prepared", tw_encode_prepared, NULL},
    {"script", tw_encode_script, NULL},
    {"body", NULL, tw_decode_prepared},
    {"stream", NULL, tw_decode_stream},
    {"pieces", NULL, NULL},
#ifdef OURS
    {"encode_all", tw_encode_all, NULL},
    {"encode_strict", tw_encode_strict, NULL},
    {"borrowed", NULL, tw_decode_borrowed},
#endif
};

static uint8_t *input, *output;
static size_t input_len, output_room;

static uint64_t processor_time(void)
{
    struct timespec now;
    clock_gettime(CLOCK_PROCESS_CPUTIME_ID, &now);
    return (uint64_t)now.tv_sec * 1000000000 + (uint64_t)now.tv_nsec;
}

static uint64_t run(const struct how *how, size_t piece, size_t times, uint8_t full)
{
    if (how->encode)
        return how->encode(input, input_len, times, output, output_room);
    if (how->decode)
        return how->decode(input, input_len, times, full);
    return tw_decode_pieces(input, input_len, piece, times, full);
}

/* FNV-1a, of 64 bits. */
static uint64_t hash(const uint8_t *bytes, size_t len)
{
    uint64_t sum = 0xcbf29ce484222325;
    for (size_t i = 0; i < len; i++)
        sum = (sum ^ bytes[i]) * 0x100000001b3;
    return sum;
}

static uint64_t check(const struct how *how, size_t piece)
{
    uint64_t given = run(how, piece, 1, 1);
    return how->encode && given != 0 ? hash(output, (size_t)given) : given;
}

static uint64_t time_passes(const struct how *how, size_t piece, size_t passes)
{
    uint64_t begin = processor_time();
    run(how, piece, 1, 0);
    uint64_t first = processor_time();
    run(how, piece, 1 + passes, 0);
    uint64_t all = processor_time();
    uint64_t once = first - begin, whole = all - first;
    return whole > once ? whole - once : 0;
}

static uint64_t count_passes(const struct how *how, size_t piece, size_t passes)
{
    run(how, piece, 1, 0);
    CALLGRIND_ZERO_STATS;
    run(how, piece, 1, 0);
    CALLGRIND_DUMP_STATS_AT("first");
    CALLGRIND_ZERO_STATS;
    run(how, piece, 1 + passes, 0);
    CALLGRIND_DUMP_STATS_AT("all");
    return 0;
}

static size_t load(const char *path)
{
    FILE *file = fopen(path, "rb");
    if (!file || fseek(file, 0, SEEK_END) != 0)
        return 0;
    input_len = (size_t)ftell(file);
    output_room = 8 * input_len + 4096;
    free(input);
    free(output);
    input = malloc(input_len + 1);
    output = malloc(output_room);
    rewind(file);
    if (!input || !output || fread(input, 1, input_len, file) != input_len)
        exit(1);
    fclose(file);
    return input_len;
}

static const struct how *how_named(const char *name)
{
    for (size_t i = 0; i < sizeof hows / sizeof hows[0]; i++)
        if (strcmp(hows[i].name, name) == 0)
            return &hows[i];
    return NULL;
}

static uint64_t answer(const char *command, const char *word, size_t piece, size_t passes)
{
    if (strcmp(command, "load") == 0)
        return load(word);
    const struct how *how = how_named(word);
    if (!how)
        return 0;
    if (strcmp(command, "check") == 0)
        return check(how, piece);
    if (strcmp(command, "count") == 0)
        return count_passes(how, piece, passes);
    return time_passes(how, piece, passes);
}

int main(void)
{
    char line[4096], command[16], word[4000];
    while (fgets(line, sizeof line, stdin)) {
        size_t piece = 0, passes = 0;
        if (sscanf(line, "%15s %3999s %zu %zu", command, word, &piece, &passes) < 2)
            return 1;
        printf("%" PRIu64 "\n", answer(command, word, piece, passes));
        fflush(stdout);
    }
    return 0;
}
