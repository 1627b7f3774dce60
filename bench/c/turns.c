/* Times two calls by turns. */
#define _POSIX_C_SOURCE 200809L

#include "turns.h"

#include <stdarg.h>
#include <stdbool.h>
#include <stdio.h>
#include <stdlib.h>
#include <time.h>

static double processor_seconds(void)
{
    struct timespec now;
    if (clock_gettime(CLOCK_PROCESS_CPUTIME_ID, &now) < 0) {
        perror("clock_gettime");
        exit(1);
    }
    return (double)now.tv_sec + (double)now.tv_nsec * 1e-9;
}

static double time_of(timed *volatile call, const void *what, int times, uint64_t *sum)
{
    double begin = processor_seconds();
    *sum += call(what, times);
    return (processor_seconds() - begin) / times * 1e9;
}

static int compare(const void *one, const void *other)
{
    double a = *(const double *)one, b = *(const double *)other;
    return (a > b) - (a < b);
}

static double median(double *all)
{
    qsort(all, ROUNDS, sizeof *all, compare);
    return all[ROUNDS / 2];
}

static double wall_seconds(void)
{
    struct timespec now;
    clock_gettime(CLOCK_MONOTONIC, &now);
    return (double)now.tv_sec + (double)now.tv_nsec * 1e-9;
}

/* The seconds of a fixed loop of four sums, which don't wait for each other. */
static double loop_seconds(void)
{
    static volatile uint64_t kept;
    uint64_t sums[4] = {0};
    double begin = processor_seconds();
    for (uint64_t i = 0; i < 1 << 15; i++) {
        for (int j = 0; j < 4; j++)
            sums[j] = (sums[j] + i) * 3 ^ sums[j] >> 5;
    }
    kept = sums[0] ^ sums[1] ^ sums[2] ^ sums[3];
    (void)kept;
    return processor_seconds() - begin;
}

/* Whether the processor is slower than at its fastest. Others on the same host can slow it down for seconds at a time. */
static bool is_slow(double *fastest)
{
    double taken = loop_seconds();
    if (taken < *fastest)
        *fastest = taken;
    return taken > SLOWER * *fastest;
}

struct turns take_turns(timed *library, timed *hand, const void *what, int times, uint64_t *sum)
{
    static double of_library[ROUNDS], of_hand[ROUNDS], fastest = 1;
    double end = wall_seconds() + PATIENCE;
    for (int round = 0; round < ROUNDS;) {
        double known = fastest;
        bool was_slow = is_slow(&fastest);
        of_library[round] = time_of(library, what, times, sum);
        of_hand[round] = time_of(hand, what, times, sum);
        if (is_slow(&fastest) + was_slow == 0 || wall_seconds() > end)
            round++;
        if (known > SLOWER * fastest)
            round = 0;
    }
    return (struct turns){.library = median(of_library), .hand = median(of_hand)};
}

void print_turns(struct turns of, double count, const char *other, const char *words, ...)
{
    va_list given;
    va_start(given, words);
    printf("| ");
    vprintf(words, given);
    va_end(given);
    printf(" | %.1f | %s | %.1f | %.2f |\n", of.library / count, other, of.hand / count, of.library / of.hand);
}

void print_body(const char *words, uint8_t tag, const uint8_t *body, size_t len, double nanoseconds)
{
    printf("%s\t%c\t", words, tag);
    for (size_t i = 0; i < len; i++)
        printf("%02x", body[i]);
    printf("\t%.1f\n", nanoseconds);
}
