/* Makes calls to be counted by callgrind, in the place of turns.c: `counted` is called once for each line, and the line says how
 * many calls it stands for. */
#include "turns.h"

#include <stdarg.h>
#include <stdio.h>

enum { MOST_TIMES = 500 };

/* A function of its own, between whose begin and end callgrind counts. */
static __attribute__((noinline)) void counted(timed *volatile call, const void *what, int times, uint64_t *sum)
{
    *sum += call(what, times);
}

struct turns take_turns(timed *library, timed *hand, const void *what, int times, uint64_t *sum)
{
    (void)hand;
    if (times > MOST_TIMES)
        times = MOST_TIMES;
    *sum += library(what, 1);
    counted(library, what, times, sum);
    return (struct turns){.library = times};
}

void print_turns(struct turns of, double count, const char *other, const char *words, ...)
{
    va_list given;
    (void)other;
    va_start(given, words);
    vprintf(words, given);
    va_end(given);
    printf("\t%.0f\n", of.library * count);
}

void print_body(const char *words, uint8_t tag, const uint8_t *body, size_t len, double nanoseconds)
{
    (void)tag, (void)body, (void)len;
    printf("%s\t%.0f\n", words, nanoseconds);
}
