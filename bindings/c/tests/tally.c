/* Checks that are counted. */
#include "tally.h"

#include <stdio.h>
#include <string.h>

void check(struct tally *tally, bool holds, const char *words, const char *file, int line)
{
    if (holds) {
        tally->passed++;
    } else {
        tally->failed++;
        fprintf(stderr, "%s:%d: fails: %s\n", file, line, words);
    }
}

bool are_untouched(const void *bytes, size_t len)
{
    size_t i = 0;
    while (i < len && ((const uint8_t *)bytes)[i] == UNTOUCHED)
        i++;
    return i == len;
}

bool are_bytes(const uint8_t *bytes, size_t len, const char *text, size_t text_len)
{
    return len == text_len && memcmp(bytes, text, len) == 0;
}

int report(const struct tally *tally)
{
    if (tally->failed > 0) {
        printf("%u checks passed, %u failed\n", tally->passed, tally->failed);
        return 1;
    }
    printf("%u checks passed\n", tally->passed);
    return 0;
}
