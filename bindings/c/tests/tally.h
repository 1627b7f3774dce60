/* Checks that are counted. */
#ifndef TALLY_H
#define TALLY_H

#include <stdbool.h>
#include <stddef.h>
#include <stdint.h>

/* How many checks held, and how many didn't. */
struct tally {
    unsigned passed;
    unsigned failed;
};

/* Counts a check, and says on standard error where one doesn't hold. */
void check(struct tally *tally, bool holds, const char *words, const char *file, int line);

#define CHECK(tally, condition) check((tally), (condition), #condition, __FILE__, __LINE__)

/* The bytes of a literal, without its NUL, as two arguments. */
#define BYTES(literal) (const uint8_t *)(literal), sizeof(literal) - 1

/* What fills memory that a call may leave alone. */
enum { UNTOUCHED = 0xaa };

/* Whether so many bytes are as they were. */
bool are_untouched(const void *bytes, size_t len);

/* Whether some bytes are those of a text. */
bool are_bytes(const uint8_t *bytes, size_t len, const char *text, size_t text_len);

/* Prints the count, and gives the status to end with. */
int report(const struct tally *tally);

#endif
