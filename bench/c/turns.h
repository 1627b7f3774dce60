/* Times two calls by turns. */
#ifndef TURNS_H
#define TURNS_H

#include <stddef.h>
#include <stdint.h>

enum { ROUNDS = 101 };

/* A round is taken again where a fixed loop takes so much longer around it than at its fastest, for so many seconds. */
#define SLOWER 1.1
#define PATIENCE 5.0

/* A call that is timed: so often, with a sum of what it gives, which keeps the work from being left out. */
typedef uint64_t timed(const void *what, int times);

#define TIMED(name, work)                             \
    static uint64_t name(const void *what, int times) \
    {                                                 \
        return work;                                  \
    }

/* The medians, over the rounds, of the nanoseconds of one call. */
struct turns {
    double library, hand;
};

/* Takes turns, so that both meet the same state of the machine. */
struct turns take_turns(timed *library, timed *hand, const void *what, int times, uint64_t *sum);

/* Prints a line of the table that `speed` makes: in words what is timed, the nanoseconds of one of `count` of it by the
 * library, what else was timed, its nanoseconds, and the quotient. */
void print_turns(struct turns of, double count, const char *other, const char *words, ...);

/* Prints a line for a program that times other code: in words what was timed, the tag, the body in hexadecimal digits and the
 * nanoseconds of the library, apart by tabs. */
void print_body(const char *words, uint8_t tag, const uint8_t *body, size_t len, double nanoseconds);

#endif
