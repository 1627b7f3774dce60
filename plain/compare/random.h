/* Random numbers, the same for the same seed. */
#ifndef RANDOM_H
#define RANDOM_H

#include <stddef.h>
#include <stdint.h>

void seed_random(uint64_t seed);

/* A number below a limit, which is above 0. */
size_t below(size_t limit);

/* Whether something happens that does once in so many times. */
int once_in(size_t times);

/* A number of which small ones are as likely as all others. */
uint64_t any_number(void);

#endif
