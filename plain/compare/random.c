/* Random numbers by xorshift*, by Marsaglia and Vigna. */
#include "random.h"

static uint64_t state = 1;

static uint64_t next(void)
{
    state ^= state >> 12;
    state ^= state << 25;
    state ^= state >> 27;
    return state * 0x2545f4914f6cdd1d;
}

void seed_random(uint64_t seed)
{
    state = seed * 2 + 1;
}

size_t below(size_t limit)
{
    return (size_t)((next() >> 11) % limit);
}

int once_in(size_t times)
{
    return below(times) == 0;
}

uint64_t any_number(void)
{
    return next() >> below(64);
}
