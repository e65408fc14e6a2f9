/* Numbers by chance, the same in each run. */
#ifndef CHANCE_H
#define CHANCE_H

#include <stdint.h>

/* The next number of a source (xorshift64). */
static inline uint64_t next(uint64_t *state)
{
    *state ^= *state << 13;
    *state ^= *state >> 7;
    *state ^= *state << 17;
    return *state >> 8;
}

static inline uint32_t below(uint64_t *state, uint32_t bound)
{
    return (uint32_t)(next(state) % bound);
}

#endif
