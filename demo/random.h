/* Random numbers that are the same on every machine. */
#ifndef RANDOM_H
#define RANDOM_H

#include <stdint.h>

/* xorshift; the state is never 0 */
static inline uint64_t random_next(uint64_t *state)
{
    *state ^= *state << 13;
    *state ^= *state >> 7;
    *state ^= *state << 17;
    return *state;
}

static inline uint64_t random_below(uint64_t *state, uint64_t n) { return (random_next(state) >> 11) % n; }

/* A state from any seed: near seeds give unlike states, and none gives 0. */
static inline uint64_t random_seeded(uint64_t seed)
{
    uint64_t state = (seed + 1) * 0x9e3779b97f4a7c15u;
    state ^= state >> 31;
    return state != 0 ? state : 1;
}

#endif
