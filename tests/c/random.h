/* random.h - numbers that only the seed decides. */
#ifndef RANDOM_H
#define RANDOM_H

#include <stdbool.h>
#include <stdint.h>

static uint64_t seed = 1;

/* 0 to n - 1. */
static inline uint32_t below(uint32_t n)
{
    seed = seed * 6364136223846793005u + 1442695040888963407u;
    return (uint32_t)((seed >> 33) % n);
}

static inline bool once_in(uint32_t n) { return below(n) == 0; }

static inline uint16_t any_word(void) { return (uint16_t)below(0x10000); }

/* One bit, or none. */
static inline uint32_t perhaps(uint32_t bit, uint32_t n) { return once_in(n) ? bit : 0; }

#endif
