/* Pseudo-random numbers: from one seed always the same. */
#ifndef ANY_H
#define ANY_H

#include "check.h"

static uint64_t state; /* set by who draws */

/* splitmix64 */
static inline uint64_t any(void) {
    uint64_t z = state += UINT64_C(0x9E3779B97F4A7C15);
    z = (z ^ z >> 30) * UINT64_C(0xBF58476D1CE4E5B9);
    z = (z ^ z >> 27) * UINT64_C(0x94D049BB133111EB);
    return z ^ z >> 31;
}

static inline uint32_t below(uint32_t bound) {
    return (uint32_t)(any() >> 33) % bound;
}

static inline bool one_in(uint32_t n) {
    return below(n) == 0;
}

static inline void fill(uint8_t *bytes, size_t count) {
    for (size_t i = 0; i < count; i++)
        bytes[i] = (uint8_t)any();
}

#endif
