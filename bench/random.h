/* Numbers that look random and are the same in every run (xorshift, 64 bits), as in the tests. */
#ifndef RANDOM_H
#define RANDOM_H

#include <stdint.h>

struct numbers {
    uint64_t state; /* not 0 */
};

static inline uint32_t number(struct numbers *numbers) {
    numbers->state ^= numbers->state << 13;
    numbers->state ^= numbers->state >> 7;
    numbers->state ^= numbers->state << 17;
    return (uint32_t)(numbers->state >> 32);
}

static inline uint32_t below(struct numbers *numbers, uint32_t bound) {
    return number(numbers) % bound;
}

#endif
