/* The variables' names met so far: chains in the work row, as the station keeps them.
 *
 * The first 3n entries begin the chains, the last n have the links, and 0 ends a chain. Times an odd
 * number is one to one on 16 bits, so no more labels share a chain than by a remainder, and nothing is
 * divided.
 */
#ifndef PLAIN_NAMES_H
#define PLAIN_NAMES_H

#include "words.h"

#include <string.h>

struct names {
    const uint32_t *table;
    uint32_t starts;
    uint16_t *first, *next;
};

static inline struct names no_names(const uint32_t *table, size_t n, uint16_t *work) {
    memset(work, 0, 3 * n * sizeof *work); /* a link is written before it is read */
    return (struct names){table, (uint32_t)(3 * n), work, work + 3 * n};
}

/* Whether the variable at an address repeats a name. If not, it is kept. Callers leave STATION_UNNAMED out: with
 * that test in here gcc makes slower code.
 */
static inline int repeats_name(struct names *names, uint32_t at) {
    uint32_t word = names->table[at];
    uint16_t *first = &names->first[(uint16_t)(word * 40503u) * names->starts >> 16];
    for (uint32_t earlier = *first; earlier != 0; earlier = names->next[earlier])
        if (names->table[earlier] == word)
            return 1;
    names->next[at] = *first;
    *first = (uint16_t)at;
    return 0;
}

#endif
