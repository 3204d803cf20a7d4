/* The answers 8 to 11 and 0, for a table that passed its check: pairs are joined up to the first clash and
 * searched once; the first pair that closes a cycle is found by halving.
 */
#ifndef PLAIN_UNIFY_H
#define PLAIN_UNIFY_H

#include "join.h"
#include "search.h"
#include "words.h"

static inline size_t first_cycle(const uint32_t *table, size_t n, const uint16_t *list, size_t pairs,
                                 uint16_t *class, uint16_t *work) {
    size_t none = 0, some = pairs;
    while (none + 1 < some) {
        size_t middle = (none + some) / 2;
        join(table, n, list, middle, class, work);
        if (reaches_itself(table, n, class, work))
            some = middle;
        else
            none = middle;
    }
    return some;
}

static inline struct answer unify(const uint32_t *table, size_t n, const uint16_t *list, size_t entries,
                                  uint16_t *class, uint16_t *work) {
    if (entries % 2 == 1 || entries > MOST_ENTRIES)
        return refusal(STATION_LIST, 0);
    for (size_t i = 0; i < entries; i++)
        if (list[i] >= n || !is_node(table[list[i]]))
            return refusal(STATION_ADDRESS, i / 2 + 1);
    size_t pairs = entries / 2;
    struct joined joined = join(table, n, list, pairs, class, work);
    int clash = joined.pairs < pairs;
    if (clash)
        join(table, n, list, joined.pairs, class, work);
    if (reaches_itself(table, n, class, work))
        return refusal(STATION_CYCLE, first_cycle(table, n, list, joined.pairs, class, work));
    if (clash)
        return refusal(STATION_CLASH, joined.pairs + 1);
    return (struct answer){STATION_ACCEPTED, 0, joined.joins};
}

#endif
