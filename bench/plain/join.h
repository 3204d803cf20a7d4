/* Pairs joined: the class row as a forest whose links fall in the naming order, so that a root is the name
 * of its class; paths are halved; two functions that are joined wait in the work row for their children.
 */
#ifndef PLAIN_JOIN_H
#define PLAIN_JOIN_H

#include "words.h"

struct forest {
    const uint32_t *table;
    uint16_t *class;
    uint16_t *waiting, *end; /* left, right, left, right */
};

static inline void apart(const uint32_t *table, size_t n, uint16_t *class) {
    for (size_t x = 0; x < n; x++)
        class[x] = is_node(table[x]) ? (uint16_t)x : 0;
}

static inline uint32_t root(uint16_t *class, uint32_t x) {
    for (uint32_t above = class[x]; above != x; above = class[x]) {
        uint32_t higher = class[above];
        class[x] = (uint16_t)higher;
        x = higher;
    }
    return x;
}

/* Two nodes meet. Returns 0 if they clash. */
static inline int meet(struct forest *forest, uint32_t left, uint32_t right) {
    const uint32_t *table = forest->table;
    uint16_t *class = forest->class;
    uint32_t a = root(class, left), b = root(class, right);
    if (a == b)
        return 1;
    uint32_t low = a < b ? a : b, high = a < b ? b : a;
    uint32_t low_word = table[low], high_word = table[high];
    if (tag(high_word) == VARIABLE)
        class[high] = (uint16_t)low;
    else if (tag(low_word) == VARIABLE)
        class[low] = (uint16_t)high;
    else {
        if (low_word != high_word)
            return 0;
        if (tag(low_word) == FUNCTION) {
            if (table[low + 1] != table[high + 1])
                return 0;
            *forest->end++ = (uint16_t)low;
            *forest->end++ = (uint16_t)high;
        }
        class[high] = (uint16_t)low;
    }
    return 1;
}

/* Joins a pair and all that must follow. Returns 0 if there is a clash. */
static inline int join_pair(struct forest *forest, uint32_t left, uint32_t right) {
    if (!meet(forest, left, right))
        return 0;
    while (forest->end != forest->waiting) {
        uint32_t g = *--forest->end, f = *--forest->end;
        for (uint32_t i = 0, count = count_of(forest->table, f); i < count; i++)
            if (!meet(forest, child(forest->table, f, i), child(forest->table, g, i)))
                return 0;
    }
    return 1;
}

/* Each node gets its root. Most have it already, and then nothing is written. */
static inline void flatten(size_t n, uint16_t *class) {
    for (uint32_t x = 1; x < n; x++) {
        uint32_t name = class[x];
        if (class[name] != name)
            class[x] = (uint16_t)root(class, name);
    }
}

/* The nodes that have another name than their own. What is no node has entry 0. */
static inline uint16_t count_joins(size_t n, const uint16_t *class) {
    uint16_t joins = 0;
    for (size_t x = 0; x < n; x++)
        joins += (class[x] != (uint16_t)x) & (class[x] != 0);
    return joins;
}

struct joined {
    size_t pairs; /* those before the first clash */
    uint16_t joins;
};

/* Joins the first pairs of a list afresh, up to a clash. */
static inline struct joined join(const uint32_t *table, size_t n, const uint16_t *list, size_t pairs,
                                 uint16_t *class, uint16_t *work) {
    struct forest forest = {table, class, work, work};
    apart(table, n, class);
    for (size_t k = 0; k < pairs; k++)
        if (!join_pair(&forest, list[2 * k], list[2 * k + 1]))
            return (struct joined){k, 0};
    flatten(n, class);
    return (struct joined){pairs, count_joins(n, class)};
}

#endif
