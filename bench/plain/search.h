/* Loops and cycles are one search, depth first and without recursion: marks and path lie in the work row.
 *
 * A mark is 0 for new, FINISHED, or on the path 1 + the number of children looked at. Variables and constants
 * have no children, so only functions are marked, and what is at the end of the path is kept in registers.
 */
#ifndef PLAIN_SEARCH_H
#define PLAIN_SEARCH_H

#include "words.h"

#include <string.h>

enum { FINISHED = 65535 };

/* The name of the class of x's child at place i. Without a class row, each node is its own class. */
static inline uint32_t next(const uint32_t *table, const uint16_t *class, uint32_t x, uint32_t i) {
    uint32_t y = child(table, x, i);
    return class ? class[y] : y;
}

/* The first child of x from place i on that is not known to be safe, or the number of children. */
static inline uint32_t first_open(const uint32_t *table, const uint16_t *class, const uint16_t *mark, uint32_t x,
                                  uint32_t i) {
    uint32_t count = count_of(table, x);
    for (; i < count; i++) {
        uint32_t y = next(table, class, x, i);
        if (tag(table[y]) == FUNCTION && mark[y] != FINISHED)
            break;
    }
    return i;
}

/* Whether a cycle is found from a new function. */
static inline int from_root(const uint32_t *table, const uint16_t *class, uint16_t *mark, uint16_t *path, uint32_t x) {
    uint32_t i = 0, depth = 0;
    for (mark[x] = 1;;) {
        i = first_open(table, class, mark, x, i);
        if (i < count_of(table, x)) {
            uint32_t y = next(table, class, x, i);
            if (mark[y] != 0)
                return 1;
            mark[x] = (uint16_t)(i + 2);
            path[depth++] = (uint16_t)x;
            x = y, i = 0;
            mark[x] = 1;
        } else {
            mark[x] = FINISHED;
            if (depth == 0)
                return 0;
            x = path[--depth], i = mark[x] - 1u;
        }
    }
}

/* Whether some class reaches itself. The class row is flat. */
static inline int reaches_itself(const uint32_t *table, size_t n, const uint16_t *class, uint16_t *work) {
    uint16_t *mark = work, *path = work + n;
    memset(mark, 0, n * sizeof *mark);
    for (uint32_t x = 1; x < n; x++)
        if (tag(table[x]) == FUNCTION && mark[x] == 0 && (!class || class[x] == x))
            if (from_root(table, class, mark, path, x))
                return 1;
    return 0;
}

#endif
