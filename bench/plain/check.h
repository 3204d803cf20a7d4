/* The table check: the answers 3 to 7.
 *
 * One walk along the row of items looks at everything from 3 to 6 together. A table that fails it is
 * gone through again, number by number, for the lowest number and its lowest place.
 */
#ifndef PLAIN_CHECK_H
#define PLAIN_CHECK_H

#include "names.h"
#include "search.h"
#include "words.h"

static inline int bad_word(uint32_t word) {
    if (tag(word) == COUNT)
        return content(word) - 1 >= MOST_ARGUMENTS;
    return !is_node(word) && tag(word) != POINTER;
}

static inline int bad_pointer(const uint32_t *table, size_t n, uint32_t word) {
    uint32_t target = content(word);
    return target == 0 || target >= n || !is_node(table[target]);
}

/* Whether no fault from 3 to 6 is there. */
static inline int sound(const uint32_t *table, size_t n, uint16_t *work) {
    struct names names = no_names(table, n, work);
    if (table[0] != 0)
        return 0;
    for (uint32_t at = 1; at < n;) {
        uint32_t kind = tag(table[at]);
        if (kind == FUNCTION) {
            if (at + 1 >= n || tag(table[at + 1]) != COUNT || bad_word(table[at + 1]))
                return 0;
            uint32_t end = at + 2 + count_of(table, at);
            if (end > n)
                return 0;
            for (at += 2; at < end; at++) {
                uint32_t word = table[at];
                if (tag(word) == POINTER) {
                    if (bad_pointer(table, n, word))
                        return 0;
                } else if (tag(word) == VARIABLE) {
                    if (word != STATION_UNNAMED && repeats_name(&names, at))
                        return 0;
                } else if (tag(word) != CONSTANT)
                    return 0;
            }
        } else if (kind == VARIABLE) {
            if (table[at] != STATION_UNNAMED && repeats_name(&names, at))
                return 0;
            at++;
        } else if (kind == CONSTANT)
            at++;
        else
            return 0;
    }
    return 1;
}

/* The first word that cannot stand where it does, n if a block runs past the end, or 0. */
static size_t layout_break(const uint32_t *table, size_t n) {
    for (size_t at = 1; at < n;) {
        if (!is_node(table[at]))
            return at;
        if (tag(table[at]) != FUNCTION) {
            at++;
            continue;
        }
        if (at + 1 >= n || tag(table[at + 1]) != COUNT)
            return at + 1;
        size_t end = at + 2 + count_of(table, (uint32_t)at);
        for (at += 2; at < end; at++)
            if (at >= n || tag(table[at]) == FUNCTION || tag(table[at]) == COUNT)
                return at;
    }
    return 0;
}

/* The answer for a table that is known to have a fault from 3 to 6. */
static struct answer first_fault(const uint32_t *table, size_t n, uint16_t *work) {
    if (table[0] != 0)
        return refusal(STATION_WORD, 0);
    for (size_t at = 1; at < n; at++)
        if (bad_word(table[at]))
            return refusal(STATION_WORD, at);
    size_t at = layout_break(table, n);
    if (at != 0)
        return refusal(STATION_LAYOUT, at);
    for (at = 1; at < n; at++)
        if (tag(table[at]) == POINTER && bad_pointer(table, n, table[at]))
            return refusal(STATION_POINTER, at);
    struct names names = no_names(table, n, work);
    for (at = 1; at < n; at++)
        if (tag(table[at]) == VARIABLE && table[at] != STATION_UNNAMED && repeats_name(&names, (uint32_t)at))
            break;
    return refusal(STATION_NAME, at);
}

static inline struct answer check(const uint32_t *table, size_t n, uint16_t *work) {
    if (!sound(table, n, work))
        return first_fault(table, n, work);
    return refusal(reaches_itself(table, n, NULL, work) ? STATION_LOOP : STATION_ACCEPTED, 0);
}

#endif
