/* How many copies of a block of words a table of a size holds.
 *
 * Above 2,048 words it is twice what half the table holds, so that twice the words are twice the work and
 * the growth from 2,048 to 4,096 words is not one of rounding.
 */
#ifndef COPIES_H
#define COPIES_H

#include <stddef.h>

static inline size_t copies_in(size_t words, size_t block) {
    return words > 2048 ? 2 * ((words / 2 - 1) / block) : (words - 1) / block;
}

#endif
