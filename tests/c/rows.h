/* Rows of numbers, read from standard input as a length and the entries, each in a block of memory that is
 * exactly as long as the row: what reads or writes beside it can be caught.
 */
#ifndef ROWS_H
#define ROWS_H

#include <stdint.h>
#include <stdio.h>
#include <stdlib.h>

static unsigned long number(void) {
    unsigned long n;
    if (scanf("%lu", &n) != 1) {
        fprintf(stderr, "a number is missing\n");
        exit(2);
    }
    return n;
}

/* A block of no bytes has an address of its own with the library's malloc. */
static void *block(size_t bytes) {
    void *start = malloc(bytes);
    if (start == NULL) {
        fprintf(stderr, "no memory\n");
        exit(2);
    }
    return start;
}

#define ROW(type)                                                                                                      \
    struct type##_row {                                                                                                \
        type *entries;                                                                                                 \
        size_t length;                                                                                                 \
    };                                                                                                                 \
    /* Entries that nobody set. */                                                                                     \
    static inline struct type##_row type##_room(size_t length) {                                                      \
        struct type##_row row = {(type *)block(length * sizeof(type)), length};                                        \
        return row;                                                                                                    \
    }                                                                                                                  \
    static inline struct type##_row type##_read(void) {                                                               \
        struct type##_row row = type##_room(number());                                                                 \
        for (size_t i = 0; i < row.length; i++)                                                                        \
            row.entries[i] = (type)number();                                                                           \
        return row;                                                                                                    \
    }                                                                                                                  \
    static inline void type##_print(struct type##_row row, size_t entries) {                                          \
        for (size_t i = 0; i < entries; i++)                                                                           \
            printf(" %lu", (unsigned long)row.entries[i]);                                                             \
    }

ROW(uint8_t)
ROW(uint16_t)
ROW(uint32_t)

#endif
