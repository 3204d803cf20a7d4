/* One word: its tag and its content. And an answer with its place. */
#ifndef PLAIN_WORDS_H
#define PLAIN_WORDS_H

#include "station.h"

enum { VARIABLE = 16, CONSTANT = 18, FUNCTION = 19, POINTER = 20, COUNT = 24 };

enum { MOST_WORDS = 4096, MOST_ENTRIES = 512, MOST_ARGUMENTS = 255 };

static inline uint32_t tag(uint32_t word) {
    return word >> 16;
}

static inline uint32_t content(uint32_t word) {
    return word & 65535u;
}

static inline int is_node(uint32_t word) {
    return tag(word) == VARIABLE || tag(word) == CONSTANT || tag(word) == FUNCTION;
}

/* The i-th child, from 0, of the function at x. */
static inline uint32_t child(const uint32_t *table, uint32_t x, uint32_t i) {
    uint32_t at = x + 2 + i, word = table[at];
    return tag(word) == POINTER ? content(word) : at;
}

static inline uint32_t count_of(const uint32_t *table, uint32_t function) {
    return content(table[function + 1]);
}

struct answer {
    uint16_t number, place, joins;
};

static inline struct answer refusal(uint16_t number, size_t place) {
    return (struct answer){number, (uint16_t)place, 0};
}

#endif
