#include "families.h"

#include "copies.h"
#include "examples.h"

static void example_2_of_25(struct job *job, size_t words, uint32_t which) {
    (void)which;
    example_2(job, words, 25);
}

static void example_2_of_128(struct job *job, size_t words, uint32_t which) {
    (void)which;
    example_2(job, words, 128);
}

static void example_3_of_5(struct job *job, size_t words, uint32_t which) {
    (void)which;
    example_3(job, words, 5);
}

static void example_3_of_25(struct job *job, size_t words, uint32_t which) {
    (void)which;
    example_3(job, words, 25);
}

static void example_3_of_128(struct job *job, size_t words, uint32_t which) {
    (void)which;
    example_3(job, words, 128);
}

/* Functions of one argument, each block pointing to the next; the last argument is given. */
static uint16_t put_chain(struct job *job, size_t blocks, uint32_t end) {
    uint16_t first = (uint16_t)job->words;
    for (size_t k = 1; k <= blocks; k++) {
        uint16_t block = put_function(job, 1, 1);
        put_word(job, k < blocks ? STATION_POINTER_TO(block + 3) : end);
    }
    return first;
}

static void chains(struct job *job, size_t words, uint32_t which) {
    (void)which;
    begin_job(job);
    size_t blocks = copies_in(words, 6);
    uint16_t left = put_chain(job, blocks, STATION_VARIABLE(1));
    uint16_t right = put_chain(job, blocks, STATION_CONSTANT(1));
    put_pair(job, left, right);
}

enum { WORDS_A_PAIR = 16 }; /* so 4,096 words have 256 pairs */

/* f(Xi, a, b, c, d) and f(e, a, b, c, Yi) */
static void many_pairs(struct job *job, size_t words, uint32_t which) {
    (void)which;
    begin_job(job);
    for (size_t k = 0; k < words / WORDS_A_PAIR; k++) {
        uint16_t left = put_function(job, 1, 5);
        put_word(job, STATION_VARIABLE(2 * k));
        for (uint16_t i = 1; i < 5; i++)
            put_word(job, STATION_CONSTANT(i));
        uint16_t right = put_function(job, 1, 5);
        for (uint16_t i = 0; i < 4; i++)
            put_word(job, STATION_CONSTANT(i));
        put_word(job, STATION_VARIABLE(2 * k + 1));
        put_pair(job, left, right);
    }
}

/* Blocks f(Xi, a, .., a); each variable is paired with the next block, and the last one with the first. */
static void late_cycle(struct job *job, size_t words, uint32_t which) {
    (void)which;
    enum { BLOCK = WORDS_A_PAIR - 1 };
    begin_job(job);
    uint16_t pairs = (uint16_t)(words / WORDS_A_PAIR);
    for (uint16_t k = 0; k < pairs; k++) {
        put_function(job, 1, BLOCK - 2);
        put_word(job, STATION_VARIABLE(k));
        for (uint16_t i = 1; i < BLOCK - 2; i++)
            put_word(job, STATION_CONSTANT(1));
    }
    for (uint16_t k = 0; k < pairs; k++)
        put_pair(job, (uint16_t)(1 + BLOCK * k + 2), (uint16_t)(1 + BLOCK * ((k + 1) % pairs)));
}

/* 4,095 labels can agree in their four low bits, and no more. */
static void low_bits(struct job *job, size_t words, uint32_t which) {
    (void)which;
    begin_job(job);
    while (job->words < words)
        put_word(job, STATION_VARIABLE(16 * job->words));
    put_pair(job, 1, 2);
}

/* Any number of variables may have label 0, which is no name. */
static void unnamed(struct job *job, size_t words, uint32_t which) {
    (void)which;
    begin_job(job);
    while (job->words < words)
        put_word(job, STATION_VARIABLE(0));
    put_pair(job, 1, 2);
}

const struct family families[] = {
    {"example-2-25", "document 000's example 2, n = 25", example_2_of_25, 0, {55}, 55},
    {"example-2-128", "document 000's example 2, n = 128", example_2_of_128, 0, {261}, 261},
    {"example-3-5", "document 000's example 3, n = 5", example_3_of_5, 0, {55}, 55},
    {"example-3-25", "document 000's example 3, n = 25", example_3_of_25, 0, {295}, 295},
    {"example-3-128", "document 000's example 3, n = 128", example_3_of_128, 0, {1531}, 1531},
    {"chain", "two chains of functions of one argument", chains, 0, {4096}, 64},
    {"pairs", "a pair for each 16 words, 256 at most", many_pairs, 0, {4096}, 64},
    {"late-cycle", "a cycle closed by the last pair, 256 at most", late_cycle, 0, {4096}, 64},
    {"low-bits", "variables whose labels agree in their low bits", low_bits, 0, {4096}, 64},
    {"unnamed", "variables that all have label 0", unnamed, 0, {4096}, 64},
    {"random-met", "random tables, lists that can be met", random_met, 1, {64, 512, 4096}, 64},
    {"random-any", "random tables, lists as they come", random_any, 1, {64, 512, 4096}, 64},
};

const size_t family_count = sizeof families / sizeof families[0];
