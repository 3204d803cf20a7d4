/* Random tables: few symbols, so that functions meet, and pointers to earlier nodes, so that none loops. */
#include "families.h"
#include "plain/plain.h"
#include "random.h"

#include <string.h>

enum { SYMBOLS = 3, MOST_ARGUMENTS_HERE = 4 };

struct nodes {
    uint16_t at[MOST_WORDS];
    uint32_t count;
};

static void put_node(struct job *job, struct nodes *nodes, uint32_t word) {
    nodes->at[nodes->count++] = put_word(job, word);
}

/* Labels all over the 16 bits, none twice: times an odd number is one to one. */
static uint32_t new_variable(const struct job *job) {
    return STATION_VARIABLE(job->words * 25173u);
}

static void put_leaf(struct job *job, struct nodes *nodes, struct numbers *numbers) {
    if (below(numbers, 3) == 0)
        put_node(job, nodes, STATION_CONSTANT(below(numbers, SYMBOLS)));
    else
        put_node(job, nodes, new_variable(job));
}

static void put_block(struct job *job, struct nodes *nodes, struct numbers *numbers, uint16_t arguments) {
    uint32_t earlier = nodes->count;
    put_node(job, nodes, STATION_FUNCTION(below(numbers, SYMBOLS)));
    put_word(job, STATION_COUNT(arguments));
    for (uint16_t i = 0; i < arguments; i++)
        if (earlier > 0 && below(numbers, 2) == 0)
            put_word(job, STATION_POINTER_TO(nodes->at[below(numbers, earlier)]));
        else
            put_leaf(job, nodes, numbers);
}

static void random_table(struct job *job, struct nodes *nodes, struct numbers *numbers, size_t words) {
    begin_job(job);
    nodes->count = 0;
    while (job->words < words) {
        uint16_t arguments = (uint16_t)(1 + below(numbers, MOST_ARGUMENTS_HERE));
        if (below(numbers, 4) == 0 || job->words + 2 + arguments > words)
            put_leaf(job, nodes, numbers);
        else
            put_block(job, nodes, numbers, arguments);
    }
}

static int can_be_met(const struct job *job) {
    static uint16_t classes[MOST_WORDS], work[4 * MOST_WORDS];
    uint64_t result = plain_lent(job->table, job->words, job->list, 2 * job->pairs, classes, MOST_WORDS, work,
                                 4 * MOST_WORDS);
    return STATION_ANSWER_OF(result) == STATION_ACCEPTED;
}

static void random_job(struct job *job, size_t words, uint32_t which, int only_met) {
    static struct nodes nodes;
    struct numbers numbers = {0x9e3779b97f4a7c15u + words + ((uint64_t)which << 32)};
    random_table(job, &nodes, &numbers, words);
    for (size_t tries = words / 8; tries > 0 && job->pairs < words / 16; tries--) {
        uint16_t left = nodes.at[below(&numbers, nodes.count)];
        put_pair(job, left, nodes.at[below(&numbers, nodes.count)]);
        if (only_met && !can_be_met(job))
            job->pairs--;
    }
}

void random_met(struct job *job, size_t words, uint32_t which) {
    random_job(job, words, which, 1);
}

void random_any(struct job *job, size_t words, uint32_t which) {
    random_job(job, words, which, 0);
}
