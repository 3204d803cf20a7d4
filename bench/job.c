#include "job.h"

#include <stdio.h>
#include <stdlib.h>
#include <string.h>

/* A generator that passes the limits is wrong, and its job would measure nothing. */
static void within(size_t number, size_t most, const char *what) {
    if (number < most)
        return;
    fprintf(stderr, "a job with too many %s\n", what);
    exit(1);
}

void begin_job(struct job *job) {
    job->words = 0;
    job->pairs = 0;
    put_word(job, 0);
}

uint16_t put_word(struct job *job, uint32_t word) {
    within(job->words, MOST_WORDS, "words");
    job->table[job->words] = word;
    return (uint16_t)job->words++;
}

uint16_t put_function(struct job *job, uint16_t label, uint16_t arguments) {
    uint16_t at = put_word(job, STATION_FUNCTION(label));
    put_word(job, STATION_COUNT(arguments));
    return at;
}

void put_pair(struct job *job, uint16_t left, uint16_t right) {
    within(job->pairs, MOST_PAIRS, "pairs");
    job->list[2 * job->pairs] = left;
    job->list[2 * job->pairs + 1] = right;
    job->pairs++;
}

size_t file_of(const struct job *job, uint8_t *file) {
    uint16_t sizes[] = {(uint16_t)job->words, (uint16_t)job->pairs};
    size_t of_words = 4 * job->words, of_pairs = 4 * job->pairs;
    static uint8_t bodies[FILE_ROOM];
    memcpy(bodies, job->table, of_words);
    memcpy(bodies + of_words, job->list, of_pairs);
    if (station_write(sizes, 2, bodies, of_words + of_pairs, file, FILE_ROOM) != 0) {
        fprintf(stderr, "a job that no file can hold\n");
        exit(1);
    }
    return 2 + 6 + of_words + of_pairs;
}
