/* A job: a table and a list, made item by item. */
#ifndef JOB_H
#define JOB_H

#include "station.h"

enum { MOST_WORDS = 4096, MOST_PAIRS = 256 };

struct job {
    uint32_t table[MOST_WORDS];
    size_t words;
    uint16_t list[2 * MOST_PAIRS];
    size_t pairs;
};

void begin_job(struct job *job);

/* Both return the address at which the word now stands. */
uint16_t put_word(struct job *job, uint32_t word);
uint16_t put_function(struct job *job, uint16_t label, uint16_t arguments);

void put_pair(struct job *job, uint16_t left, uint16_t right);

/* The job file of this one job. Returns its length. */
enum { FILE_ROOM = 2 + 6 + 4 * MOST_WORDS + 4 * MOST_PAIRS };
size_t file_of(const struct job *job, uint8_t *file);

#endif
