/* The families of jobs that are measured. Each makes a job of about the words asked for, never more.
 *
 * Of a random family there are many jobs of one size, told apart by a number.
 */
#ifndef FAMILIES_H
#define FAMILIES_H

#include "job.h"

enum { MOST_SIZES = 8 };

struct family {
    const char *name;
    const char *what;
    void (*make)(struct job *job, size_t words, uint32_t which);
    int random; /* whether another number gives another job */
    size_t own[MOST_SIZES]; /* the sizes that are asked for; the time against words is measured at others too */
    size_t least;           /* fewer words have no such job */
};

extern const struct family families[];
extern const size_t family_count;

/* A random table whose pairs are kept only while the list can be met, and one with pairs as they come. */
void random_met(struct job *job, size_t words, uint32_t which);
void random_any(struct job *job, size_t words, uint32_t which);

#endif
