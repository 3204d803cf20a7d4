/* The shortest of many runs, the two sides by turns, so that both meet the machine in the same state. */
#ifndef CLOCK_H
#define CLOCK_H

#include "job.h"
#include "sides.h"

/* The most jobs of a measurement, and the most bytes of their files together. */
enum { MOST_JOBS = 512, FILES_ROOM = 512 * 1024 };

struct times {
    double lent[SIDES], match[SIDES]; /* nanoseconds a call */
};

struct times no_times(void);

/* Runs the jobs often, one after the other, and keeps what is shorter than before. */
void measure(const struct job *jobs, size_t count, struct times *times);

double now(void);

#endif
