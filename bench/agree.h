/* Nothing is timed on which the two sides differ: the same numbers and the same bytes in every buffer. */
#ifndef AGREE_H
#define AGREE_H

#include "job.h"

/* Ends the program with a message where they differ. Returns the result of the lent call. */
uint64_t must_agree(const struct job *job, const char *what);

/* The same on many small jobs, most of them damaged, for the refusals that no family has. */
void must_agree_on_damaged_jobs(void);

#endif
