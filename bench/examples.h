/* Document 000's examples 2 and 3, copy beside copy as many as a table holds. A pair for each copy. */
#ifndef EXAMPLES_H
#define EXAMPLES_H

#include "job.h"

void example_2(struct job *job, size_t words, uint16_t n);
void example_3(struct job *job, size_t words, uint16_t n);

#endif
